"""Random lines: expressions, commands, bytes and tokens, and lines of scripts with a byte changed."""

from __future__ import annotations

from random import Random

from .vocabulary import COMMANDS, FOLDS, NAMES, NUMBERS, ONE, SCALAR, SIGNS, TEXTS, TWO


def list_of_numbers(chance: Random) -> str:
    few = NUMBERS[:13] if chance.random() < 0.9 else NUMBERS
    return " ".join(chance.choice(few) for _ in range(chance.choice([1, 1, 1, 2, 2, 3, 4])))


def operand(chance: Random, depth: int) -> str:
    kind = chance.random()
    if depth == 0 or kind < 0.3:
        return chance.choice([list_of_numbers(chance), chance.choice(NAMES), chance.choice(NAMES), chance.choice(TEXTS)])
    if kind < 0.8:
        return f"({expression(chance, depth - 1)})"
    axes = range(chance.choice([1, 1, 2, 2, 3, 4]))
    positions = [expression(chance, depth - 1) if chance.random() < 0.8 else "" for _ in axes]
    return chance.choice(NAMES) + f"[{';'.join(positions)}]"


def function_of_two(chance: Random) -> str:
    kind = chance.random()
    if kind < 0.2:
        return f"∘.{chance.choice(SCALAR)}"
    return f"{chance.choice(SCALAR)}.{chance.choice(SCALAR)}" if kind < 0.3 else chance.choice(TWO) + axis(chance)


def axis(chance: Random) -> str:
    return f"[{chance.choice('01234')}]" if chance.random() < 0.1 else ""


def expression(chance: Random, depth: int) -> str:
    """Returns an expression whose parts stand at most this deep one inside the other."""
    kind = chance.random()
    if depth == 0 or kind < 0.15:
        return operand(chance, depth)
    if kind < 0.4:
        return chance.choice(ONE) + expression(chance, depth - 1)
    if kind < 0.55:
        return chance.choice(SCALAR) + chance.choice(FOLDS) + axis(chance) + expression(chance, depth - 1)
    return operand(chance, depth - 1) + function_of_two(chance) + expression(chance, depth - 1)


def random_command(chance: Random) -> bytes:
    """Returns an expression, a change, or a command that is about a change."""
    name, depth = chance.choice(NAMES), chance.randrange(5)
    literal = chance.choice([list_of_numbers(chance), chance.choice(TEXTS)])
    places = ";".join(chance.choice("0123") for _ in range(chance.choice([1, 1, 2, 3])))
    forms = [expression(chance, depth)] * 6 + [f"{name}←{expression(chance, depth)}", f")DATA {name}←{expression(chance, depth)}"] * 2
    changes = [f"{name}[{places}]←{literal}", f")ROW {name} {literal}", f")ERASE {name}"]
    slot = chance.choice("0123456789")
    forms += [*changes, f")CSV {name}", *(f")OPEN {slot} {chance.choice(forms[-4:] + changes)}" for _ in range(3))]
    forms += [f"){word} {slot}" for word in ("STEP", "STEP", "STEP", "COMMIT", "COMMIT", "DROP")]
    return chance.choice(forms).encode()


def random_bytes(chance: Random) -> bytes:
    length = chance.choice([1, 3, 10, 40, 40, 200, 4096, 4097, 5000]) if chance.random() < 0.2 else chance.randrange(60)
    return bytes(chance.choice([chance.randrange(256), chance.randrange(32, 127)]) for _ in range(length)).replace(b"\n", b" ")


def random_tokens(chance: Random) -> bytes:
    kinds = [chance.choice([SIGNS, SIGNS, NAMES, NUMBERS, TEXTS, COMMANDS]) for _ in range(chance.randrange(1, 20))]
    return chance.choice(["", "", " "]).join(chance.choice(tokens) for tokens in kinds).encode()


def changed(chance: Random, line: bytes) -> bytes:
    """Returns the line with a byte changed, taken out or put in."""
    place, byte = chance.randrange(len(line) + 1), chance.choice([chance.randrange(256), chance.choice(b"()[];'0123456789 ABMT")])
    kind = chance.randrange(3)
    made = line[:place] + bytes([byte] * (kind < 2)) + line[place + (kind > 0) :]
    return made.replace(b"\n", b"\r")


def broken_lines(chance: Random, count: int, scripts: list[bytes]) -> list[bytes]:
    """Returns this number of random lines, and of lines of the scripts, of which each second one has a byte changed."""
    lines: list[bytes] = []
    while len(lines) < count:
        kind = chance.random()
        if kind < 0.5:
            lines.append(chance.choice([random_bytes, random_tokens, random_command, random_command])(chance))
        elif kind < 0.6:
            lines.append(changed(chance, random_command(chance)))
        else:
            script = chance.choice(scripts).split(b"\n")
            lines += [changed(chance, line) if chance.random() < 0.5 else line for line in script]
    return lines[:count]
