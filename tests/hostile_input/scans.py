"""Scans of random arrays beside their definition, which is written here once more."""

from __future__ import annotations

import math
from contextlib import suppress
from random import Random
from typing import Callable

from .program_calls import needs, watched
from .vocabulary import SCALAR

Function = Callable[[int, int], int]


class Failed(Exception):
    """The error of a function of two numbers."""


def in_range(number: int) -> int:
    """Returns a number of 64 bits, or fails."""
    if not -(2**63) <= number < 2**63:
        raise Failed("LIMIT ERROR")
    return number


def divided(left: int, right: int) -> int:
    if right == 0 and left == 0:
        return 1
    if right == 0 or left % right:
        raise Failed("DOMAIN ERROR")
    return in_range(left // right)


def raised(left: int, right: int) -> int:
    if abs(left) == 1:
        return 1 if left == 1 or right % 2 == 0 else -1
    if right < 0:
        raise Failed("DOMAIN ERROR")
    return in_range(int(left ** min(right, 64)))


def of_truths(function: Function) -> Function:
    """Returns the function for truths alone, which fails for other numbers."""

    def applied(left: int, right: int) -> int:
        if not {left, right} <= {0, 1}:
            raise Failed("DOMAIN ERROR")
        return int(function(left, right))

    return applied


OF_TWO_NUMBERS: dict[str, Function] = {
    "+": lambda left, right: in_range(left + right),
    "-": lambda left, right: in_range(left - right),
    "×": lambda left, right: in_range(left * right),
    "÷": divided,
    "*": raised,
    "|": lambda left, right: right % left if left else right,
    "⌈": max,
    "⌊": min,
    "<": lambda left, right: int(left < right),
    "≤": lambda left, right: int(left <= right),
    "=": lambda left, right: int(left == right),
    "≥": lambda left, right: int(left >= right),
    ">": lambda left, right: int(left > right),
    "≠": lambda left, right: int(left != right),
    "∧": of_truths(lambda left, right: left and right),
    "∨": of_truths(lambda left, right: left or right),
    "⍲": of_truths(lambda left, right: not (left and right)),
    "⍱": of_truths(lambda left, right: not (left or right)),
}
EDGES = [1 << bits for bits in (20, 21, 30, 31, 32, 40, 41, 42, 43, 44, 60, 61, 62, 63)]  # near which a fast way may end
KINDS_OF_NUMBERS = {
    "truths": [0, 1], "ones": [1, 1, 1, 1, 1, -1, 0, 2], "few": [0, 1, 1, 2, 3, -1, -2, 12], "small": [*range(-9, 10)],
    "ends": [2**63 - 1, -(2**63), 2**62, -(2**62), 2**63 - 9, 9 - 2**63, 1, 0, -1], "factors": [1, 2, 3, 4, 6, 12, 24, 2, 2, 1],
    "edges": [number for edge in EDGES for around in (edge, -edge) for number in range(around - 1, around + 2) if -(2**63) <= number < 2**63],
    "near": [*range(2**42 - 3, 2**42 + 3), *range(-(2**42) - 3, 3 - 2**42), 5, -5],
    "half": [*range(2**61 - 2, 2**61 + 2), *range(-(2**61) - 2, 2 - 2**61), 2**62, -(2**62), 1],
}  # fmt: skip


def folded(function: str, numbers: list[int]) -> int:
    """Returns the fold from the right of numbers, or fails."""
    result = numbers[-1]
    for number in reversed(numbers[:-1]):
        result = OF_TWO_NUMBERS[function](number, result)
    return result


def as_literal(numbers: list[int]) -> str:
    return " ".join(map(str, numbers)).replace("-", "¯")


def scan_by_definition(function: str, numbers: list[int], shape: list[int], axis: int) -> str:
    """Returns the text of the ravel of a scan, each place folded by itself, or of its error."""
    stride = math.prod(shape[axis + 1 :])
    try:
        depths = [place // stride % shape[axis] for place in range(len(numbers))]
        return as_literal([folded(function, numbers[place - depth * stride : place + 1 : stride]) for place, depth in enumerate(depths)])
    except Failed as failed:
        return str(failed)


def number_without_error(chance: Random, function: str, drawn: list[int], numbers: list[int]) -> int:
    """Draws a number to stand behind those that are drawn. While their fold fails, the number is drawn again, a few times."""
    for _ in range(9):
        number = chance.choice(numbers)
        with suppress(Failed):
            folded(function, [*drawn, number])
            break
    return number


def numbers_without_error(chance: Random, function: str, length: int, numbers: list[int]) -> list[int]:
    """Returns a list of which few beginnings have an error."""
    drawn: list[int] = []
    for _ in range(length):
        drawn.append(number_without_error(chance, function, drawn, numbers))
    return drawn


def some_scan(chance: Random, function: str) -> tuple[str, str]:
    """Returns a line that shows the ravel of a scan of some array, and its answer."""
    length, kind = chance.randrange(71), chance.choice([*KINDS_OF_NUMBERS])
    if function in "∧∨⍲⍱" and chance.random() < 0.8:
        kind = "truths"
    few = min(length, 30)
    shape = chance.choice([[length], [length], [length], [3, few], [few, 3], [2, few, 2]])
    axis = chance.randrange(len(shape))
    if len(shape) == 1 and function in "-×÷*" and chance.random() < 0.8:
        numbers = numbers_without_error(chance, function, length, KINDS_OF_NUMBERS[kind])
    else:
        numbers = chance.choices(KINDS_OF_NUMBERS[kind], k=math.prod(shape))
    if chance.random() < 0.2 and numbers:
        numbers[chance.randrange(len(numbers))] = chance.choice(KINDS_OF_NUMBERS["ends"])
    fold = chance.choice([f"\\[{axis + 1}]", *["\\"] * (axis == len(shape) - 1), *["⍀"] * (axis == 0)])
    line = f",{function}{fold}{as_literal(shape)}⍴{as_literal(numbers) or '⍳0'}"
    return line, scan_by_definition(function, numbers, shape, axis)


def try_scans(program: str, seed: int, count: int) -> str:
    """Tries this number of scans by each function. Each shows the same as its definition gives."""
    chance = Random(seed)
    due = [some_scan(chance, function) for function in SCALAR for _ in range(count)]
    output, _, _ = watched(program, [f"{line}\n".encode() for line, _ in due])
    answers = output.decode().split("\n")
    wrong = [(line, answer, wanted) for (line, wanted), answer in zip(due, answers) if answer != wanted]
    needs(len(answers) == len(due) + 1 and not wrong, f"seed {seed}: {len(answers)} answers to {len(due)} lines; {wrong[:3]}")
    return f"{len(due)} scans, {sum(wanted.endswith('ERROR') for _, wanted in due)} of them errors"
