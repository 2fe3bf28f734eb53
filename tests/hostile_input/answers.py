"""The forms of answers, and whether an answer is due: by the text of its line alone, or by another answer."""

from __future__ import annotations

import re

from .program_calls import needs
from .vocabulary import KNOWN

ERROR = rb"(?:DOMAIN|RANK|LENGTH|INDEX|AXIS|LIMIT|VALUE) ERROR(?: IN [A-Za-z\xe2\x88\x86\x8d\x990-9_]+)?"
REFUSAL = re.compile(
    rb"(?:SYNTAX ERROR|CYCLE|NOT FOUND|NOT DATA|SHEET FULL|NOT TEXT|LINE TOO LONG|STALE|NOT READY|NO SLOT|SLOT IN USE|" + ERROR + rb")\n"
)
COUNT = re.compile(rb"[0-9]+\n")


def is_refusal(answer: bytes) -> bool:
    """Returns whether an answer is one refusal or error and nothing else."""
    return REFUSAL.fullmatch(answer) is not None


def needs_same(seed: int, name: str, shown: bytes, expression: str, wanted: bytes) -> None:
    """Fails the test unless a name shows the same as its expression. An error of the expression stands without the name."""
    ending = b" IN %s\n" % name.encode()
    shown = shown[: -len(ending)] + b"\n" if shown.endswith(ending) else shown
    needs(shown == wanted, f"seed {seed}: {name} shows {shown[:300]!r}, and {expression} {wanted[:300]!r}")


def bare(text: str) -> tuple[str, bool]:
    """Returns the line without texts and comment, and whether its texts are closed."""
    signs: list[str] = []
    is_inside = False
    for sign in text:
        if sign == "'":
            is_inside = not is_inside
        elif sign == "⍝" and not is_inside:
            break
        elif not is_inside:
            signs.append(sign)
    return "".join(signs), not is_inside


def begins_with(text: str, words: str) -> bool:
    """Returns whether a text begins with one of these words after a parenthesis."""
    return re.match(rf"[ \t]*\)[ \t]*({words})", text) is not None


def is_counted(line: bytes, answer: bytes) -> bool:
    """Returns whether a line opened a change or did a step of one. A count answers such a line, and it alters the open changes."""
    return COUNT.fullmatch(answer) is not None and begins_with(line.decode(), "OPEN|STEP")


def is_due(line: bytes, answer: bytes) -> bool:
    """Returns whether a line can have this answer, as far as its text alone says."""
    line = line[:-1] if line.endswith(b"\r") else line
    if len(line) > 4096:
        return answer == b"LINE TOO LONG\n"
    try:
        text, is_closed = bare(line.decode())
    except UnicodeDecodeError:
        return answer == b"NOT TEXT\n"
    if not is_closed or not set(text) <= KNOWN:
        return answer in (b"SYNTAX ERROR\n", b"LIMIT ERROR\n")
    if not text.strip(" \t") and "'" not in line.decode():
        return answer == b""
    if begins_with(text, "OPEN|STEP"):
        return COUNT.fullmatch(answer) is not None or is_refusal(answer)
    if "←" in text or begins_with(text, "ROW|ERASE|COMMIT|DROP"):
        return answer == b"" or is_refusal(answer)
    return answer == b"" or answer.endswith(b"\n")
