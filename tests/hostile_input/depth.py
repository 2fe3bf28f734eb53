"""The deepest lines that there are, and deeper ones, with the least stack that the program is promised to do with."""

from __future__ import annotations

import resource
from itertools import zip_longest
from typing import Iterator

from .program_calls import called, limiting, needs

LEAST_STACK = 1024  # kB with which the program does (docs/RELIABILITY.md)
DEEPEST = 255  # functions that a tree has one inside the other, above a leaf
SIGNS = "-" * DEEPEST


def on_both_sides(count: int) -> tuple[str, str]:
    """Returns an expression of functions one inside the other, in turn in the right and in the left argument, and its value."""
    text, value = "1", 1
    for number in range(count):
        text, value = (f"({text})-3", value - 3) if number % 2 else (f"3-{text}", 3 - value)
    return text, str(value).replace("-", "¯")


def deep_shows() -> Iterator[tuple[str, str]]:
    """Yields expressions that are as deep as they may be, deeper ones, and the answer to each. A is 1 2 3."""
    most = DEEPEST
    yield from [(f"{SIGNS}5", "¯5"), (f"-{SIGNS}5", "LIMIT ERROR"), ("-" * 4095 + "5", "LIMIT ERROR"), ("-" * 4096, "SYNTAX ERROR")]
    yield from [("(" * 2047 + "5" + ")" * 2047, "5"), ("(" * 4096, "SYNTAX ERROR"), ("(" * most + "1" + "-1)" * most, "¯254")]
    yield from [("(" * 1023 + "1" + "-1)" * 1023, "LIMIT ERROR"), on_both_sides(most), (on_both_sides(most + 1)[0], "LIMIT ERROR")]
    yield from [("A[" * most + "1" + "]" * most, "1"), ("A[" * 1365 + "1" + "]" * 1365, "LIMIT ERROR"), ("A[" * 2048, "SYNTAX ERROR")]
    yield from [("(" * most + "A" + "[1 2])" * most, "1 2"), ("(" * 680 + "A" + "[1 2])" * 487, "SYNTAX ERROR")]
    yield from [("(" * 585 + "A" + "[1 2])" * 585, "LIMIT ERROR"), ("+/" * most + "5", "5"), ("1," * most + "1", "1 " * most + "1")]


def deep_changes(begin: str, shows: list[tuple[str, str]]) -> Iterator[tuple[str, str]]:
    """Yields changes of a name, by each expression short enough for a line, with the answer to each."""
    yield from ((begin + text, "" if answer[-1].isdigit() else answer) for text, answer in shows if len(text) < 4080)


def deep_session() -> Iterator[tuple[str, str]]:
    """Yields lines with the deepest expressions and the longest chain of names, and the answer to each."""
    shows = list(deep_shows())
    yield from [(")DATA A←1 2 3", ""), *shows, *deep_changes(")DATA X←", shows), *deep_changes("Y←", shows)]
    yield from [(f"Z←{SIGNS}A", ""), ("A[2]←7", ""), ("Z", "¯1 ¯7 ¯3"), (")COST", f"{DEEPEST}"), ("A[2]←2", "")]
    yield from [(f")OPEN 1 Z←{SIGNS}A", f"{DEEPEST}"), (")STEP 1", f"{DEEPEST - 1}"), (")DROP 1", "")]
    yield from ((f"N{number}←{SIGNS}{f'N{number - 1}' if number > 1 else 'A'}", "") for number in range(1, 1001))
    yield from [("N1000", "1 2 3"), ("A[1]←8", ""), (")COST", f"{DEEPEST * 1001}"), ("N1000", "8 2 3"), ("A←N1000", "CYCLE")]
    yield from [(")ERASE A", ""), ("N1000", "VALUE ERROR IN N1"), (")DATA A←1 2 3", ""), ("N1000", "1 2 3"), (")ERASE N1", "")]
    yield from [("N1000", "VALUE ERROR IN N2"), (")CSV Z", "-1,-2,-3")]


def try_deep_lines(program: str) -> str:
    """Tries the deepest lines, and a chain of a thousand names. They fit the promised stack."""
    session = list(deep_session())
    lines = "".join(f"{line}\n" for line, _ in session)
    due = "".join(f"{answer}\n" for _, answer in session if answer)
    status, output, errors = called(program, lines.encode(), prepare=limiting(resource.RLIMIT_STACK, LEAST_STACK << 10))
    needs((status, errors) == (0, b""), f"status {status}, {errors!r}, after {output[-60:]!r}")
    answers = output.decode()
    others = [pair for pair in zip_longest(answers.splitlines(), due.splitlines()) if pair[0] != pair[1]]
    needs(answers == due, f"an answer, and the one that is due: {others[:1]}")
    return f"{len(session)} lines with a stack of {LEAST_STACK} kB"
