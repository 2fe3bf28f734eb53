"""Each function on arrays of four axes, of 1,048,576 items, and of sizes whose result is too large."""

from __future__ import annotations

import math
from typing import Iterator

from .answers import is_refusal
from .program_calls import needs, watched
from .vocabulary import FOLDS, ONE, SCALAR, TWO

MOST_ITEMS = 1048576
MOST_HELD = 200000  # kB that a call over large arrays may hold

LARGE = {
    "S": "7", "V": "1048576⍴⍳9", "W": "1024 1024⍴⍳9", "R": "32 32 32 32⍴0 1", "L": "2 2 2 2⍴1 2", "H": "1 1048576 1 1⍴5",
    "Z": "0 1048576 2⍴0", "C": "1048576⍴'abc'", "E": "''", "K": "4⍴1048576",
    "G": "9223372036854775807 ¯9223372036854775808 4294967296 ¯1 0",
}  # fmt: skip
LARGE_DATA = "".join(f")DATA {name}←{text}\n" for name, text in LARGE.items()).encode()

# Lines that are all LIMIT ERROR.
TOO_LARGE = """1048577⍴0; ⍳1048577; ⍳9223372036854775807; 1 1 1 1 1⍴0; 1024 1025⍴0; 0 1048577⍴0; K⍴0; V⍴0; V,V; V⍪V; W,W; W⍪W; R,R;
    R⍪R; R,[2]R; H,H; V,0; 0⍪V; 1048577↑V; 1025 1024↑W; 1 1 1 1 1↑5; 9223372036854775807↑V; ¯9223372036854775808↑V;
    ¯9223372036854775808 1↑W; K↑R; K↑5; 2/V; 2⌿V; 2/W; 2⌿W; 2/[1]W; V/V; (1048576⍴2)/V; 9223372036854775807/1;
    9223372036854775807 9223372036854775807/1 2; V∘.+1 2; 1 2∘.+V; R∘.+1 2; R∘.+,1; V∘.=C; W∘.+W; V⊤1 2; 1 2⊤V; 1 2⊤R; G⊤V; R+.×R;
    (33⍴1)∘.×R; W[V;V]; R[W;W;1;1]; V[1 2∘.+V]; +⌿0 1048576 2⍴0; -G; |G; G+G; G×G; G*2; ¯9223372036854775808÷¯1;
    1 ¯1⊤¯9223372036854775808; 10⊥V; G+.×G; +\V×9223372036854775807; ×/V; )ROW V 1"""

# Lines with their answers.
EDGES = {
    "⍴1048576⍴0": "1048576", "⍴1024 1024⍴0": "1024 1024", "⍴Z": "0 1048576 2", "⍴⍉Z": "2 1048576 0", "G⍴0": "DOMAIN ERROR",
    "⍴9223372036854775807↓V": "0", "⍴¯9223372036854775808↓V": "0", "⍴1 ¯9223372036854775808↓W": "1023 0",
    "9223372036854775807⌽1 2 3": "2 3 1", "¯9223372036854775808⌽1 2 3": "2 3 1", "4↑¯9223372036854775808⌽V": "1 2 3 4",
    "+/V": "5242870", "+/+/W": "5242870", "+/,R": "524288", "⍴⍉R": "32 32 32 32", "⍴4 3 2 1⍉R": "32 32 32 32", "⍴1 1 1 1⍉R": "32",
    "⍴0/V": "0", "V∧.=V": "1", "⌈/V⍳V": "9", "+/C∊'b'": "349525", "⍴R[;;;1]": "32 32 32", "⍴V⍳R": "32 32 32 32", "⍴,H": "1048576",
    "⍴V∘.+7": "1048576", "⍴7⊤V": "1048576", "⍴(⍳0)⊤V": "0 1048576", ")ROW W 1024⍴1": "SYNTAX ERROR", ")ROW R 1": "RANK ERROR",
    ")ROW W 1 2": "LENGTH ERROR", "V[1048577]←1": "INDEX ERROR", "V[9223372036854775807]←1": "INDEX ERROR",
    "V[¯9223372036854775808]←1": "INDEX ERROR", "R[1;1;1;33]←1": "INDEX ERROR", "R[1;1;1;1;1]←1": "RANK ERROR",
    "V[1]←'a'": "DOMAIN ERROR", "C[1]←1": "DOMAIN ERROR", ")CSV R": "RANK ERROR",
}  # fmt: skip

PLACES = ["V", "W", "C", "S", "S;", ";S", ";V", "V;V", ";;;", "S;;;S", "W;W;1;1"]
PRODUCTS = ["+.×", "∧.=", "⌊.-", "-.*"]


def uses_of_two(functions: list[str]) -> Iterator[str]:
    """Yields each of the functions between each two of the large arrays."""
    yield from (f"{left}{function}{right}" for function in functions for left in LARGE for right in LARGE)


def uses_of_functions(is_long: bool) -> Iterator[str]:
    """Yields each function on each of the large arrays; unless it is long, only few of the scalar functions between two of them."""
    few = SCALAR if is_long else list("+*=")
    yield from (f"{function}{right}" for function in ONE for right in LARGE)
    yield from uses_of_two([function for function in TWO if function not in SCALAR or function in few])
    yield from (f"{left}{function}[{axis}]{right}" for function in ",⌽/" for axis in (1, 4) for left in "SVRL" for right in "WRLH")
    yield from (f"{function}{fold}{right}" for function in SCALAR for fold in FOLDS for right in LARGE)
    yield from uses_of_two([f"∘.{function}" for function in few])
    too_long: set[str] = set() if is_long else {f"W{product}W" for product in PRODUCTS}
    yield from (use for use in uses_of_two(PRODUCTS) if use not in too_long)
    yield from (f"{left}[{places}]" for left in LARGE for places in PLACES)


def is_shape_or_error(answer: bytes) -> bool:
    """Returns whether an answer is the shape of an array within the limits, or an error."""
    if is_refusal(answer):
        return True
    axes = [int(length) for length in answer.split()]
    return len(axes) <= 4 and max(axes, default=0) <= MOST_ITEMS and math.prod(axes) <= MOST_ITEMS


def try_limits(program: str) -> str:
    """Tries results at the limits and beyond them."""
    due = {**dict.fromkeys(" ".join(TOO_LARGE.split()).split("; "), "LIMIT ERROR"), **EDGES}
    output, held, seconds = watched(program, [LARGE_DATA, *(f"{line}\n".encode() for line in due)])
    answers = output.decode().splitlines()
    wrong = [(line, answer, wanted) for (line, wanted), answer in zip(due.items(), answers) if answer != wanted]
    needs(len(answers) == len(due) and not wrong, f"{len(answers)} answers to {len(due)} lines; {wrong[:3]}")
    needs(held <= MOST_HELD, f"{held} kB")
    return f"{len(due)} lines, at most {held} kB, {seconds:.1f} s"


def try_sizes(program: str, is_long: bool) -> str:
    """Tries each function on large arrays. Every result is an array within the limits, or an error."""
    uses = list(uses_of_functions(is_long))
    output, held, seconds = watched(program, [LARGE_DATA, *(f"⍴{use}\n".encode() for use in uses)])
    answers = output.splitlines(keepends=True)
    wrong = [(use, answer) for use, answer in zip(uses, answers) if not is_shape_or_error(answer)]
    needs(len(answers) == len(uses) and not wrong, f"{len(answers)} answers to {len(uses)} lines; {wrong[:3]}")
    needs(held <= MOST_HELD, f"{held} kB")
    limits = sum(answer == b"LIMIT ERROR\n" for answer in answers)
    return f"{len(uses)} lines, {limits} of them LIMIT ERROR, at most {held} kB, {seconds:.1f} s"
