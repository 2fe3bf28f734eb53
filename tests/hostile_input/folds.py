"""Totals and scans of data under random edits: after each edit each of them shows the same as its expression."""

from __future__ import annotations

from random import Random
from typing import Iterator, Sequence

from .answers import is_refusal, needs_same
from .program_calls import answers_between_marks, random_mark

GREAT = "9223372036854775807 ¯9223372036854775808 9223372036854775800 ¯9223372036854775800 4611686018427387904 ¯4611686018427387904".split()
DATA = "DMNK"  # the names of the data under the folds: D has one axis, M and N have two, K has three

TOTALS = {
    "T": "+/D", "R": "+/M", "C": "+⌿M", "S": "+/+/M", "E": "+⌿N", "F": "+/+⌿N", "G": "+/[1]N", "I": "+/[2]K", "J": "+/[2]M∘.+1 2 3",
    "O": "+/[3]K", "H": "⌈/D", "L": "⌊⌿M", "P": "×/M", "A": "∧/D=D", "B": "⌈/[2]K", "Q": "×⌿N", "U": "∨/[1]N=7", "V": "⌊/[3]K",
    "W": "×/D", "X": "∧⌿M=1", "Y": "∨/(0 1 2)[1+3|D]", "Z": "∧/(1 0 2)[1+3|D]",
}  # fmt: skip

SCANS = {
    "T": "-\\D", "R": "-\\M", "C": "-⍀M", "E": "×\\D", "F": "×⍀N", "G": "+\\[1]N", "I": "×\\[2]K", "J": "=\\M∘.+1 2 3",
    "O": "-\\[3]K", "H": "≠\\2|D", "L": "⍲⍀2|M", "P": "<\\M", "A": "≥\\D", "B": "⍱\\[2]2|K", "Q": "÷⍀N", "U": "|\\D",
    "V": "*\\[3]3|K", "W": "+\\D", "X": "÷\\D", "Y": "∧\\M=1", "Z": "⌈\\[2]K", "S": "-⍀D∘.×1 2 3", "SA": "÷\\[2](1 2∘.×D)∘.+0 1",
    "SB": "×⍀D∘.×2 3", "SC": "∨⍀D∘.=1 7", "SD": "2 0 3 ¯5⊤M", "SE": "D⊤7 ¯8 99",
}  # fmt: skip


def some_number(chance: Random) -> str:
    if chance.random() < 0.3:
        return chance.choice(GREAT)
    return chance.choice(["0", "1", "¯1", "7", str(chance.randrange(1000)), f"¯{chance.randrange(1000)}"])


def some_numbers(chance: Random, count: int) -> str:
    return " ".join(some_number(chance) for _ in range(count))


def random_edit(chance: Random, length: int, rows: int) -> str:
    """Returns an edit of data of this length, which may be one place too far."""
    place, row = chance.randrange(1, length + 2), chance.randrange(1, rows + 1)
    return chance.choice([
        f"D[{place}]←{some_number(chance)}",
        f"M[{row};{place}]←{some_number(chance)}",
        f"M[;{place}]←{some_number(chance)}",
        f"M[{row};]←{some_number(chance)}",
        f"N[{place};{row}]←{some_number(chance)}",
        f"N[{place};]←{some_number(chance)}",
        f"N[;{row}]←{some_number(chance)}",
        f"K[{chance.randrange(1, 3)};{place};{row}]←{some_number(chance)}",
        f"K[;{place};]←{some_number(chance)}",
        f")ROW D {some_number(chance)}",
        f")ROW M {some_numbers(chance, length)}",
        f")ROW N {some_numbers(chance, rows)}",
    ])  # fmt: skip


def lines_of_folds(chance: Random, length: int, folds: dict[str, str]) -> Iterator[str]:
    """Yields data of this length, folds of it, edits, and behind each edit the folds with their expressions."""
    rows = chance.randrange(1, 4)
    numbers = some_numbers(chance, min(length, 64) or 1)
    yield f")DATA D←{length}⍴{numbers}"
    yield f")DATA M←{rows} {length}⍴{numbers}"
    yield f")DATA N←{length} {rows}⍴{numbers}"
    yield f")DATA K←2 {length} {rows}⍴{numbers}"
    yield from (f"{name}←{text}" for name, text in folds.items())
    for _ in range(12):
        yield random_edit(chance, length, rows)
        yield from (text for pair in folds.items() for text in pair)


def try_folds(program: str, seed: int, lengths: Sequence[int], folds: dict[str, str]) -> str:
    """Tries data of each of these lengths. Every fold shows after each edit the same as its expression."""
    chance = Random(seed)
    blank = "".join(f")ERASE {name}\n" for name in [*folds, *DATA])
    chunks = [blank, *(chunk for length in lengths for chunk in (*lines_of_folds(chance, length, folds), blank))]
    answers = answers_between_marks(program, [chunk.encode() for chunk in chunks], random_mark(chance))
    compared = [place for place, chunk in enumerate(chunks[:-1]) if chunk in folds and chunks[place + 1] in folds.values()]
    for place in compared:
        needs_same(seed, chunks[place], answers[place], chunks[place + 1], answers[place + 1])
    arrays = sum(not is_refusal(answers[place + 1]) for place in compared)
    return f"{len(lengths)} lengths, {len(compared)} shows, {arrays} of them no errors"
