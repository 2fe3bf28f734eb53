"""Random formulas under random edits: after each edit a formula shows the same as its expression."""

from __future__ import annotations

from random import Random
from typing import NamedTuple

from .answers import is_refusal, needs_same
from .program_calls import answers_between_marks, random_mark
from .random_lines import expression
from .vocabulary import NAMES, NUMBERS, START


class Show(NamedTuple):
    """A show of a formula, by the places of chunks: of its definition, and of its name. Its expression stands behind its name."""

    name: str
    definition: int
    place: int


def random_edit(chance: Random) -> str:
    name, number, numbers = chance.choice("AMC"), chance.choice(NUMBERS[:14]), chance.choice(["4", "7 8 9", "'q'"])
    place = ";".join(chance.choice("123") for _ in range(1 + (name == "M")))
    item = chance.choice([number] * 4 + ["'z'"]) if name != "C" else "'z'"
    row = {"A": number, "M": "7 8 9", "C": "'q'"}[name]
    rows = [f")ROW {name} {row}"] * 3 + [f")ROW {name} {numbers}"]
    return chance.choice([f"{name}[{place}]←{item}"] * 5 + rows + [f")DATA X←{number}"])


def add_sheet(chance: Random, chunks: list[str], shows: list[Show]) -> None:
    """Adds the chunks of a sheet: its formulas, then edits, and behind each edit the formulas with their expressions."""
    chunks.append("".join(f")ERASE {name}\n" for name in NAMES) + START)
    formulas = {name: expression(chance, chance.choice([1, 1, 2, 2, 3, 4])) for name in "BTDE"}
    definitions = {name: len(chunks) + number for number, name in enumerate(formulas)}
    chunks += [f"{name}←{text}" for name, text in formulas.items()]
    for _ in range(10):
        chunks.append(random_edit(chance))
        shows += [Show(name, definitions[name], len(chunks) + 2 * number) for number, name in enumerate(formulas)]
        chunks += [text for pair in formulas.items() for text in pair]


def some_sheets(chance: Random, count: int) -> tuple[list[str], list[Show]]:
    """Returns the chunks of this number of sheets, and the shows among them."""
    chunks: list[str] = []
    shows: list[Show] = []
    for _ in range(count):
        add_sheet(chance, chunks, shows)
    return chunks, shows


def try_formulas(program: str, seed: int, count: int) -> str:
    """Tries this number of sheets, each with edits. Every formula shows after each edit the same as its expression."""
    chance = Random(seed)
    chunks, shows = some_sheets(chance, count)
    answers = answers_between_marks(program, [chunk.encode() for chunk in chunks], random_mark(chance))
    compared = [show for show in shows if answers[show.definition] == b""]
    for name, _, place in compared:
        needs_same(seed, name, answers[place], chunks[place + 1], answers[place + 1])
    arrays = sum(not is_refusal(answers[show.place]) for show in compared)
    return f"{count} sheets, {len(compared)} shows of formulas, {arrays} of them arrays"
