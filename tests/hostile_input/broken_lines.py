"""Broken lines, each between two marks and with shows of the whole sheet behind it."""

from __future__ import annotations

from random import Random

from .answers import is_counted, is_due, is_refusal
from .program_calls import answers_between_marks, needs, random_mark
from .random_lines import broken_lines
from .scripts import scripts_of_the_repository
from .vocabulary import NAMES, START

SHOWS = ")COST\n)NAMES\n" + "".join(f"⍴{name}\n(64⌊×/⍴{name})↑,{name}\n" for name in NAMES)


def answers_and_shows(program: str, lines: list[bytes], mark: bytes) -> tuple[list[bytes], list[bytes]]:
    """Returns the answer to each line, and the answers to the shows behind it; those behind the start come first."""
    start, probes = START.encode(), SHOWS.encode()
    answers = answers_between_marks(program, [start + probes, *(chunk for line in lines for chunk in (line, probes))], mark)
    return answers[1::2], answers[::2]


def try_lines(program: str, seed: int, count: int) -> str:
    """Tries this number of broken lines. Each has an answer that is due, and a line that is answered does the same as a blank one."""
    chance = Random(seed)
    lines, mark = broken_lines(chance, count, scripts_of_the_repository()), random_mark(chance)
    answers, shows = answers_and_shows(program, lines, mark)
    for number, (line, answer) in enumerate(zip(lines, answers)):
        case = f"seed {seed}, line {number}: {line!r} answered"
        needs(is_due(line, answer), f"{case} {answer[:300]!r}")
        needs(not answer or shows[number] == shows[number + 1], f"{case} {answer[:300]!r} and changed the sheet")
        needs(b"NO MEMORY" not in answer, f"{case} NO MEMORY")
    are_kept = [not answer or is_counted(line, answer) for line, answer in zip(lines, answers)]
    again, same_shows = answers_and_shows(program, [line if is_kept else b"" for line, is_kept in zip(lines, are_kept)], mark)
    due = [answer if is_kept else b"" for answer, is_kept in zip(answers, are_kept)]
    needs(again == due, f"seed {seed}: with blank lines in the place of the answered ones, other lines are answered")
    needs(same_shows == shows, f"seed {seed}: with blank lines in the place of the answered ones, the sheet goes another way")
    refused = sum(map(is_refusal, answers))
    return f"{count} lines, {refused} answered by refusals and errors, {sum(map(bool, answers)) - refused} by arrays and counts"
