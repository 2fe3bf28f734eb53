"""Answers of the program: values, errors and refusals. The same text can be either, because a value can be any text."""

from __future__ import annotations

import re
import time
from typing import TYPE_CHECKING, Iterable, Match, Optional

from .lines import Line

if TYPE_CHECKING:
    from .program import Program

ERRORS = "SYNTAX|VALUE|AXIS|RANK|LENGTH|DOMAIN|INDEX|LIMIT"
REFUSALS = "CYCLE|NOT FOUND|NOT DATA|SHEET FULL|NO MEMORY|NOT TEXT|LINE TOO LONG|STALE|NOT READY|NO SLOT|SLOT IN USE"
FAULT = re.compile(f"(?P<kind>(?:{ERRORS}) ERROR)(?: IN (?P<origin>[^ ]+))?|(?P<refusal>{REFUSALS})")

# Answers to lines that are no fault and no value; other kinds of lines print nothing. Names have no blanks, and faults do.
WELL = {"names": "[^ ]*", "cost": "[0-9]+\n", "open": "[0-9]+\n", "step": "[0-9]+\n", "csv": "[-0-9,\n]*"}


class Answer:
    """The answer of the program to a line.

    lines     the printed lines
    is_fault  whether it is an error or a refusal
    seconds   the time until the answer
    kind      the error or refusal, if it is a known one, else None
    origin    the name of the formula in which the error arose; None if it arose in the line itself
    """

    def __init__(self, line: Line, lines: list[str], is_fault: bool, seconds: float = 0) -> None:
        self.line, self.lines, self.is_fault, self.seconds = line, lines, is_fault, seconds
        known = fault_of(lines) if is_fault else None
        self.kind: Optional[str] = (known["kind"] or known["refusal"]) if known else None
        self.origin: Optional[str] = known["origin"] if known else None


def answer(program: Program, line: Line) -> Answer:
    """Gives the line to the program, and returns its answer.

    A value can be any text. So an error that FAULT does not match is recognized only in the place of a known answer.
    """
    begun = time.monotonic()
    lines = program.ask(line.text)
    seconds = time.monotonic() - begun
    if line.kind == "show":
        return Answer(line, lines, bool(fault_of(lines)) and not is_value(program, line, lines), seconds)
    is_well = re.fullmatch(WELL.get(line.kind, ""), "".join(f"{printed}\n" for printed in lines))
    return Answer(line, lines, not is_well, seconds)


def fault_of(lines: list[str]) -> Optional[Match[str]]:
    """Returns the match of FAULT if the output reads like a known error or refusal, else None."""
    return FAULT.fullmatch(lines[0]) if len(lines) == 1 else None


def first_refusal(printed: Iterable[list[str]]) -> Optional[str]:
    """Returns the output of the first refused change of several, or None; an accepted change prints nothing."""
    return next(("\n".join(lines) for lines in printed if lines), None)


def is_value(program: Program, line: Line, lines: list[str]) -> bool:
    """Returns whether a text that reads like a fault is a value. The shape of a value is numbers, and the shape of a fault is that fault.

    The question is a character longer than the line. If only the question exceeds a limit, the text counts as a fault.
    """
    shape = program.ask("⍴" + line.text)
    return shape != lines and is_shape(shape)


def is_shape(lines: list[str]) -> bool:
    """Returns whether the output can be a shape: one line with numbers, or an empty one."""
    return len(lines) == 1 and set(lines[0]) <= set("0123456789 ")
