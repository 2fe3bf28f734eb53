"""Units of numbers: the comment `in units of 0.01` of a line gives its name two decimals."""

from __future__ import annotations

import re
from typing import List, Sequence

from .lines import without_comment

UNITS = re.compile(r"\bin units of 0\.(0{0,17}1)(?![0-9])")


def decimals_in(text: str) -> int:
    """Returns the number of decimals in the comment of a line, 0 without a unit."""
    units = UNITS.search(text, len(without_comment(text)))
    return len(units[1]) if units else 0


def units_of(decimals: int) -> str:
    """Returns the comment for a number of decimals."""
    return f"in units of 0.{'1'.zfill(decimals)}"


def with_units(lines: Sequence[str], name: str, decimals: int) -> List[str]:
    """Appends the unit to the last `)DATA` line of a name; without decimals the lines stay."""
    made = [*lines]
    if decimals:
        at = max(place for place, line in enumerate(made) if line.startswith(f")DATA {name}←"))
        made[at] += f" ⍝ {units_of(decimals)}"
    return made
