"""The lines of a copy of a sheet: for each name the lines that made it, without the edits that later ones overwrite.

A table of a million numbers is copied by the lines that made it, and its edits by one line for each cell. So the cost
of a copy depends on the size of the sheet, and not on the number of edits. Data that was computed from other names is written out.
"""

from __future__ import annotations

import re
from typing import Dict, Iterable, Iterator, List, Optional

from ..arrays import lines_of_array
from ..journal import Change, Journal
from ..lines import BLANKS, EDIT, Line
from ..session import Session
from ..storing import Array
from ..units import with_units

ROW = re.compile(rf"[{BLANKS}]*\)[{BLANKS}]*ROW\b")
ITEMS_AN_EDIT = 20  # an array is written out if it has fewer items than that for each of its edits


class Made:
    """The lines that made data: those that bind it, and one for each row that was added and each cell that was edited, in their order."""

    def __init__(self, lines: Iterable[str]) -> None:
        self.lines = [*lines]
        self.later: Dict[str, str] = {}

    def add(self, line: str) -> None:
        """Adds an edit, in place of an earlier one of the same cell, or a row."""
        cell = "" if ROW.match(line) else line.partition("←")[0].replace(" ", "")
        self.later.pop(cell, None)
        self.later[cell or f"{len(self.later)} row"] = line

    @property
    def all(self) -> List[str]:
        return [*self.lines, *self.later.values()]


def lines_of_copy(session: Session) -> List[str]:
    """Returns lines that make the sheet of a session, its names in their order."""
    made = made_in(session.journal)
    return [line for name in session.journal.bindings for line in lines_of_name(session, name, made.get(name))]


def lines_of_name(session: Session, name: str, made: Optional[Made]) -> List[str]:
    """Returns the lines that make a name."""
    binding = session.journal.bindings[name]
    if not binding.is_data:
        return [binding.text or ""]
    if made and not made.later:
        return made.lines
    array = None if made and len(made.later) < ITEMS_AN_EDIT else Array(session.program, name)
    if made and (array is None or len(made.later) * ITEMS_AN_EDIT < size_of(array)):
        return made.all
    assert array
    lines = lines_of_array(name, array.shape, array.items, session.journal.spare_name(name))
    return with_units(lines, name, binding.decimals)


def size_of(array: Array) -> int:
    """Returns the number of items of an array."""
    size = 1
    for length in array.shape:
        size *= length
    return size


def made_in(journal: Journal) -> Dict[str, Made]:
    """Returns the lines that made each name that is data, where these need no other name."""
    made: Dict[str, Made] = {}
    for change in journal.changes:
        for part in parts_of(change, journal):
            take(made, part)
    return made


def parts_of(change: Change, journal: Journal) -> Iterator[Change]:
    """Yields the single changes of a change; one that makes an array by several lines counts as single."""
    if change.parts and not is_whole(change, journal):
        for part in change.parts:
            yield from parts_of(part, journal)
    else:
        yield change


def is_whole(change: Change, journal: Journal) -> bool:
    """Returns whether the lines of a change make one array, and need no name but spare ones that they make and erase themselves."""
    names = [name for name, binding in change.bound.items() if binding]
    spares = [name for name, binding in change.bound.items() if not binding]
    if len(names) != 1 or any(part.parts for part in change.parts) or any(name in journal.bindings or change.before.get(name) for name in spares):
        return False
    first = change.parts[0].lines[0]
    return first.startswith(")DATA ") and all(needs_only(part, {*names, *spares}) for part in change.parts) and not Line(first).references


def needs_only(part: Change, names: Iterable[str]) -> bool:
    """Returns whether a line is a row, erases a name, or is data that refers to these names alone."""
    (line,) = part.lines
    if ROW.match(line) or None in part.bound.values():
        return True
    return line.startswith(")DATA ") and {*names}.issuperset(Line(line).references if any(not binding.text for binding in part.bound.values() if binding) else ())


def take(made: Dict[str, Made], change: Change) -> None:
    """Takes in a change: it makes a name, changes one, or removes it."""
    name = next((name for name, binding in change.bound.items() if binding), None)
    if name is None or len(change.lines) > 1 and not change.parts:
        for gone in change.bound:
            made.pop(gone, None)
        return
    line, binding = change.lines[0], change.bound[name]
    is_later = len(change.lines) == 1 and bool(EDIT.match(line) or ROW.match(line))
    if is_later and name in made:
        made[name].add(line)
    elif not is_later and binding and binding.is_data and (len(change.lines) > 1 or binding.text):
        made[name] = Made(change.lines)
    else:
        made.pop(name, None)
