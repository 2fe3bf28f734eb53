"""Edits of cells by a page: all of them are made, or none. A page sends the items that it showed, so an edit by another window is noticed."""

from __future__ import annotations

import re
from typing import Any, Iterable, List, NamedTuple, Optional, Sequence, Tuple, Union

from ..answers import fault_of
from ..arrays import lines_of_array, literal
from ..commands import counted
from ..errors import Mistake
from ..journal import Change
from ..lines import NAME
from ..numerals import is_within
from ..session import Session
from ..storing import Array
from ..units import with_units

FEW = 64  # cells that are edited by a line each; more are edited as one array
MOST = 1 << 20  # items of an array
NUMBER = re.compile("¯?0*([0-9]+)")
Items = Union[str, List[str]]


class Cell(NamedTuple):
    """An edit of a cell: its place on each axis, counted from 1, the item that was typed, and the item that the page showed, if it did."""

    at: Tuple[int, ...]
    item: str
    shown: Optional[str]


def cells_of(asked: Iterable[Sequence[Any]]) -> List[Cell]:
    """Returns the edits that a page asks for; ValueError or TypeError for a request that no page of this server makes."""
    cells = [Cell(tuple(int(place) for place in at), str(item), shown) for at, item, shown in asked]
    if not 0 < len(cells) <= MOST or any("\n" in cell.item for cell in cells):
        raise ValueError("no edits")
    return cells


def expression(name: str, cell: Cell) -> str:
    """Returns the expression that shows a cell."""
    return f"{name}[{';'.join(map(str, cell.at))}]"


def edit_of(name: str, cell: Cell, is_text: bool) -> str:
    """Returns the line that edits a cell."""
    return f"{expression(name, cell)}←{literal(cell.item) if is_text else cell.item}"


def check_name(name: str) -> None:
    if not re.fullmatch(NAME, name):
        raise ValueError("no name")


def check_cells(session: Session, name: str, cells: Sequence[Cell]) -> None:
    """Raises a Mistake if a cell is not there, or has another item than the page showed."""
    for cell, lines in zip(cells, session.program.ask_all([expression(name, cell) for cell in cells])):
        shown = lines[0] if len(lines) == 1 else ""
        if len(shown) > 1 and fault_of(lines):
            raise Mistake(f"{expression(name, cell)} is not there: {shown}")
        check_shown(name, cell, shown)


def check_shown(name: str, cell: Cell, item: str) -> None:
    """Raises a Mistake if a cell has another item than the page showed."""
    if cell.shown is not None and cell.shown != item:
        raise Mistake(f"{expression(name, cell)} was changed meanwhile: it is {item}, and this window showed {cell.shown or 'nothing'}")


def check_numbers(name: str, cells: Iterable[Cell], decimals: int) -> None:
    """Raises a Mistake if an item is no number of 64 bits. The page sends an item that has too many decimals as it was typed."""
    wanted = f"a number with at most {counted(decimals, 'decimal')}" if decimals else "a whole number"
    for cell in cells:
        number = NUMBER.fullmatch(cell.item)
        if not number:
            raise Mistake(f"{expression(name, cell)} takes {wanted}, and not {cell.item[:60] or 'an empty cell'}")
        if not is_within("-" * (cell.item[0] == "¯") + number[1]):
            raise Mistake(f"{expression(name, cell)} is beyond 64 bits: {cell.item[:60]}")


def change_cells(session: Session, name: str, cells: Sequence[Cell], is_text: bool) -> None:
    """Makes the edits of several cells as one change; a Mistake, and nothing is changed, if one of them is not possible."""
    if not session.binding(name).is_data:
        raise Mistake(f"{name} is a formula, and no data that can be edited")
    if not is_text:
        check_numbers(name, cells, session.binding(name).decimals)
    title = f"{name}: {counted(len(cells), 'cell')}"
    if len(cells) <= FEW:
        check_cells(session, name, cells)
        session.change(title, [edit_of(name, cell, is_text) for cell in cells])
    else:
        change_array(session, title, name, cells)


def change_array(session: Session, title: str, name: str, cells: Sequence[Cell]) -> None:
    """Makes the edits as one array, which takes the place of the former one."""
    array = Array(session.program, name)
    former = array.items
    items = [*former]
    for cell in cells:
        place = place_of(name, cell, array.shape)
        check_shown(name, cell, former[place])
        items[place] = cell.item
    made: Items = "".join(items) if array.is_text else items
    decimals = session.binding(name).decimals
    session.change(title, with_units(lines_for(session, name, array, made), name, decimals))
    undo_by(session.journal.last, with_units(lines_for(session, name, array, former), name, decimals))


def lines_for(session: Session, name: str, array: Array, items: Items) -> List[str]:
    """Returns the lines that give a name these items in the shape of its array."""
    return lines_of_array(name, array.shape, items, session.journal.spare_name(name))


def undo_by(change: Optional[Change], lines: List[str]) -> None:
    """Gives a change these lines to undo it, unless it has some."""
    if change and change.inverse is None:
        change.inverse = lines


def place_of(name: str, cell: Cell, shape: Sequence[int]) -> int:
    """Returns the place of a cell among the items; a Mistake if it is not there."""
    place = 0
    for index, length in zip(cell.at, shape):
        if not 1 <= index <= length:
            raise Mistake(f"{expression(name, cell)} is not there: INDEX ERROR")
        place = place * length + index - 1
    if len(cell.at) != len(shape):
        raise Mistake(f"{expression(name, cell)} is not there: RANK ERROR")
    return place
