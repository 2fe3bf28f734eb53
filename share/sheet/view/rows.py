"""Rows of data, or items of a vector: they are inserted or deleted by one line of the language, so all of them or none."""

from __future__ import annotations

from typing import List, NamedTuple, Optional, Sequence

from ..arrays import literal
from ..commands import counted
from ..errors import Mistake
from ..journal import Binding
from ..lines import LONGEST, PIECE
from ..session import Session
from ..storing import Array
from ..units import with_units
from .cells import MOST, undo_by

FEW = 1000  # deleted items that the line of an undo may have


class Rows(NamedTuple):
    """Rows of a name: the first one, counted from 1, their number, and the number of all rows that the page showed."""

    name: str
    first: int
    count: int
    length: int

    @property
    def noun(self) -> str:
        return f"{self.name}: {counted(self.count, 'row')}"


def insert_rows(session: Session, rows: Rows) -> None:
    """Inserts rows of zeros or blanks before the first one, as one change; a Mistake, and nothing is changed, if that is not possible."""
    array, binding = array_of(session, rows), session.binding(rows.name)
    if not 1 <= rows.first <= rows.length + 1 or not 1 <= rows.count <= MOST:
        raise Mistake(f"{rows.name} has no place {rows.first} for {counted(rows.count, 'row')}")
    shape = [rows.count, *array.shape[1:]]
    blanks = f"{' '.join(map(str, shape))}⍴{literal(' ') if array.is_text else '0'}"
    session.change(f"{rows.noun} inserted", [completed(line_with(rows, array.shape, blanks), rows.name, binding)])
    undo_by(session.journal.last, [completed(line_without(rows, rows.length + rows.count, len(shape)), rows.name, binding)])


def delete_rows(session: Session, rows: Rows) -> None:
    """Deletes rows, as one change; a Mistake, and nothing is changed, if that is not possible."""
    array, binding = array_of(session, rows), session.binding(rows.name)
    if not 1 <= rows.first <= rows.first + rows.count - 1 <= rows.length:
        raise Mistake(f"{rows.name} has no rows {rows.first} to {rows.first + rows.count - 1}")
    back = line_with_deleted(session, rows, array)
    session.change(f"{rows.noun} deleted", [completed(line_without(rows, rows.length, len(array.shape)), rows.name, binding)])
    if back:
        undo_by(session.journal.last, [completed(back, rows.name, binding)])


def comment_of(text: str) -> str:
    """Returns the comment of a line, without its sign."""
    return "".join(piece[1:].strip() for piece in PIECE.findall(text) if piece[0] == "⍝")


def array_of(session: Session, rows: Rows) -> Array:
    """Returns the array; a Mistake if it is no data of rows, or has another number of them than the page showed."""
    if not session.binding(rows.name).is_data:
        raise Mistake(f"{rows.name} is a formula, and no data that can be edited")
    array = Array(session.program, rows.name)
    if not 1 <= len(array.shape) <= 2:
        raise Mistake(f"{rows.name} has {len(array.shape)} axes; rows are those of a vector or a matrix")
    if array.shape[0] != rows.length:
        raise Mistake(f"{rows.name} was changed meanwhile: it has {counted(array.shape[0], 'row')}, and this window showed {rows.length}")
    return array


def completed(line: str, name: str, binding: Binding) -> str:
    """Returns a line with the comment that the name has, if there is room; the unit stays in any case."""
    comment = comment_of(binding.text or "")
    whole = f"{line} ⍝ {comment}"
    if comment and len(whole.encode("utf-8", "surrogatepass")) <= LONGEST:
        return whole
    return with_units([line], name, binding.decimals)[0]


def line_with(rows: Rows, shape: Sequence[int], new: str) -> str:
    """Returns the line that puts new rows before the first one."""
    before, sign = rows.first - 1, "," if len(shape) == 1 else "⍪"
    taken, dropped = (f"{before} {shape[1]}", f"{before} 0") if len(shape) == 2 else (before, before)
    return f")DATA {rows.name}←({taken}↑{rows.name}){sign}({new}){sign}{dropped}↓{rows.name}"


def line_without(rows: Rows, length: int, rank: int) -> str:
    """Returns the line that leaves the rows out."""
    last, places = rows.first + rows.count - 1, f"⍳{length}"
    kept = f"{rows.first}≠{places}" if rows.count == 1 else f"(({places})<{rows.first})∨({places})>{last}"
    return f")DATA {rows.name}←({kept}){'/' if rank == 1 else '⌿'}{rows.name}"


def line_with_deleted(session: Session, rows: Rows, array: Array) -> Optional[str]:
    """Returns the line that puts rows back that will be deleted, if one line has room for them."""
    wide = array.shape[1] if len(array.shape) == 2 else 1
    if not 0 < rows.count * wide <= FEW:
        return None
    places = f"{rows.first - 1}+⍳{rows.count}"
    (told,) = session.program.ask(f",{rows.name}[{places}{';' if len(array.shape) == 2 else ''}]")
    items: List[str] | str = told if array.is_text else told.split()
    line = line_with(rows, array.shape, f"{' '.join(map(str, [rows.count, *array.shape[1:]]))}⍴{literal(items)}")
    return line if len(line.encode("utf-8", "surrogatepass")) <= LONGEST else None
