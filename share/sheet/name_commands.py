"""The commands about names: ]names, ]show, ]edit, ]rename, ]watch and ]clear."""

from __future__ import annotations

import re
from typing import TYPE_CHECKING, List

from . import storing
from .arrays import rows_of_array
from .commands import command
from .errors import Mistake
from .lines import NAME, PIECE, without_comment
from .units import units_of, with_units

if TYPE_CHECKING:
    from .session import Session

MOST_LINES = 20  # of a shown array


@command("]names", "lists the names in their order: data or formula, of numbers or characters, the shape, and the formula")
def show_names(session: Session) -> None:
    rows = []
    for name, binding in session.journal.bindings.items():
        array = storing.Array(session.program, name)
        shape = " ".join(map(str, array.shape)) or "scalar"
        units = f" {units_of(binding.decimals)}" * bool(binding.decimals)
        kind = array.error or ("characters " if array.is_text else "numbers ") + shape + units
        formula = "" if binding.is_data else without_comment(binding.text or "").split("←", 1)[1].strip()
        rows.append((name, "data" if binding.is_data else "formula", kind, formula))
    widths = [max(len(row[column]) for row in rows) for column in range(3)] if rows else []
    session.show_value(["  ".join([*map(str.ljust, row, widths), row[3]]).rstrip() for row in rows], is_text=True)


@command("]show NAME", "shows the line that makes a name: its formula as it was typed, or its data")
def show_line(session: Session, name: str) -> None:
    binding = session.binding(name)
    if binding.text:
        session.show(binding.text)
        return
    array = storing.Array(session.program, name)
    lines = with_units(rows_of_array(name, array.shape, array.items, name), name, binding.decimals)
    kind = "characters" if array.is_text else "numbers"
    summary = f"⍝ {name} is data: {kind}, {' '.join(map(str, array.shape))}"
    session.show_value(lines if len(lines) <= MOST_LINES else [summary], is_text=True)


@command("]edit NAME", "gives the line back that makes a name, to be edited at the terminal")
def edit(session: Session, name: str) -> None:
    binding = session.binding(name)
    lines = [binding.text] if binding.text else storing.one_line(session.program, name)
    if not lines:
        raise Mistake(f"{name} is data of more than one line; {name}[..]←.. edits an item of it")
    lines = lines if binding.text else with_units(lines, name, binding.decimals)
    if session.is_typed:
        session.draft = lines[0]
    else:
        session.show(lines[0])


@command("]rename OLD NEW", "gives a name another name, in the formulas too that refer to it; it goes last in the order of names")
def rename(session: Session, old: str, new: str) -> None:
    binding, bindings = session.binding(old), session.journal.bindings
    if not re.fullmatch(NAME, new):
        raise Mistake(f"{new} is no name")
    if new in bindings:
        raise Mistake(f"{new} is there already")
    text = binding.text or with_units([f")DATA {old}←{old}"], old, binding.decimals)[0]
    head = f")DATA {new}←" if binding.is_data else f"{new}←"
    made = head + text.partition("←")[2]
    users = [renamed(user.text or "", old, new) for user in bindings.values() if old in user.references]
    session.change(f"]rename {old} {new}", [made, *users, f")ERASE {old}"])
    session.watch.rename(old, new)


def renamed(text: str, old: str, new: str) -> str:
    """Returns a line with the references to a name replaced by another name; its texts and its comment stay."""
    reference = rf"(?<![A-Za-z∆⍙0-9_]){old}(?![A-Za-z∆⍙0-9_])"
    pieces: List[str] = PIECE.findall(text)
    return "".join(piece if piece[0] in "'⍝" else re.sub(reference, new, piece) for piece in pieces)


@command("]watch [NAME..] [--off]", "shows names again after each change that reaches them; --off ends that, for all without NAME")
def watch(session: Session, names: List[str], off: bool) -> None:
    for name in names:
        session.binding(name)
    if off:
        session.watch.remove(names or [*session.watch.shown])
    else:
        session.watch.add(session, names or [*session.watch.shown])


@command("]clear", "removes all names")
def clear(session: Session) -> None:
    if session.journal.bindings:
        session.change("]clear", [f")ERASE {name}" for name in session.journal.bindings])
