"""Why a name shows its value: the line that makes it, the names that it reads with their values in short, and the names that read it."""

from __future__ import annotations

import textwrap
from math import prod
from typing import TYPE_CHECKING, NamedTuple

from . import notes, places
from .answers import Answer, is_shape
from .lines import Line
from .places import columns

if TYPE_CHECKING:
    from .program import Program
    from .session import Session

MOST = 200  # items shown of a value
LABELS = 11  # columns of the labels


class Glance(NamedTuple):
    """A summary of a value: an error, or the kind and the shape, and the items if there are few."""

    error: str
    kind: str
    shape: list[int]
    items: str

    def __str__(self) -> str:
        if self.error:
            return self.error
        kind = " ".join([self.kind, *map(str, self.shape)])
        if not self.items:
            return kind
        return self.items if len(self.shape) < 2 else f"{kind}: {self.items}"


def glances_at(program: Program, names: list[str]) -> dict[str, Glance]:
    """Returns a summary of each name. It requests no value with more than MOST items."""
    answers = program.ask_all([question for name in names for question in (f"⍴{name}", f"0=1↑0⍴{name}")])
    shapes = [[int(length) for length in shape[0].split()] if is_shape(shape) else None for shape in answers[::2]]
    small = [name for name, shape in zip(names, shapes) if shape is not None and 0 < prod(shape) <= MOST]
    items = dict(zip(small, program.ask_all([f",{name}" for name in small])))
    kinds = ["numbers" if kind == ["1"] else "characters" for kind in answers[1::2]]
    errors = ["" if shape is not None else " ".join(answer) for shape, answer in zip(shapes, answers[::2])]
    looks = zip(names, errors, kinds, shapes)
    return {name: Glance(error, kind, shape or [], " ".join(items.get(name, []))) for name, error, kind, shape in looks}


def why(session: Session, name: str) -> list[str]:
    """Returns the lines that explain a name; a Mistake if the name is absent."""
    bindings, binding = session.journal.bindings, session.binding(name)
    reads = binding.references
    glances = glances_at(session.program, [other for other in dict.fromkeys([name, *reads]) if other in bindings])
    own = glances[name]
    lines = [] if binding.is_data and not own.items else labelled("value", [str(own)])
    if own.error:
        answer = Answer(Line(name), [own.error], True)
        spot = places.spot_of(session, answer)
        arose = spot.lines(LABELS) if spot else [notes.culprit(session, answer).text.strip()]
        lines += labelled("arose", [*arose, *notes.of_fault(session, answer, spot)])
    widest = max(map(len, reads), default=0)
    lines += labelled("reads", [f"{other.ljust(widest)}  {glances.get(other, 'is not there')}" for other in reads])
    readers = ", ".join(other for other, its in bindings.items() if name in its.references)
    lines += labelled("read by", textwrap.wrap(readers, columns() - LABELS))
    shape = " ".join(map(str, own.shape)) or "scalar"
    return [f"{name} is data: {own.kind} {shape}" if binding.is_data else str(binding.text), *map(cut, lines)]


def labelled(label: str, texts: list[str]) -> list[str]:
    """Returns texts as lines, the first one after its label."""
    return [f"  {label if place == 0 else '':<{LABELS - 2}}{text}" for place, text in enumerate(texts)]


def cut(line: str) -> str:
    """Returns a line that is no wider than the terminal; .. stands for the rest."""
    return line if len(line) <= columns() else f"{line[: columns() - 2]}.."
