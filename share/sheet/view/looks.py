"""Looks: questions of a page about an expression. A look asks for the shape, the kind, and a window of items, the points of a plot, or a span.

The program prints only the window, so an array of a million items costs no more than its part in sight. The window is asked for in the same
batch as the shape, by the shape that the last look found; if the shape has changed, the window is asked for once more. Items stay texts, since
JavaScript would round a number of more than 53 bits.
"""

from __future__ import annotations

import re
from typing import Any, Dict, Iterable, List, NamedTuple, Optional, Sequence, Tuple

from .. import notes
from ..answers import Answer, fault_of, is_shape
from ..lines import NAME, Line, without_comment
from ..session import Session

MOST = 8192  # items of a window
POINTS = 256  # of a plot, along each line; a longer one is gathered into that many pieces
LINES = 8  # lines of a plot; a matrix of more rows is plotted as a map of greatest items
MAP = 48  # rows and columns of such a map
WANTS = ("items", "plot", "span", "form")
FORM = ("shape", "text", "error", "origin", "notes")  # the parts of an answer about a form
Lines = List[str]  # the lines of an answer
Told = Dict[str, Any]  # an answer or an event for a page, as JSON


class Form(NamedTuple):
    """The shape of an array, and whether it is of characters."""

    shape: Tuple[int, ...]
    is_text: bool


class Look:
    """A question of a page.

    of      the expression
    window  for the last one or two axes the first place, counted from 0, and the number of places
    plane   for each axis before them a place, counted from 1
    want    items, plot, span (the least and the greatest item) or form (shape and kind alone)
    tag     the number of the answer that the page has already, or 0
    """

    def __init__(
        self, of: str = "", window: Sequence[Sequence[int]] = (), plane: Sequence[int] = (), want: str = "items", tag: int = 0
    ) -> None:
        self.line = Line(without_comment(of))
        self.of, self.want, self.tag = self.line.text, want, tag
        self.window = [(int(first), int(count)) for first, count in window][-2:]
        self.plane = [int(place) for place in plane]
        self.names = frozenset([self.of, *self.line.references])
        self.key = (self.of, tuple(self.window), tuple(self.plane), want)
        if self.line.kind != "show" or want not in WANTS:
            raise ValueError("only an expression can be looked at")

    @property
    def operand(self) -> str:
        """The expression as an index can follow it."""
        return self.of if re.fullmatch(NAME, self.of) else f"({self.of})"

    def questions(self, form: Optional[Form]) -> List[str]:
        """Returns the lines that ask for the wanted part of an array of that form; none if the form is unknown."""
        if form is None or self.want == "form" or 0 in form.shape or form.is_text and self.want != "items":
            return []
        if self.want == "span":
            return [f"{sign}/,{self.of}" for sign in "⌊⌈"]
        if self.want == "plot":
            return plot(self.of, form.shape)
        places = self.places(form.shape)
        before = len(form.shape) - len(places)
        positions = [str(self.place_on(axis, length)) for axis, length in enumerate(form.shape[:before])]
        positions += [position(*place, length) for place, length in zip(places, form.shape[before:])]
        return [f"{self.operand}[{';'.join(positions)}]" if any(positions) else self.of]

    def places(self, shape: Sequence[int]) -> List[Tuple[int, int]]:
        """Returns the part of the window that is there: for each of the last axes the first place and the number of places."""
        axes, room = shape[-2:], MOST
        wanted = [(0, MOST)] * len(axes) + self.window
        found: List[Tuple[int, int]] = []
        for (first, count), length in zip(reversed(wanted), reversed(axes)):
            first = min(max(first, 0), max(length - 1, 0))
            count = max(min(count, length - first, room), 1)
            room = max(room // count, 1)
            found.insert(0, (first, count))
        return found

    def place_on(self, axis: int, length: int) -> int:
        """Returns the place that the plane has on an axis before the last two."""
        return min(max(self.plane[axis], 1), length) if axis < len(self.plane) else 1


def position(first: int, count: int, length: int) -> str:
    """Returns a position of an index, which is empty for a whole axis."""
    if count == length:
        return ""
    return f"{first}+⍳{count}" if first else f"⍳{count}"


def pieces(shape: Sequence[int]) -> List[Tuple[int, int, int]]:
    """Returns for each axis of a plot the length of the pieces into which it is cut, their number, and the number of places left over."""
    if not 1 <= len(shape) <= 2:
        return []
    most = [POINTS] if len(shape) == 1 else [LINES, POINTS] if shape[0] <= LINES else [MAP, MAP]
    return [cut(length, pieces) for length, pieces in zip(shape, most)]


def cut(length: int, most: int) -> Tuple[int, int, int]:
    """Returns how an axis is cut into at most that many pieces, with as few places left over as possible."""
    least = -(-length // most)
    long = min(range(least, 2 * least), key=lambda size: length % size)
    return long, length // long, length % long


def plot(of: str, shape: Sequence[int]) -> List[str]:
    """Returns the lines that ask for the points of a plot; for those of many items, the least and the greatest item of each piece."""
    cuts = pieces(shape)
    if all(long == 1 for long, _, _ in cuts):
        return [of] * bool(cuts)
    long, count, rest = cuts[-1]
    if len(cuts) == 1:
        behind = f",SIGN/{count * long}↓{of}" if rest else ""
        form = f"(SIGN/{count} {long}⍴{of}){behind}"
    elif shape[0] <= LINES:
        form = f"SIGN/{shape[0]} {count} {long}⍴{shape[0]} {count * long}↑{of}"
    else:
        high, down, _ = cuts[0]
        return [f"⌈/[2]⌈/[4]{down} {high} {count} {long}⍴{down * high} {count * long}↑{of}"]
    return [form.replace("SIGN", sign) for sign in "⌊⌈"]


def look_at(session: Session, forms: Dict[str, Form], looks: Sequence[Look]) -> List[Told]:
    """Returns the answer to each look. Updates `forms`, the forms that expressions had so far."""
    asked = [[f"⍴{look.of}", f"0=1↑0⍴{look.of}", *look.questions(forms.get(look.of))] for look in looks]
    answers = grouped(session, asked)
    found = [form_of(answer) for answer in answers]
    changed = [place for place, look in enumerate(looks) if found[place] and found[place] != forms.get(look.of)]
    for place, lines in zip(changed, grouped(session, [looks[place].questions(found[place]) for place in changed])):
        answers[place][2:] = lines
    for look, form in zip(looks, found):
        if form:
            forms[look.of] = form
        else:
            forms.pop(look.of, None)
    return [told(session, *each) for each in zip(looks, found, answers)]


def grouped(session: Session, questions: Sequence[Sequence[str]]) -> List[List[Lines]]:
    """Asks the questions of several groups in one batch, and returns their answers by groups."""
    answers = iter(session.program.ask_all([line for group in questions for line in group]))
    return [[next(answers) for _ in group] for group in questions]


def form_of(answers: Sequence[Lines]) -> Optional[Form]:
    """Returns the form by the answers about shape and kind; None if they are an error."""
    shape, kind = answers[:2]
    return Form(tuple(map(int, shape[0].split())), kind == ["0"]) if is_shape(shape) else None


def told(session: Session, look: Look, form: Optional[Form], answers: Sequence[Lines]) -> Told:
    """Returns the answer to a look."""
    if form is None:
        return fault(session, look, answers[0])
    wrong = next((lines for lines in answers[2:] if not form.is_text and fault_of(lines)), None)
    if wrong:
        return fault(session, look, wrong)
    found: Told = {"shape": form.shape, "text": form.is_text}
    if look.want == "items":
        found["at"] = [first for first, _ in look.places(form.shape)]
        found["lines"] = answers[2] if len(answers) > 2 else []
    elif look.want == "span":
        found["span"] = [lines[0] for lines in answers[2:]]
    elif look.want == "plot":
        found["points"] = answers[2:]
        found["pieces"] = pieces(form.shape)
    return found


def fault(session: Session, look: Look, lines: Lines) -> Told:
    """Returns the answer to a look at an error: its text, the name where it arose, and notes."""
    answer = Answer(look.line, lines, True)
    return {"error": answer.kind or " ".join(lines), "origin": answer.origin, "notes": notes.of_fault(session, answer)}


class Seen:
    """The answers to looks so far, each with a number of its own. An answer that did not change keeps its number.

    forms  the form of each expression at its last look
    known  the shape and kind, or the error, of each expression that did not change since its last look
    """

    KEPT = 1000  # answers

    def __init__(self) -> None:
        self.forms: Dict[str, Form] = {}
        self.known: Dict[str, Told] = {}
        self.told: Dict[Any, Told] = {}
        self.stale: Dict[Any, None] = {}
        self.names: Dict[Any, frozenset[str]] = {}
        self.number = 0

    def reach(self, names: Iterable[str]) -> None:
        """Notes that answers about these names may have changed."""
        reached = {*names}
        for key, its in self.names.items():
            if not its.isdisjoint(reached):
                self.stale[key] = None
                self.known.pop(key[0], None)

    def at(self, session: Session, looks: Sequence[Look]) -> List[Told]:
        """Returns the answer to each look; only its number if the page has that answer already."""
        new = {look.key: look for look in looks if look.key not in self.told or look.key in self.stale}
        known = [look for look in new.values() if look.want == "form" and look.of in self.known]
        for look in known:
            self.keep(new.pop(look.key), self.known[look.of])
        for look, told in zip(new.values(), look_at(session, self.forms, [*new.values()])):
            self.keep(look, told)
        found = [self.told[look.key] for look in looks]
        self.forget()
        return [told if told["tag"] != look.tag else {"tag": look.tag} for look, told in zip(looks, found)]

    def keep(self, look: Look, told: Told) -> None:
        """Keeps an answer, with the number of the one before if that is equal."""
        former = self.told.pop(look.key, {})
        self.stale.pop(look.key, None)
        if former != {**told, "tag": former.get("tag")}:
            self.number += 1
            former = {**told, "tag": self.number}
        self.told[look.key], self.names[look.key] = former, look.names
        self.known[look.of] = {part: told[part] for part in FORM if part in told}

    def forget(self) -> None:
        """Drops the oldest answers beyond KEPT."""
        for key in [*self.told][: -self.KEPT]:
            del self.told[key], self.names[key]
            self.stale.pop(key, None)
            self.known.pop(key[0], None)
