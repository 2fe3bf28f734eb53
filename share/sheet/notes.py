"""Notes on an error or a refusal: absent names, the cycle, shapes, and hints for the usual slips.

No note changes an answer. Notes come from the text of the lines, or from questions to the program.
"""

from __future__ import annotations

import re
from collections import deque
from difflib import get_close_matches
from typing import TYPE_CHECKING, Callable, Iterable, Optional

from .answers import Answer
from .lines import LONGEST, NAME, Line, without_comment
from .slips import OUTSIDE, doubts_of, slip_of

if TYPE_CHECKING:
    from .places import Spot
    from .session import Session

MOST = 5  # absent names with their own note

# Functions that refuse some items, and the hint on their DOMAIN ERROR.
TAKEN = {
    "∧^∨⍲⍱~∼": "{} takes 0 and 1 alone",
    "+-×|∣⌈⌊<≤≥>": "{} takes numbers alone, and no characters",
    ",⍪": "numbers and characters do not join",
}

REFUSED = {
    "LIMIT ERROR": "a number is beyond 64 bits, or an array or a line beyond the limits of docs/LANGUAGE.md",
    "SHEET FULL": "a sheet has at most 1,024 names",
    "NOT TEXT": "the line is not UTF-8",
    "STALE": "another change was made since this one was opened: )DROP it, and open it again",
    "NOT READY": "steps are left: )STEP until it prints 0",
    "SLOT IN USE": "the slot holds a change that is open: )COMMIT or )DROP it, or take another",
    "NO SLOT": "slots are 1 to 8, and )STEP, )COMMIT and )DROP are for those that are open",
}


def of_fault(session: Session, answer: Answer, spot: Optional[Spot] = None) -> list[str]:
    """Returns the notes on an error or a refusal at this place, if the place is known."""
    if answer.kind is None:
        return ["no such answer is known, so the line counts as refused"]
    if answer.kind not in (*ABOUT, "DOMAIN ERROR"):
        return [REFUSED[answer.kind]] if answer.kind in REFUSED else []
    if answer.kind == "DOMAIN ERROR":
        notes = of_items(session, answer, spot)
    else:
        notes = ABOUT[answer.kind](session, answer)
    return notes + of_slip(answer.line) * (answer.kind not in ("SYNTAX ERROR", "LINE TOO LONG"))


def of_slip(line: Line) -> list[str]:
    """Returns a note on a line that was answered, if it looks like a slip."""
    return doubts_of(line)


def subject(answer: Answer) -> Line:
    """Returns the refused or failed line; for )OPEN k the line after it."""
    return answer.line.opened if answer.line.kind == "open" else answer.line


def culprit(session: Session, answer: Answer) -> Line:
    """Returns the line in which the error arose: the formula of its origin, or the line itself."""
    binding = session.journal.bindings.get(answer.origin or "")
    return Line(binding.text) if binding and binding.text else subject(answer)


def absent(name: str, names: Iterable[str]) -> str:
    """Says that a name is absent, and names a similar one."""
    near = get_close_matches(name, names, 1, 0.75) or [known for known in names if known.upper() == name.upper()]
    return f"{name} is not there" + (f"; is {near[0]} meant?" if near else "")


def of_value(session: Session, answer: Answer) -> list[str]:
    """Returns the names that are absent."""
    names, line = session.journal.bindings, culprit(session, answer)
    if line.code.upper() in OUTSIDE:
        return [f"is ]{OUTSIDE[line.code.upper()]} meant?"]
    missing = [name for name in line.references if name not in names]
    notes = [absent(name, names) for name in missing[:MOST]]
    notes += [f"{len(missing) - MOST} others are not there"] * (len(missing) > MOST)
    if missing and re.match(rf"{NAME}\s*=", line.code) and line.references[0] == missing[0]:
        notes.append("= compares; a name is bound by ←, by the keys `[")
    return notes


def way_round(session: Session, line: Line) -> list[str]:
    """Returns the names on a shortest cycle from a name through formulas, or nothing if there is none."""
    bindings, first = session.journal.bindings, line.name or ""
    before = dict.fromkeys(line.references, first)
    ahead = deque(before)
    while ahead and first not in before:
        name = ahead.popleft()
        further = [other for other in bindings[name].references if other not in before] if name in bindings else []
        before.update(dict.fromkeys(further, name))
        ahead.extend(further)
    if first not in before:
        return []
    way = [first]
    while len(way) == 1 or way[-1] != first:
        way.append(before[way[-1]])
    return way[::-1]


def of_cycle(session: Session, answer: Answer) -> list[str]:
    """Returns the cycle from the name through formulas as text."""
    way = way_round(session, subject(answer))
    return [" → ".join(way)] if way else []


def of_formula(session: Session, answer: Answer) -> list[str]:
    """Returns the formula that cannot be edited."""
    name = subject(answer).name or ""
    text = without_comment(session.journal.bindings[name].text or "")
    return [f"{name} is a formula, {text}; )DATA {name}←{name} makes data of it, which can be edited"]


def of_absent(session: Session, answer: Answer) -> list[str]:
    return [absent(subject(answer).name or "", session.journal.bindings)]


def of_shapes(session: Session, answer: Answer) -> list[str]:
    """Returns the shapes of the names in the line in which the error arose."""
    line = culprit(session, answer)
    subjects = [line.name] if line.name and line.kind in ("edit", "row", "csv") else []
    names = [name for name in dict.fromkeys([*subjects, *line.references]) if name in session.journal.bindings]
    printed = session.program.ask_all([f"⍴{name}" for name in names])
    shapes = [f"{name}: {shape[0] or 'scalar'}" for name, shape in zip(names, printed)]
    return [f"shapes: {'; '.join(shapes)}"] if shapes else []


def of_items(session: Session, answer: Answer, spot: Optional[Spot]) -> list[str]:
    """Returns a note on the items that the function at the error refuses; on ÷ if the function is unknown."""
    line = culprit(session, answer)
    if line.kind == "csv":
        return [f")CSV prints numbers, and {line.name} is of characters"]
    function = spot.function if spot else "÷" if "÷" in line.code else ""
    if spot and "÷" in function and re.match(r"\s*0+\s*(?:[]);⍝]|$)", spot.text[spot.place + len(function) :]):
        return ["a number divided by 0 is an error, but for 0÷0, which is 1"]
    if "÷" in function:
        return ["÷ is an error where the quotient is not whole, and by 0, but for 0÷0"]
    base = base_of(function)
    return [hint.format(base) for signs, hint in TAKEN.items() if base and base in signs]


def base_of(function: str) -> str:
    """Returns the scalar function under the operator, or the function itself; nothing if shapes can be wrong."""
    if function.startswith("∘"):
        return function[-1]
    is_of_lines = len(function) > 1 and function[0] in "⍲⍱"  # these have no result for empty lines
    return "" if "." in function or is_of_lines else function[:1]


def of_length(_session: Session, answer: Answer) -> list[str]:
    length = len(answer.line.text.encode("utf-8", "surrogateescape"))
    return [f"the line has {length} bytes, and a line has at most {LONGEST}; a table from a file comes in by ]table"]


def of_syntax(session: Session, answer: Answer) -> list[str]:
    """Returns the usual meaning of such a line; otherwise the symbol that is unknown or not paired."""
    slip = slip_of(subject(answer), session.journal.bindings)
    return [slip.hint] if slip else []


ABOUT: dict[str, Callable[[Session, Answer], list[str]]] = {
    "VALUE ERROR": of_value,
    "CYCLE": of_cycle,
    "NOT DATA": of_formula,
    "NOT FOUND": of_absent,
    "SYNTAX ERROR": of_syntax,
    "LENGTH ERROR": of_shapes,
    "RANK ERROR": of_shapes,
    "INDEX ERROR": of_shapes,
    "LINE TOO LONG": of_length,
}
