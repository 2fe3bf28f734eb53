"""What-ifs: copies of the sheet, each in a program of its own, in which changes are tried and then kept in the sheet or given up."""

from __future__ import annotations

from typing import Dict, List, NamedTuple, Optional

from ..errors import Mistake
from ..journal import Change, Journal
from ..program import ProgramFailed
from ..session import Session
from .copying import lines_of_copy
from .desk import Desk
from .looks import Look, Told

MOST = 8  # what-ifs at a time


class WhatIf(NamedTuple):
    """A what-if: its title, its desk, and the version of the sheet of which it is a copy."""

    title: str
    desk: Desk
    version: int


class WhatIfs:
    """The what-ifs of a sheet, by their numbers, which begin at 1."""

    def __init__(self, sheet: Desk) -> None:
        self.sheet, self.next = sheet, 1
        self.all: Dict[int, WhatIf] = {}

    def begin(self) -> int:
        """Begins a what-if, and returns its number."""
        if len(self.all) == MOST:
            raise Mistake(f"there are {MOST} what-ifs already; keep one or give one up first")
        desk, number = copy_of(self.sheet), self.next
        self.all[number], self.next = WhatIf(f"What-if {number}", desk, self.sheet.version), number + 1
        return number

    def find(self, number: int) -> Optional[Desk]:
        """Returns the desk of that number, or None if there is none; 0 is the sheet."""
        if number == 0:
            return self.sheet
        return self.all[number].desk if number in self.all else None

    def desk(self, number: int) -> Desk:
        """Returns the desk of that number; a Mistake if there is none."""
        desk = self.find(number)
        if desk is None:
            raise Mistake("this what-if has ended")
        return desk

    def keep(self, number: int) -> Told:
        """Makes the changes of a what-if in the sheet, as one change, and ends it; if they are refused, it goes on."""
        desk = self.desk(number)
        changes = desk.session.journal.changes[desk.first :]
        kept = self.sheet.keep(changes) if changes else {}
        if "error" not in kept:
            if self.all[number].version != kept.get("version", self.sheet.version) - bool(changes):
                kept["notes"] = ["the sheet itself was changed too since this what-if began"]
            self.drop(number)
        return kept

    def drop(self, number: int) -> None:
        """Gives a what-if up."""
        desk = self.desk(number)
        del self.all[number]
        desk.end()
        desk.session.program.stop()

    def told(self) -> List[Told]:
        """Returns the number, the title and the count of changes of each what-if."""
        return [{"desk": number, "title": each.title, "count": len(each.desk.session.journal.changes) - each.desk.first} for number, each in self.all.items()]

    def compared(self, looks: List[Look]) -> List[Told]:
        """Returns the answers to looks in the sheet and in each what-if."""
        titles = {0: "Sheet", **{number: each.title for number, each in self.all.items()}}
        return [{"desk": number, "title": title, **self.desk(number).look(looks)} for number, title in titles.items()]


def copy_of(sheet: Desk) -> Desk:
    """Returns a desk with a copy of the sheet, whose changes do not change the sheet."""
    with sheet.lock:
        sheet.session.make_ready()
        session = Session(sheet.session.program.another(), sheet.session.show, sheet.session.tell)
        bindings = sheet.session.journal.bindings
        journal = Journal([Change("the sheet", lines_of_copy(sheet.session), {**bindings})] if bindings else [])
        journal.mark_saved()
    try:
        session.take_over(session.program, journal, lambda: None)
    except ProgramFailed as failure:
        session.program.stop()
        raise Mistake(f"no what-if can begin: {failure}") from None
    return Desk(session, len(journal.changes))
