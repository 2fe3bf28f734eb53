"""A sheet in use, which answers lines."""

from __future__ import annotations

import os
import threading
import traceback
from contextlib import ExitStack
from functools import partial
from pathlib import Path
from typing import TYPE_CHECKING, Callable, Dict, Iterable, List, NamedTuple, Optional, Sequence, Tuple

from . import notes, pager, places
from . import change_commands, export_commands, file_commands, grouping_commands  # noqa: F401: they fill commands.COMMANDS
from . import help_commands, name_commands, table_commands, view_commands, workbook_commands  # noqa: F401
from .answers import Answer, answer, first_refusal
from .arrays import literal
from .commands import run
from .errors import End, Lost, Mistake, OutputFailed, Stopped
from .files import Home, lines_of
from .interrupts import is_main_thread, signals
from .journal import Binding, Change, Journal, Place, Source, change_of, joined
from .lines import Line
from .places import Spot
from .program import Program, ProgramFailed
from .progress import Progress
from .recovery import Log, event_of, is_open_elsewhere, joined_to, redone, saved, undone
from .storing import one_line
from .watching import Watch

if TYPE_CHECKING:
    from .view.serving import Server

CELLS = 1000  # the most edits of one change with an inverse each; more are undone by making the sheet again


class Reply(NamedTuple):
    """The answer to a line, with notes, and the known place of an error."""

    answer: Answer
    remarks: List[str]
    spot: Optional[Spot]


class Session:
    """A sheet in use.

    program     the program that answers
    journal     the changes that it has accepted
    home        the script that the sheet was loaded from or saved to, if there is one
    arrival     the change that loaded the home by ]load, if one did: without it the sheet has no home
    log         the log of the session; None without a terminal
    show        called with each line that is an answer
    tell        called with each other line: errors, refusals, notes
    has_screen  whether the answers go to a terminal
    is_check    whether only errors and refusals are wanted, and no file is written
    faults      the number of lines that were refused or were errors
    place       the place of the line that is answered, if it is of a script
    loading     the files that are being loaded, each by its device and its number there
    watch       the names that are shown after each change that reaches them
    changed     the names bound since the watched names were shown last
    draft       a line for the user to edit
    on_screen   the prompt and the last typed line; None over pipes
    is_settled  whether the journal has every change that the program has accepted
    lock        held while a line is answered; pages in a browser use the session too
    followers   called with each change that is made or undone
    server      the server of the page of the sheet, if ]view has begun one
    top         the folder whose bin/ has the program, as a rule
    at_end      calls for the end of the session, as the end of the server
    """

    def __init__(self, program: Program, show: Callable[[str], None], tell: Callable[[str], None], is_check: bool = False) -> None:
        self.program, self.show, self.tell, self.is_check = program, show, tell, is_check
        program.is_awaited = lambda: self.is_typed and is_main_thread()
        self.journal, self.watch = Journal(), Watch()
        self.home: Optional[Home] = None
        self.arrival: Optional[Change] = None
        self.log: Optional[Log] = None
        self.has_screen = False
        self.place: Optional[Place] = None
        self.on_screen: Optional[str] = None
        self.faults, self.draft, self.is_settled = 0, "", True
        self.loading: List[Tuple[int, int]] = []
        self.changed: Dict[str, Optional[Binding]] = {}
        self.lock = threading.RLock()
        self.followers: List[Callable[[Change], None]] = []
        self.server: Optional[Server] = None
        self.top = Path()
        self.at_end = ExitStack()

    @property
    def is_typed(self) -> bool:
        """True if lines are typed at a terminal."""
        return self.log is not None

    def take(self, text: str, place: Optional[Place] = None) -> None:
        """Answers any line. If the program dies or is stopped, the sheet stays unchanged.

        Ctrl-C in a line of a script stops the script too.
        """
        with self.lock:
            self.take_alone(text, place)

    def take_alone(self, text: str, place: Optional[Place]) -> None:
        """Answers a line as `take` does; the lock is held."""
        outer, self.place = self.place, place
        try:
            self.make_ready()
            self.answer(text)
            self.show_watched()
        except ProgramFailed as failure:
            self.complain(text, f"PROGRAM FAILED: {failure}")
            self.make_ready()
        except KeyboardInterrupt:
            self.complain(text, "STOPPED" if place else "\nSTOPPED")  # the terminal has shown ^C
            signals.release()
            self.make_ready()
            if place:
                raise Stopped from None
        except Stopped:
            if place:
                raise
        except (End, Lost, OutputFailed):
            raise
        except Exception as fault:
            self.complain(text, f"FAULT OF THE FRONT END: {told_of(fault)}")
            self.begin_again()
        finally:
            self.place = outer

    def answer(self, text: str) -> None:
        """Answers a line, and reports its faults and slips."""
        line = Line(text)
        if line.kind == "user":
            try:
                run(self, text)
            except Mistake as mistake:
                self.complain(text, str(mistake))
            return
        reply = self.reply(line)
        if reply.answer.is_fault:
            self.complain(text, "\n".join(reply.answer.lines), reply.remarks, reply.spot)
            return
        self.show_value(reply.answer.lines)
        for remark in reply.remarks:
            self.remark(remark)

    def remark(self, remark: str) -> None:
        """Prints a note on the current line."""
        self.tell(f"{self.place}: note: {remark}" if self.place else f"  {remark}")

    def inform(self, remark: str) -> None:
        """Prints a note, except under --check."""
        if not self.is_check:
            self.remark(remark)

    def show_value(self, lines: Sequence[str], is_text: bool = False, frozen: pager.Frozen = pager.Frozen()) -> None:
        """Shows a value, or a text, in the pager if it is beyond the screen; `frozen` lines and columns stay in sight there."""
        if self.is_typed and self.has_screen and pager.is_wanted(lines, is_text):
            pager.show(lines, frozen)
            return
        if not self.is_check:
            for line in lines:
                self.show(line)

    def show_watched(self) -> None:
        """Shows the watched names that changes have reached, but not while a file is loading."""
        if not self.loading:
            self.watch.show(self, self.changed)
            self.changed = {}

    def reply(self, line: Line, give: Optional[Callable[[Program, Line], Answer]] = None) -> Reply:
        """Gives a line of the language to the program by `give`, or by `answer`. Records its change. Returns the answer with notes."""
        made = None if self.place else self.journal.made_by(line)
        inverse = self.inverse(made) if made else None
        self.is_settled = False
        reply = (give or answer)(self.program, line)
        with signals.held():
            change = None if reply.is_fault else self.journal.accept(line, self.place, inverse)
            self.settle(event_of(change) if change else [], change)
        return self.explained(reply) if reply.is_fault else Reply(reply, notes.of_slip(line), None)

    def explained(self, fault: Answer) -> Reply:
        """Returns an error or a refusal with notes and its place."""
        spot = places.spot_of(self, fault)
        return Reply(fault, notes.of_fault(self, fault, spot), spot)

    def settle(self, events: Sequence[str], change: Optional[Change] = None) -> None:
        """Logs events of the journal, and records the names that their changes bind; signals are held."""
        if change:
            self.changed.update(change.bound)
            for follow in self.followers:
                follow(change)
        if self.log and events:
            self.log.append(events, self.journal, self.home)
        self.is_settled = True

    def complain(self, text: str, what: str, remarks: Sequence[str] = (), spot: Optional[Spot] = None) -> None:
        """Reports a refusal or an error of a line: its place if it is of a script, the place of the error in it, and remarks."""
        self.faults += 1
        is_here = spot is not None and spot.text == text
        mark = spot.below(self.on_screen) if spot and is_here and not self.place else None
        for line in filter(None, [mark, f"{self.place}: {what}" if self.place else what]):
            self.tell(line)
        shown = [text.strip()] if self.place and not is_here else []
        for line in [*shown, *(spot.lines() if spot and not mark else []), *remarks]:
            self.tell(f"  {line}")

    def binding(self, name: str) -> Binding:
        """Returns the binding of a name; a Mistake if it is not there."""
        if name not in self.journal.bindings:
            raise Mistake(notes.absent(name, self.journal.bindings))
        return self.journal.bindings[name]

    def change(self, title: str, lines: Sequence[str], source: Optional[str] = None) -> None:
        """Gives the program lines that make one change, all or none; a Mistake if one of them is refused.

        `source` is the table file of the bound names.
        """
        parsed = [Line(line) for line in lines]
        change = joined(title, [change_of(line, self.place) for line in parsed])
        change.inverse = None if self.place else self.inverse_of(parsed, change)
        for binding in change.bound.values():
            if binding and source:
                binding.source, binding.text = Source.of(source), None
        self.is_settled = False
        refused = first_refusal(self.program.ask_all(lines))
        if refused is not None:
            self.begin_again()
            raise Mistake(refused)
        with signals.held():
            self.journal.add(change)
            self.settle(event_of(change), change)

    def come_home(self, home: Optional[Home], arrival: Optional[Change] = None) -> None:
        """Makes a file the home of the sheet, which equals the file. Notes another session with the same home."""
        former = self.home
        with signals.held():
            self.home, self.arrival = home, arrival
            self.journal.mark_saved()
            self.settle(saved(home) if home else [])
        if home and (former is None or former.path != home.path):
            self.tell_of_others()

    def tell_of_others(self) -> None:
        """Prints a note if another session has the same file."""
        if self.home and self.log and is_open_elsewhere(self.home, self.log.path):
            self.tell("  another session has this file too: the second to save it is refused, and gets a message")

    def join(self, first: int, title: str) -> None:
        """Makes one change of those from number `first` on."""
        with signals.held():
            number = self.journal.join(first, title)
            self.settle(joined_to(number, title) if number else [])

    def inverse(self, line: Line) -> Optional[List[str]]:
        """Returns lines that undo the change of a line, if they are known before it is made; else None."""
        name = line.name or ""
        binding = self.journal.bindings.get(name)
        if line.kind == "edit" and binding:
            cell = line.code.partition("←")[0]
            item, kind = self.program.ask_all([cell, f"0=1↑0⍴{name}"])
            text = item[0] if len(item) == 1 else ""
            return [f"{cell}←{literal(text) if kind == ['0'] else text}"]
        if line.kind == "row" and binding:
            return [f")DATA {name}←{'¯1 0' if self.program.ask(f'⍴⍴{name}') == ['2'] else '¯1'}↓{name}"]
        if line.kind in ("definition", "data"):
            return self.inverse_of_binding(name)
        return None

    def inverse_of_binding(self, name: str) -> Optional[List[str]]:
        """Returns lines that restore the present binding of a name, or erase an absent one; None if one line is too short."""
        binding = self.journal.bindings.get(name)
        if binding is None:
            return [f")ERASE {name}"]
        return [binding.text] if binding.text else one_line(self.program, name)

    def inverse_of(self, lines: Sequence[Line], change: Change) -> Optional[List[str]]:
        """Returns lines that undo a change of several lines, if they are known; else None."""
        if all(line.kind == "edit" for line in lines):
            inverses = [self.inverse(line) for line in lines] if len(lines) <= CELLS else [None]
        elif any(binding is None and name in self.journal.bindings for name, binding in change.bound.items()):
            return None  # a removed name would return to another place
        else:
            inverses = [self.inverse_of_binding(name) for name, binding in change.bound.items() if binding]
        if None in inverses:
            return None
        return [line for inverse in reversed(inverses) for line in inverse or ()]

    def make_ready(self) -> None:
        """Restarts the program if it has ended, was stopped within an answer, or has changes that the journal lacks."""
        if not self.is_settled or not self.program.is_ready:
            self.begin_again()

    def begin_again(self) -> None:
        """Restarts the program, and gives it the changes of the journal. They were accepted once, so they are accepted again."""
        with signals.without_interrupts():
            self.program.stop()
            try:
                self.take_over(self.program, self.journal, partial(self.settle, []))
            except ProgramFailed as failure:
                self.log = self.log or (None if self.is_check else Log(self.tell))
                raise Lost(str(failure)) from None

    def take_over(self, program: Program, journal: Journal, settle: Callable[[], None]) -> None:
        """Starts a program, gives it the changes of a journal, and continues with both; ProgramFailed if that is not possible.

        Calls `settle` with signals held, once program and journal agree.
        """
        lines = journal.lines
        program.start()
        for printed in Progress("the sheet is made again", len(lines), self.is_typed).over(program.answers(lines)):
            if printed:
                raise ProgramFailed(f"{program.words[0]} refuses a line that it took before: {first_refusal([printed])}")
        with signals.held():
            lost = ", ".join(sorted(self.journal.slots))
            self.program, self.journal = program, journal
            self.journal.slots.clear()
            settle()
        if lost:
            self.tell(f"  the changes that were open are given up: {lost}")

    def remake(self, journal: Journal, settle: Callable[[], None]) -> None:
        """Continues with another journal in a new program, like take_over. A failure or a stop leaves the sheet unchanged."""
        former, program = self.program, self.program.another()
        try:
            self.take_over(program, journal, settle)
        except ProgramFailed as failure:
            raise Mistake(f"the sheet is as it was: {failure}") from None
        finally:
            (former if self.program is program else program).stop()

    def undo(self) -> str:
        """Undoes the last change, or drops a change that was opened since. Returns a sentence about it."""
        if slot := self.journal.opened_last():
            text = self.journal.slots[slot].line.text.strip()
            self.reply(Line(f")DROP {slot}"))
            return f"given up: {text}"
        change = self.journal.last
        if not change:
            raise Mistake("there is no change to take back")
        if not self.is_inverted(change):
            self.remake(self.journal.without_last(), partial(self.settle, undone(change), change))
        if change is self.arrival:
            self.home = self.arrival = None
        return f"taken back: {change.title}"

    def is_inverted(self, change: Change) -> bool:
        """Undoes the last change by its inverse; returns whether it has one that the program accepts."""
        if change.inverse is None:
            return False
        self.is_settled = False
        if first_refusal(self.program.ask_all(change.inverse)) is not None:
            self.begin_again()
            return False
        with signals.held():
            self.journal.take_back()
            self.settle(undone(change), change)
        return True

    def redo(self) -> str:
        """Redoes the last undone change. Returns a sentence about it."""
        if not self.journal.undone:
            raise Mistake("there is no change to make again")
        self.is_settled = False
        refused = first_refusal(self.program.ask_all(self.journal.undone[-1].lines))
        if refused is not None:
            self.begin_again()
            raise Mistake(refused)
        with signals.held():
            change = self.journal.make_again()
            self.settle(redone(change), change)
        return f"made again: {change.title}"

    def run(self, file: Optional[str], source: Iterable[bytes]) -> None:
        """Answers the lines of a script in a binary file. Its name is None for standard input."""
        for number, text in enumerate(lines_of(source), 1):
            self.take(text, Place(file, number))

    def check_names(self) -> None:
        """Reports each name with an error that arose in its own formula, as an error of the line that binds it."""
        for name, binding in self.journal.bindings.items():
            shown = answer(self.program, Line(name))
            if shown.is_fault and shown.origin == name:
                self.place, reply = binding.place, self.explained(shown)
                self.complain(binding.text or "", "\n".join(shown.lines), reply.remarks, reply.spot)


def told_of(fault: Exception) -> str:
    """Returns the kind, the text and the origin of an exception in the front end."""
    frames = traceback.extract_tb(fault.__traceback__)
    where = f" ({os.path.basename(frames[-1].filename)}:{frames[-1].lineno})" if frames else ""
    return f"{type(fault).__name__}: {fault}{where}"
