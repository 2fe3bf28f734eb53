"""A session that several pages use. It answers one line at a time, in the order in which lines come.

Each change gives the desk a new version. Pages that listen hear which names it reached: the names that it bound, and those whose formulas
refer to them. A page asks again for these alone.
"""

from __future__ import annotations

import contextlib
import queue
import threading
import time
from functools import partial
from typing import Any, Callable, Dict, Iterator, List, Optional, Sequence, Set

from ..answers import Answer, answer
from ..arrays import lines_of_array
from ..commands import COMMANDS, counted, run
from ..errors import Lost, Mistake
from ..journal import Binding, Change, Journal, Place
from ..lines import LONGEST, Line, without_comment
from ..numerals import Numerals
from ..program import Program, ProgramFailed
from ..session import Reply, Session, told_of
from ..tables import Table
from ..units import with_units
from .axes import axes_of, axes_of_names
from .cells import Cell, change_cells, check_cells, edit_of
from .looks import Look, Seen, Told
from .rows import Rows, comment_of, delete_rows, insert_rows

TITLES = 30  # changes that a page lists
PATIENCE = 0.3  # seconds that a stop waits for the end of a step
SLOW = 0.1  # seconds; the next edit of a name whose edit took longer goes step by step
SLOTS = [str(slot) for slot in range(8, 0, -1)]
FIRST = [[0, 24], [0, 20]]  # the window in which a page first sees a name
FILELESS = ("undo", "redo", "clear", "rename", "names", "show", "why", "sort", "print", "keys", "help")  # commands that use no file


class Desk:
    """A session with a version, and the pages that listen to it.

    seen       the answers to looks so far
    listeners  a queue for each page that listens, into which goes every event
    first      the number of changes with which it began; those of a what-if are behind them
    slow       the names whose last edit took long
    job        the number of the job under way, or None
    is_over    whether the desk ends, so that no program is started again for it
    news       the names that changes have bound since the last event
    journal    the journal that pages know
    """

    def __init__(self, session: Session, first: int = 0) -> None:
        self.session, self.first, self.version, self.lock = session, first, 0, session.lock
        self.seen = Seen()
        self.slow: Set[str] = set()
        self.listeners: Set[queue.SimpleQueue[Any]] = set()
        self.job: Optional[int] = None
        self.jobs, self.is_stopped, self.is_over = 0, False, False
        self.news: Dict[str, Optional[Binding]] = {}
        self.journal, self.heard = session.journal, threading.Event()
        session.followers.append(self.follow)
        threading.Thread(target=self.tell_of_others, daemon=True).start()

    # listeners

    def listen(self) -> queue.SimpleQueue[Any]:
        """Returns a queue that gets all events from here on."""
        heard: queue.SimpleQueue[Any] = queue.SimpleQueue()
        self.listeners = {*self.listeners, heard}
        return heard

    def leave(self, heard: queue.SimpleQueue[Any]) -> None:
        self.listeners = self.listeners - {heard}

    def tell(self, event: Optional[Told]) -> None:
        """Tells all listeners of an event; None ends their streams."""
        for heard in self.listeners:
            heard.put(event)

    def follow(self, change: Change) -> None:
        """Notes a change; the session calls this with its lock held."""
        self.news.update(change.bound)
        self.heard.set()

    def tell_of_others(self) -> None:
        """Tells pages of changes that no page has made, as those at the terminal."""
        while self.heard.wait() and not self.is_over:
            with self.lock:
                self.heard.clear()
                if self.news and not self.is_over:
                    with contextlib.suppress(ProgramFailed):
                        self.publish({}, [])

    # jobs

    @contextlib.contextmanager
    def work(self) -> Iterator[Told]:
        """Runs a job while others wait, and yields its outcome. After a stop, or if the program dies, the sheet is the one before."""
        with self.lock:
            outcome: Told = {}
            self.jobs += 1
            self.job, self.is_stopped = self.jobs, False
            try:
                self.session.make_ready()
                yield outcome
            except ProgramFailed as failure:
                kind = "STOPPED" if self.is_stopped else "PROGRAM FAILED"
                outcome.update({"error": kind, "notes": [] if self.is_stopped else [str(failure)]})
                if not self.is_over:
                    self.session.make_ready()
            except Mistake as mistake:
                first, *rest = str(mistake).split("\n")
                outcome.update({"error": "NOT DONE", "notes": [first, *rest]})
            except (Lost, KeyError, TypeError, ValueError, AttributeError):
                raise
            except Exception as fault:
                outcome.update({"error": "FAULT OF THE FRONT END", "notes": [told_of(fault)]})
                self.session.begin_again()
            finally:
                self.job = None
            outcome["version"] = self.version

    def stop(self) -> None:
        """Stops the line under way: between two steps, or else by ending the program."""
        job, end = self.job, time.monotonic() + PATIENCE
        self.is_stopped = job is not None
        while self.is_stopped and self.job == job and time.monotonic() < end:
            time.sleep(PATIENCE / 30)
        if self.is_stopped and self.job == job:
            self.session.program.interrupt()

    def take(self, text: str, looks: Sequence[Look] = ()) -> Told:
        """Answers a line that was typed, and the looks that it may have changed."""
        line = Line(text)
        if "\n" in text:
            raise ValueError("more than one line")
        with self.work() as outcome:
            if line.kind == "user":
                self.command(text, outcome, looks)
            elif line.kind == "show":
                self.show(line, outcome)
            elif line.kind != "nothing":
                self.give(line, outcome, looks)
        return outcome

    def show(self, line: Line, outcome: Told) -> None:
        """Tells the page to show an expression as a panel; an error gets its notes and its place."""
        (found,) = self.seen.at(self.session, [Look(line.text, want="form")])
        if "error" not in found:
            outcome.update({"watch": without_comment(line.text), "axes": axes_of(line.code, self.axes())})
            return
        reply = self.session.explained(Answer(line, self.session.program.ask(line.text), True))
        outcome.update({**found, "notes": reply.remarks, "place": places_of(reply)})

    def command(self, text: str, outcome: Told, looks: Sequence[Look]) -> None:
        """Carries out a line that begins with ], if it uses no file."""
        word = (text.partition("]")[2].split() or [""])[0]
        if word in COMMANDS and word not in FILELESS:
            raise Mistake(f"]{word} is for the terminal: here are {', '.join(f']{other}' for other in FILELESS)}, and the buttons above")
        if word == "undo" and self.first and len(self.session.journal.changes) <= self.first:
            raise Mistake("there is no change to take back in this what-if")
        with self.said() as said:
            run(self.session, text)
        if self.news:
            outcome["title"] = "; ".join(said)
            self.publish(outcome, looks)
        else:
            outcome["printed"] = said

    @contextlib.contextmanager
    def said(self) -> Iterator[List[str]]:
        """Collects the lines that the session prints in a block."""
        session = self.session
        lines: List[str] = []
        kept = session.show, session.tell
        session.show = session.tell = lines.append
        try:
            yield lines
        finally:
            session.show, session.tell = kept

    def give(self, line: Line, outcome: Told, looks: Sequence[Look]) -> None:
        """Gives the program a line of the language that is no expression."""
        begun = time.perf_counter()
        made = self.session.journal.made_by(line)
        reply = self.session.reply(line, self.way_of(line))
        seconds = time.perf_counter() - begun
        outcome.update({"notes": reply.remarks, "printed": reply.answer.lines, "seconds": seconds})
        if reply.answer.is_fault:
            kind = reply.answer.kind or "\n".join(reply.answer.lines)
            outcome.update({"error": kind, "origin": reply.answer.origin, "printed": [], "place": places_of(reply)})
        elif made and made.name:
            (self.slow.add if seconds > SLOW else self.slow.discard)(made.name)
            outcome["cost"] = self.session.program.ask(")COST")[0]
            self.publish(outcome, looks, made.kind in ("edit", "row"))

    def way_of(self, line: Line) -> Callable[[Program, Line], Answer]:
        """Returns how a line is given to the program: in steps if it may take long and a slot is free."""
        may_take_long = line.kind in ("definition", "data") or line.is_change and line.name in self.slow
        slot = next((slot for slot in SLOTS if slot not in self.session.journal.slots), None)
        if slot and may_take_long and len(line.text.encode("utf-8", "surrogatepass")) < LONGEST - 16:
            return partial(self.by_steps, slot)
        return answer

    def by_steps(self, slot: str, program: Program, line: Line) -> Answer:
        """Gives the program a change in steps, and reports their number. A stop between two of them costs nothing."""
        opened = answer(program, Line(f")OPEN {slot} {line.text}"))
        if opened.is_fault:
            return Answer(line, opened.lines, True)
        left = count = int(opened.lines[0])
        while left and not self.is_stopped:
            left = int(program.ask(f")STEP {slot}")[0])
            self.tell({"done": count - left, "of": count})
        if self.is_stopped:
            program.ask(f")DROP {slot}")
            return Answer(line, ["STOPPED"], True)
        refused = program.ask(f")COMMIT {slot}")
        return Answer(line, refused, bool(refused))

    def edit(self, name: str, cells: Sequence[Cell], is_text: bool, looks: Sequence[Look] = ()) -> Told:
        """Edits cells of data: all of them, or none."""
        with self.work() as outcome:
            if len(cells) == 1 and name in self.session.journal.bindings and self.session.journal.bindings[name].is_data:
                check_cells(self.session, name, cells)
            if len(cells) == 1:
                self.give(Line(edit_of(name, cells[0], is_text)), outcome, looks)
            else:
                change_cells(self.session, name, cells, is_text)
                self.publish(outcome, looks, True)
        return outcome

    def change(self, title: str, lines: Sequence[str], looks: Sequence[Look] = ()) -> Told:
        """Makes one change of several lines."""
        with self.work() as outcome:
            if not lines or any("\n" in line or not Line(line).is_change for line in lines):
                raise ValueError("a line makes no change")
            self.session.change(title, lines)
            self.publish(outcome, looks)
        return outcome

    def rows(self, rows: Rows, do: str, looks: Sequence[Look] = ()) -> Told:
        """Inserts rows of data, or deletes them: all of them, or none."""
        with self.work() as outcome:
            {"insert": insert_rows, "delete": delete_rows}[do](self.session, rows)
            self.publish(outcome, looks)
        return outcome

    def open(self, title: str, text: str) -> Told:
        """Answers the lines of a script that a page has read, as one change; the outcome has their messages."""
        journal = self.session.journal
        with self.work() as outcome:
            first = len(journal.changes)
            with self.said() as said:
                for number, line in enumerate(text.replace("\r\n", "\n").lstrip("\ufeff").split("\n"), 1):
                    if self.is_stopped:
                        said.append("STOPPED")
                        break
                    if Line(line).kind == "user":
                        said.append(f"{title}:{number}: lines that begin with ] are for the terminal")
                    else:
                        self.session.take(line, Place(title, number))
            self.session.join(first, f"opened {title}")
            outcome["printed"] = said
            self.publish(outcome, [])
        return outcome

    def table(self, title: str, table: Table, wanted: Sequence[int], name: str, labels: str, numerals: Numerals) -> Told:
        """Puts the wanted columns of a table under a name, and its first column under `labels`, if that is a name."""
        with self.work() as outcome:
            decimals = numerals.decimals
            numbers, each = table.numbers(wanted, numerals)
            shape, spare = [table.height, len(wanted)], self.session.journal.spare_name(name)
            lines = with_units(lines_of_array(name, shape, numbers, spare, each), name, decimals)
            self.session.change(f"opened {title}", lines + (self.lines_of_labels(table, labels) if labels else []))
            self.publish(outcome, [])
        return outcome

    def lines_of_labels(self, table: Table, name: str) -> List[str]:
        """Returns the lines that put the first column of a table under a name, as a matrix of characters."""
        labels = table.labels(1)
        width = max(map(len, labels), default=0)
        items = "".join(label.ljust(width) for label in labels)
        return lines_of_array(name, [table.height, width], items, self.session.journal.spare_name(name))

    def keep(self, changes: Sequence[Change]) -> Told:
        """Makes the changes of a what-if here, as one."""
        title = changes[0].title if len(changes) == 1 else f"what-if of {counted(len(changes), 'change')}"
        return self.change(title, [line for change in changes for line in change.lines])

    # answers and events

    def publish(self, outcome: Told, looks: Sequence[Look], are_cells: bool = False) -> None:
        """Gives the changes since the last call a version, and sends it to the pages, with the names unless only cells changed."""
        journal, names = self.session.journal, [*self.news]
        is_other = journal is not self.journal
        self.news, self.journal = {}, journal
        if not names and not is_other:
            return
        self.version += 1
        reached = [*journal.reached([*names, *(journal.bindings if is_other else ())])]
        self.seen.reach(reached)
        outcome.update({"reached": reached, "history": self.history(), "version": self.version})
        begun = time.perf_counter()
        concerned = [look for look in looks if not look.names.isdisjoint(reached)]
        found = dict(zip(map(id, concerned), self.seen_again(concerned)))
        outcome["looks"] = [found.get(id(look)) for look in looks]
        outcome["looked"] = time.perf_counter() - begun
        if not are_cells:
            outcome["names"] = self.names()
        self.tell({key: outcome[key] for key in ("version", "reached", "history", "names") if key in outcome})

    def seen_again(self, looks: Sequence[Look]) -> List[Told]:
        """Returns the answers to looks after a change; a program that dies over them is started again, since the change was made."""
        try:
            return self.seen.at(self.session, looks)
        except ProgramFailed:
            self.session.make_ready()
            return self.seen.at(self.session, looks)

    def look(self, looks: Sequence[Look]) -> Told:
        """Returns the answers to looks."""
        with self.work() as outcome:
            outcome["looks"] = self.seen.at(self.session, looks)
        return outcome

    def begin(self) -> Told:
        """Returns all that a page shows first: the names, their first windows, and the changes."""
        with self.work() as outcome:
            names = [*self.session.journal.bindings]
            windows = [Look(name, FIRST) for name in names]
            outcome.update({"windows": [window(told) for told in self.seen.at(self.session, windows)], "first": FIRST})
            outcome.update({"names": self.names(), "history": self.history()})
        return outcome

    def history(self) -> Told:
        """Returns the changes that can be taken back and made again."""
        journal = self.session.journal
        titles = [[change.title[:200] for change in changes[-TITLES:]] for changes in (journal.changes[self.first :], journal.undone)]
        count = len(journal.changes) - self.first
        return {"changes": titles[0], "undone": titles[1], "count": count, "saved": journal.is_saved}

    def names(self) -> List[Told]:
        """Returns the names in their order, each with its form, its axes and its formula."""
        bindings = self.session.journal.bindings
        forms = self.seen.at(self.session, [Look(name, want="form") for name in bindings])
        axes = self.axes()
        return [{**told_of_name(name, bindings[name]), **form, "axes": axes[name]} for name, form in zip(bindings, forms)]

    def axes(self) -> Dict[str, Any]:
        """Returns the axes of each name."""
        ranks = {name: len(form.shape) for name, form in self.seen.forms.items()}
        return axes_of_names(self.session.journal.bindings, ranks)

    def end(self) -> None:
        """Ends the desk: listeners hear nothing more, and the session continues without it."""
        self.is_over = True
        self.heard.set()
        self.session.followers.remove(self.follow)
        self.tell(None)


def window(told: Told) -> Told:
    """Returns a first window without its items if they are many; the page then asks for it when it is in sight."""
    return told if sum(map(len, told.get("lines", []))) <= 4000 else {}


def places_of(reply: Reply) -> List[str]:
    """Returns the line of an error and the mark below its place, if that is known."""
    return reply.spot.lines() if reply.spot else []


def told_of_name(name: str, binding: Binding) -> Told:
    """Returns the description of a name for a page."""
    text = binding.text or ""
    formula = "" if binding.is_data else without_comment(text).partition("←")[2].strip()
    return {"name": name, "data": binding.is_data, "formula": formula, "comment": comment_of(text), "decimals": binding.decimals}
