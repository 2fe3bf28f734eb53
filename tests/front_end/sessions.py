"""Sessions in the process of the test, and random lines for them."""

from __future__ import annotations

import contextlib
import os
import random
from pathlib import Path
from typing import Callable, NamedTuple, Sequence

from sheet.interrupts import signals
from sheet.journal import Journal
from sheet.lines import Line
from sheet.program import Program
from sheet.session import Session

from .rooms import Room

setattr(signals, "without_interrupts", contextlib.nullcontext)  # tests run in threads, which handle no signals


class Sheet(Session):
    """A session that keeps its output, its messages, and the refused lines that would change something.

    remade  the number of new programs that got the whole sheet
    """

    def __init__(self, program: Program) -> None:
        self.shown: list[str] = []
        self.messages: list[str] = []
        self.refused: list[str] = []
        self.remade = 0
        super().__init__(program, self.shown.append, self.messages.append)
        program.stop()
        program.start()

    def complain(self, text: str, what: str, *_remarks: object) -> None:
        self.messages.append(what)
        if Line(text).kind not in ("show", "csv"):
            self.refused.append(text)

    def take_all(self, *lines: str) -> None:
        """Answers lines that are typed."""
        for line in lines:
            self.take(line)

    @property
    def faults_told(self) -> list[str]:
        """Returns the messages about faults of the front end or of the program."""
        return [line for line in self.messages if line.startswith(("FAULT", "PROGRAM FAILED"))]

    def remake(self, journal: Journal, settle: Callable[[], None]) -> None:
        self.remade += 1
        super().remake(journal, settle)

    def content(self) -> Content:
        return content_of(self.program, self.journal)


class Content(NamedTuple):
    """Returns the names of a sheet in their order, with the line of each formula, and the shape, kind and items of each name."""

    names: list[str]
    formulas: dict[str, str | None]
    arrays: list[list[str]]


def content_of(program: Program, journal: Journal) -> Content:
    """Returns the sheet of a program, beside the formulas of a journal."""
    names = program.ask(")NAMES")
    arrays = program.ask_all([question.format(name) for name in names for question in ("⍴{}", "0=1↑0⍴{}", ",{}")])
    return Content(names, {name: binding.text for name, binding in journal.bindings.items() if not binding.is_data}, arrays)


def program_of(room: Room) -> Program:
    return Program([room.program])


NAMES = ["A", "B", "C", "D", "E", "DATA", "∆1"]
FORMULAS = ["{0}←{1}+1", "{0}←+/{1}", "{0}←{1},{2}", "{0}←5", " {0} ← 2×{1} ⍝ of {2}", "{0}←'it''s A ⍝ 1'", "{0}←⍴{1} ⍝ 'A'"]
EDITS = {  # lines that make data, each with changes of it
    ")DATA {0}←1 2 3": ["{0}[2]←¯7 ⍝ mended", "{0}[1]←12", "{0}[3]←0", ")ROW {0} 5", ")ROW {0} ¯6 ⍝ one more"],
    ")DATA {0}←2 2⍴1 ¯2 3 4 ⍝ a table": ["{0}[1;2]←7", "{0}[2;2]←¯1", ")ROW {0} 8 9"],
    "  ) DATA {0} ← 'abc'": ["{0}[2]←''''", "{0}[1]←'A'", ")ROW {0} 'z'"],
    ")DATA {0}←'it''s A ⍝ 1'": ["{0}[1]←'é'", ")ROW {0} '⍝' ⍝ one more"],
    ")DATA {0}←⍳0": [")ROW {0} 3"],
    ")DATA {0}←''": [")ROW {0} 'z'"],
    ")DATA {0}←7": ["{0}[1]←7"],
    ")DATA {0}←3000⍴1000+⍳1500": ["{0}[2999]←¯1", ")ROW {0} 4"],
    "]table {0} {folder}/t.csv": ["{0}[1;2]←9", ")ROW {0} 7 7"],
    "]table {0} {folder}/t.csv --columns 2 ⍝ the second": ["{0}[2;1]←9"],
    "]labels {0} {folder}/t.csv 1": ["{0}[1;1]←'A'"],
}
MADE = [")DATA {0}←{1}", ")DATA {0}←{1},1", ")DATA {0}←{0},{0} ⍝ doubled", ")DATA {0}←{1},{2}"]
REFUSED = ["{0}←)(", ")DATA {0}←Q", "{0}[9]←1", ")ROW {0} 1 2 3 4 5 6", ")FOO {0}", "{0}←{0}", "]table {0} absent.csv"]
SHOWS = ["{0}", "{0}+{1} ⍝ shown", ")NAMES", ")COST", ")CSV {0}", "]names"]
OTHERS = [")ERASE {0}", ")ERASE {0} ⍝ not wanted", "]undo", "]undo", "]undo", "]redo", "]redo", "]rename {0} {1}"]
OTHERS += ["]load {folder}/more.apl", "]clear"]


class Chance(random.Random):
    """Random lines, in a folder with a table file and a script that others load."""

    def begin_in(self, folder: Path) -> None:
        self.folder, self.tables = folder, 0
        self.data: dict[str, list[str]] = {"A": ["A[1]←1"]}  # the changes of names that were made data
        self.change_table()
        (folder / "more.apl").write_text("C←D+1\n)DATA B←3 4\n)ERASE A\nA←1\nB[1]←5\n")

    def change_table(self) -> None:
        """Writes another table, with another time, to the file."""
        self.tables += 1
        path = self.folder / "t.csv"
        path.write_text(f"{self.tables},2\n3,{self.randint(1, 9)}\n")
        os.utime(path, (self.tables, self.tables))

    def filled(self, forms: Sequence[str]) -> str:
        """Returns one of the forms, with random names."""
        return self.choice(forms).format(*self.sample(NAMES, 3), folder=self.folder)

    def one_change(self) -> str:
        """Returns a line that makes, edits or removes a name, or is refused."""
        kind = self.random()
        if kind < 0.25:
            form, name = self.choice([*EDITS]), self.choice(NAMES)
            self.data[name] = EDITS[form]
            return form.format(name, folder=self.folder)
        if kind < 0.5:
            name = self.choice([*self.data])
            return self.choice(self.data[name]).format(name)
        return self.filled(FORMULAS if kind < 0.75 else MADE if kind < 0.9 else REFUSED if kind < 0.95 else OTHERS[:2])

    def changes(self) -> list[str]:
        """Returns lines that change something once: one line, or a change in a slot, which may be stale, or stay open."""
        kind = self.random()
        if kind < 0.7:
            return [self.one_change()]
        if kind < 0.85:
            return [self.filled(OTHERS)]
        slot = self.randint(1, 3)
        between = [self.one_change()] * (self.random() < 0.2)
        ends: list[str] = self.choice([[f")COMMIT {slot}"], [f")COMMIT {slot}"], [f")DROP {slot}"], []])
        return [f")OPEN {slot} {self.one_change()}", *[f")STEP {slot}"] * 9, *between, *ends]

    def lines(self) -> list[str]:
        """Returns lines of a script."""
        kind = self.random()
        if kind < 0.15:
            return [self.choice(["", "  ", "⍝ a comment", " ⍝ of 'A", "⍝ A←1"])]
        return [self.filled(SHOWS)] if kind < 0.25 else self.changes()
