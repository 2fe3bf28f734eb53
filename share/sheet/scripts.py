"""The script that saves a sheet: the lines of its home that still hold, and new lines for the rest."""

from __future__ import annotations

import re
from typing import Dict, Iterator, List, NamedTuple, Optional, Sequence, Set

from .arrays import rows_of_array
from .files import Home, Part
from .journal import Journal, Source, reaching
from .lines import BLANKS, LONGEST, NAME, Line, without_comment
from .program import Program
from .storing import Array
from .units import decimals_in, with_units

TABLE = re.compile(rf"\][{BLANKS}]*(?:table|labels)[{BLANKS}]+({NAME})\b")
SHOWING = re.compile(rf"\][{BLANKS}]*(?:names|show|why|watch|keys|help)\b")
QUIET = ("nothing", "show", "names", "cost", "csv")


def script_of_sheet(program: Program, journal: Journal, home: Optional[Home] = None) -> Home:
    """Returns the script that makes the sheet, with the path and the digest of its home.

    A line of the home stays if it is blank, a comment, shows a value, or makes a name that did not change. A changed name stands in the
    place of the first line that made it. A refused line, or one about a slot, becomes a comment. Other names follow their predecessors.
    """
    home = home or Home("", "")
    is_as_it_was = [*home.makes.items()] == [*journal.bindings.items()] and not any(map(is_stale, (home.parts or {}).values()))
    if is_as_it_was and home.parts is not None:
        return home
    script = Script(program, journal, home)
    made = [*script.made()]
    lines = [line.text for line in made]
    end = home.end if lines[-1:] == [*home.lines[-1:]] else "\n"
    return home._replace(lines=lines, parts=script.parts_of(made), makes=dict(journal.bindings), end=end)


def is_stale(part: Part) -> bool:
    """Returns whether a table file of a name has changed since it was read."""
    return any(Source.of(source.file) != source for source in part.sources)


def as_text(line: str) -> str:
    """Returns a line in which bytes that are no text are written as \\xff."""
    return line.encode("utf-8", "surrogateescape").decode("utf-8", "backslashreplace")


class Entry:
    """A line of the home.

    text     the line without its end
    line     the same, as the language reads it
    name     the name that it makes, edits or removes, if there is one
    comment  its comment, or nothing
    """

    def __init__(self, text: str) -> None:
        self.text, self.line = text, Line(text)
        table = TABLE.match(self.line.code)
        self.name = self.line.name if self.line.is_change else table[1] if table else None
        self.comment = as_text(text.strip(BLANKS)[len(without_comment(text)) :].strip(BLANKS))

    @property
    def is_quiet(self) -> bool:
        """True if it changes nothing in any sheet."""
        return self.line.kind in QUIET or bool(SHOWING.match(self.line.code))

    @property
    def as_comment(self) -> List[str]:
        """The line as a comment, unless it is too long for one."""
        comment = f"⍝ {as_text(self.text)}"
        return [comment] if len(comment.encode()) <= LONGEST else []


class MadeLine(NamedTuple):
    """A line of the script: its text, and the name that it helps to make, if there is one."""

    text: str
    name: Optional[str] = None


class Script:
    """A sheet beside its home.

    entries  the lines of the home, by their numbers
    numbers  the numbers of the lines of the home that made each name, also of those that are gone; 0 for another file
    placed   the number of the line that the lines of a name replace
    kept     the names that the lines of the home still make
    end      CR if the lines of the home end with it, else nothing
    """

    def __init__(self, program: Program, journal: Journal, home: Home) -> None:
        self.program, self.journal, self.home = program, journal, home
        self.entries = {number: Entry(text) for number, text in enumerate(home.lines, 1)}
        self.numbers = self.numbers_of_names()
        self.placed = self.places()
        self.kept = self.kept_names()
        self.names_at = {number: name for name, number in self.placed.items()}
        self.accepted = {number for numbers in self.numbers.values() for number in numbers}
        self.end = "\r" if home.lines and home.lines[0].endswith("\r") else ""

    def numbers_of_names(self) -> Dict[str, List[int]]:
        if self.home.parts is not None:
            return {name: part.numbers for name, part in self.home.parts.items()}
        numbers: Dict[str, List[int]] = {}
        for number, entry in self.entries.items():
            if entry.name in self.journal.bindings:
                numbers.setdefault(entry.name, []).append(number)
        return numbers

    def is_made_by_lines(self, name: str) -> bool:
        """Returns whether only lines of the home made a name, and none of them removed it."""
        entries = [self.entries.get(number) for number in self.numbers[name]]
        return all(entry and entry.name and (entry.name != name or entry.line.kind != "erase") for entry in entries)

    def places(self) -> Dict[str, int]:
        """Returns the places of names that are in the order of the sheet. Other names have no place."""
        placed: Dict[str, int] = {}
        last = 0
        for name in self.journal.bindings:
            first = self.numbers.get(name, [0])[0]
            if first > last:
                placed[name] = last = first
        return placed

    def kept_names(self) -> Set[str]:
        """Returns the names that the lines of the home still make.

        Data computed from other names needs them unchanged. So does a formula that replaced another one: a changed name that refers to it
        could make the former formula a cycle.
        """
        bindings, parts = self.journal.bindings, self.home.parts or {}
        same = {name for name in self.placed if self.home.makes.get(name) is bindings[name] and not is_stale(parts[name])}
        kept = {name for name in same if self.is_made_by_lines(name)}
        known = bindings.keys() | self.numbers.keys()
        references = {name: self.references(name) for name in self.numbers}
        needs = {name: self.needs(name) for name in kept}
        while True:
            doubtful = reaching(references, known - kept)
            lost = {name for name in kept if needs[name] & doubtful.keys()}
            if not lost:
                return kept
            kept -= lost

    def lines_of(self, name: str) -> List[Line]:
        """Returns the lines of the home that made a name."""
        return [self.entries[number].line for number in self.numbers[name] if number in self.entries]

    def references(self, name: str) -> List[str]:
        """Returns the names that these lines refer to."""
        return [reference for line in self.lines_of(name) for reference in line.references if line.kind in ("definition", "data")]

    def needs(self, name: str) -> Set[str]:
        """Returns the names that these lines refer to. The formula of the name itself does not count."""
        lines = self.lines_of(name)
        read = [line for line in lines if line.kind == "data" or line.kind == "definition" and line is not lines[-1]]
        own = {name, *(line.name for line in lines)}
        return {reference for line in read for reference in line.references} - own

    def made(self) -> Iterator[MadeLine]:
        """Yields the lines of the script."""
        added = self.added()
        makers = {number: name for name in self.kept for number in self.numbers[name]}
        yield from added.get(0, [])
        for number, entry in self.entries.items():
            yield from [MadeLine(entry.text, makers[number])] if number in makers else self.lines_in_place(number, entry)
            yield from added.get(number, [])

    def added(self) -> Dict[int, List[MadeLine]]:
        """Returns the lines of names without a place, by the number of the line before them."""
        added: Dict[int, List[MadeLine]] = {}
        last_placed = max(self.placed.values(), default=0)
        at = 0
        for name in self.journal.bindings:
            at = self.placed.get(name, at)
            if name not in self.placed:
                added.setdefault(len(self.entries) if at == last_placed else at, []).extend(self.lines_of_name(name))
        return added

    def lines_in_place(self, number: int, entry: Entry) -> List[MadeLine]:
        """Returns the lines in place of a line of the home that makes no kept name."""
        if number in self.names_at:
            return self.lines_of_name(self.names_at[number], entry.comment)
        if entry.is_quiet:
            return [MadeLine(entry.text)]
        return [] if number in self.accepted else [MadeLine(comment) for comment in entry.as_comment]

    def lines_of_name(self, name: str, comment: str = "") -> List[MadeLine]:
        """Returns the lines that make a name; data without a comment gets the comment of the line that it replaces."""
        binding = self.journal.bindings[name]
        lines = [binding.text] if binding.text else self.lines_of_data(name)
        commented = f"{lines[0]} {comment}"
        if comment and binding.is_data and without_comment(lines[0]) == lines[0] and len(commented.encode()) <= LONGEST:
            lines[0] = commented
        if not binding.text and binding.decimals != max(map(decimals_in, lines)):
            lines = with_units(lines, name, binding.decimals)
        return [MadeLine(f"{line}{self.end}", name) for line in lines]

    def lines_of_data(self, name: str) -> List[str]:
        """Returns lines that write out the data of a name."""
        array = Array(self.program, name)
        spare = self.journal.spare_name(name) if self.is_read_above(name) else name
        return rows_of_array(name, array.shape, array.items, spare)

    def is_read_above(self, name: str) -> bool:
        """Returns whether a name before it reads it, and would be computed again at each line of the data."""
        above = [*self.journal.bindings]
        reached = self.journal.reached([name])
        return any(other in reached for other in above[: above.index(name)])

    def parts_of(self, made: Sequence[MadeLine]) -> Dict[str, Part]:
        """Returns the lines of each name."""
        parts: Dict[str, Part] = {}
        for number, line in enumerate(made, 1):
            if line.name:
                sources = self.home.parts[line.name].sources if self.home.parts and line.name in self.kept else []
                parts.setdefault(line.name, Part([], sources)).numbers.append(number)
        return parts
