"""The accepted changes in their order, and the bindings of names that they make."""

from __future__ import annotations

import functools
import os
from itertools import count
from typing import Dict, Iterable, List, Mapping, NamedTuple, Optional, Sequence

from .lines import BLANKS, Line
from .units import decimals_in

MOST_NAMES = 1024  # names of a sheet


class Place(NamedTuple):
    """A line of a script: the file, which is None for standard input, and the number of the line."""

    file: Optional[str]
    number: int

    def __str__(self) -> str:
        return f"{self.file}:{self.number}" if self.file else f"line {self.number}"


class Source(NamedTuple):
    """A table file: its path, the time of its last change in nanoseconds, and its length."""

    file: str
    changed: int
    length: int

    @classmethod
    def of(cls, file: str) -> Optional[Source]:
        """Returns the present state of a file; None if there is no such file."""
        try:
            status = os.stat(file)
        except (OSError, ValueError):
            return None
        return cls(file, status.st_mtime_ns, status.st_size)


class Binding:
    """The binding of a name.

    is_data   whether it is data, and not a formula
    text      the line that makes it; None if there is no single one
    place     the last line of a script that changed it, or None
    source    the state of the table file when it was read, or None
    decimals  the decimals of its unit, from the comment of its line; an edit or a row keeps them
    is_edit   whether an edit or a row made it from the binding before
    """

    def __init__(self, is_data: bool, text: Optional[str] = None, place: Optional[Place] = None) -> None:
        self.is_data, self.text, self.place = is_data, text, place
        self.source: Optional[Source] = None
        self.decimals, self.is_edit = 0, False

    def follow(self, former: Optional[Binding]) -> None:
        """Copies the decimals of the binding before, for an edit or a row."""
        if self.is_edit and former:
            self.decimals, self.is_edit = former.decimals, False

    @functools.cached_property
    def references(self) -> List[str]:
        """Returns the names in its formula; data has none."""
        return [] if self.is_data or self.text is None else Line(self.text).references


class Change:
    """A change that ]undo reverts as a whole.

    title    the text by which messages name it
    lines    its lines
    bound    the names that it binds, in their order, each with its binding; None if it is erased
    places   the places of the lines of scripts from which it comes
    inverse  lines that undo it while it is the last change; None if the sheet must be made again without it
    before   the bindings of these names before it, None if a name was not there
    parts    the changes that it joins
    """

    def __init__(self, title: str, lines: List[str], bound: Dict[str, Optional[Binding]], places: Sequence[Place] = ()) -> None:
        self.title, self.lines, self.bound, self.places = title, lines, bound, places
        self.inverse: Optional[List[str]] = None
        self.before: Dict[str, Optional[Binding]] = {}
        self.parts: Sequence[Change] = ()

    @property
    def erases(self) -> bool:
        """True if it, or a part of it, removes a name that was there before it."""
        is_erased = any(binding is None and self.before.get(name) for name, binding in self.bound.items())
        return is_erased or any(part.erases for part in self.parts)


def change_of(line: Line, place: Optional[Place] = None) -> Change:
    """Returns the change that an accepted line makes."""
    text = line.text.strip(BLANKS)
    binding: Optional[Binding] = None
    if line.kind == "definition":
        binding = Binding(False, text, place)
    elif line.kind != "erase":
        is_whole = line.kind == "data" and not line.references
        binding = Binding(True, text if is_whole else None, place)
        binding.is_edit = line.kind != "data"
    if binding and not binding.is_edit:
        binding.decimals = decimals_in(text)
    return Change(text, [line.text], {line.name or "": binding}, [place] if place else [])


def joined(title: str, changes: Sequence[Change]) -> Change:
    """Returns one change in place of several successive ones. It has an inverse if all of them have one."""
    bound: Dict[str, Optional[Binding]] = {}
    before: Dict[str, Optional[Binding]] = {}
    for change in changes:
        for name, binding in change.bound.items():
            if binding:
                binding.follow(bound.get(name))
            if binding is None or bound.get(name, binding) is None:
                bound.pop(name, None)  # a name that comes after its removal goes last
            bound[name] = binding
            before.setdefault(name, change.before.get(name))
    places = [place for change in changes for place in change.places]
    whole = Change(title, [line for change in changes for line in change.lines], bound, places)
    whole.before, whole.parts = before, changes
    if all(change.inverse is not None for change in changes):
        whole.inverse = [line for change in reversed(changes) for line in change.inverse or ()]
    return whole


class OpenChange(NamedTuple):
    """A change that is open in a slot: its line, and the number of changes before it."""

    line: Line
    after: int


class Journal:
    """The changes of a sheet since it was empty.

    bindings  the present names in the order of the program: a new name goes last, and a present one keeps its place
    slots     the changes that are open, by their slots
    undone    the changes undone since the last new one; the last of them is the first to redo
    """

    def __init__(self, changes: Iterable[Change] = ()) -> None:
        self.changes: List[Change] = []
        self.bindings: Dict[str, Binding] = {}
        self.slots: Dict[str, OpenChange] = {}
        self.undone: List[Change] = []
        self.saved: Optional[Change] = None
        for change in changes:
            self.add(change)

    @property
    def lines(self) -> List[str]:
        """The lines of all changes."""
        return [line for change in self.changes for line in change.lines]

    @property
    def last(self) -> Optional[Change]:
        return self.changes[-1] if self.changes else None

    @property
    def is_saved(self) -> bool:
        """True if an end would lose nothing: the last change is saved, or there are no names."""
        return self.saved is self.last or not self.bindings

    @property
    def unsaved(self) -> List[Change]:
        """The changes since the sheet was saved."""
        return self.changes[self.changes.index(self.saved) + 1 :] if self.saved in self.changes else self.changes

    def mark_saved(self) -> None:
        self.saved = self.last

    def made_by(self, line: Line) -> Optional[Line]:
        """Returns the line whose change a line makes: itself, or for )COMMIT the line of the slot; None if it makes none."""
        if line.is_change:
            return line
        opened = self.slots.get(line.slot or "") if line.kind == "commit" else None
        return opened.line if opened else None

    def accept(self, line: Line, place: Optional[Place] = None, inverse: Optional[List[str]] = None) -> Optional[Change]:
        """Adds an accepted line of any kind; returns the change that it makes, if it makes one."""
        made = self.made_by(line)
        if line.slot and line.kind in ("commit", "drop"):
            self.slots.pop(line.slot, None)
        elif line.slot and line.kind == "open":
            self.slots[line.slot] = OpenChange(line.opened, len(self.changes))
        if not made:
            return None
        change = change_of(made, place)
        change.inverse = inverse
        return self.add(change)

    def add(self, change: Change) -> Change:
        """Appends a change, and returns it."""
        change.before = {name: self.bindings.get(name) for name in change.bound}
        for name, binding in change.bound.items():
            if binding:
                binding.follow(change.before[name])
        self.changes.append(change)
        self.undone.clear()
        bind(self.bindings, change)
        return change

    def opened_last(self) -> Optional[str]:
        """Returns the slot of the last opened change, if no change was made since."""
        slots = [slot for slot, opened in self.slots.items() if opened.after == len(self.changes)]
        return slots[-1] if slots else None

    def take_back(self) -> Change:
        """Reverts the last change, and returns it."""
        change = self.changes.pop()
        self.undone.append(change)
        if change.erases:
            self.bindings = Journal(self.changes).bindings
        else:
            bind(self.bindings, Change(change.title, [], change.before))
        return change

    def without_last(self) -> Journal:
        """Returns a journal without the last change and without open changes."""
        shorter = Journal(self.changes[:-1])
        shorter.saved, shorter.undone = self.saved, [*self.undone, self.changes[-1]]
        return shorter

    def make_again(self) -> Change:
        """Redoes the last undone change, and returns it."""
        change, rest = self.undone[-1], self.undone[:-1]
        self.add(change)
        self.undone = rest
        return change

    def join(self, first: int, title: str) -> int:
        """Makes one change of those from number `first` on; returns their number."""
        changes, number = self.changes[first:], len(self.changes)
        if changes:
            self.changes[first:] = [joined(title, changes)]
            after = {number: first + 1, **dict.fromkeys(range(first + 1, number), first)}
            self.slots = {slot: opened._replace(after=after.get(opened.after, opened.after)) for slot, opened in self.slots.items()}
        return len(changes)

    def spare_name(self, name: str) -> str:
        """Returns a name under which the items of data are gathered; in a full sheet, the name of the data itself."""
        if len({*self.bindings, name}) >= MOST_NAMES:
            return name
        taken = {*self.bindings, name, *(reference for binding in self.bindings.values() for reference in binding.references)}
        return next(spare for spare in map("∆{}".format, count(1)) if spare not in taken)

    def reached(self, names: Iterable[str]) -> Dict[str, None]:
        """Returns these names, and all whose formulas refer to one of them, directly or through others."""
        return reaching({name: binding.references for name, binding in self.bindings.items()}, names)


def reaching(references: Mapping[str, Iterable[str]], names: Iterable[str]) -> Dict[str, None]:
    """Returns these names, and all that refer to one of them, directly or through others."""
    users: Dict[str, List[str]] = {}
    for name, its_references in references.items():
        for reference in its_references:
            users.setdefault(reference, []).append(name)
    reached = dict.fromkeys(names)
    waiting = [*reached]
    while waiting:
        new = [user for user in users.get(waiting.pop(), ()) if user not in reached]
        reached.update(dict.fromkeys(new))
        waiting += new
    return reached


def bind(bindings: Dict[str, Binding], change: Change) -> None:
    """Applies the bindings of a change to a sheet, part by part: a name may be removed and made again."""
    for part in change.parts:
        bind(bindings, part)
    for name, binding in change.bound.items():
        if binding:
            bindings[name] = binding
        else:
            bindings.pop(name, None)
