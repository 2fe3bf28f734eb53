"""Watched names, which are shown after each change that reaches them."""

from __future__ import annotations

import os
import re
from typing import TYPE_CHECKING, Dict, Iterable, List

if TYPE_CHECKING:
    from .session import Session

BOLD, PLAIN = "\033[1m", "\033[0m"


class Watch:
    """The watched names, each with the lines shown last."""

    def __init__(self) -> None:
        self.shown: Dict[str, List[str]] = {}

    def add(self, session: Session, names: Iterable[str]) -> None:
        """Watches names, and shows them."""
        self.shown.update({name: [] for name in names})
        self.show(session, names)

    def remove(self, names: Iterable[str]) -> None:
        for name in names:
            self.shown.pop(name, None)

    def rename(self, old: str, new: str) -> None:
        """Watches the new name of a renamed one too; the old one returns if that is undone."""
        if old in self.shown:
            self.shown.update({old: [], new: []})

    def show(self, session: Session, changed: Iterable[str]) -> None:
        """Shows the names that a change of others reaches, with changed items in bold if the terminal has bold text."""
        if not self.shown or session.is_check:
            return
        reached = session.journal.reached(changed)
        names = [name for name, lines in self.shown.items() if name in reached and (lines or name in session.journal.bindings)]
        for name, lines in zip(names, session.program.ask_all(names)):
            shown = in_bold(self.shown[name], lines) if self.shown[name] and session.has_screen and has_bold() else lines
            is_short = len(lines) == 1
            session.show(f"{name}  {shown[0]}" if is_short else name)
            for line in shown * (not is_short):
                session.show(line)
            self.shown[name] = lines


def has_bold() -> bool:
    """Returns whether the terminal can show bold characters."""
    return os.environ.get("TERM", "dumb") != "dumb"


def in_bold(before: List[str], lines: List[str]) -> List[str]:
    """Returns the lines with changed words in bold, if the number of lines is the same."""
    return [*map(line_in_bold, before, lines)] if len(before) == len(lines) else lines


def line_in_bold(before: str, line: str) -> str:
    """Returns the line with changed words in bold, if the number of words is the same."""
    words = iter(before.split())
    if len(before.split()) != len(line.split()):
        return line
    return re.sub("[^ ]+", lambda word: word[0] if word[0] == next(words) else BOLD + word[0] + PLAIN, line)
