"""The commands ]help, ]keys, ]why and ]off."""

from __future__ import annotations

from typing import TYPE_CHECKING

from . import explaining, keys, manual
from .commands import COMMANDS, command
from .errors import End

if TYPE_CHECKING:
    from .session import Session


@command("]keys", "shows the keys of the symbols")
def show_keys(session: Session) -> None:
    session.show_value(keys.table(), is_text=True)


@command("]help [WORD..]", "shows this; with ⍴ or another symbol, LENGTH ERROR, )ROW, ]save or take behind it, the text about that")
def show_help(session: Session, words: list[str]) -> None:
    session.show_value(lines_of_help(" ".join(words)), is_text=True)


def lines_of_help(words: str) -> list[str]:
    """Returns the list of the commands, or the text about these words: the form and the sentence of a command, or the manual's text."""
    if not words:
        return [
            "NAME←EXPR is a formula, )DATA NAME←EXPR data, NAME[2]←5 an edit; an expression shows its value.",
            "A backquote, then a key, is a symbol: `[ is ←. docs/TUTORIAL.md begins, docs/LANGUAGE.md has all, docs/SHEET.md this:",
            *(line for known in COMMANDS.values() for line in (known.form.text, f"    {known.sentence}")),
        ]
    known = COMMANDS.get(words.lower().lstrip("] "))
    return [known.form.text, f"    {known.sentence}"] if known else manual.explained(words)


@command("]why NAME", "tells why a name shows its value: its line, where an error arose, the names that it reads and those that read it")
def show_why(session: Session, name: str) -> None:
    session.show_value(explaining.why(session, name), is_text=True)


@command("]off", "ends, as Ctrl-D does")
def off(_session: Session) -> None:
    raise End
