"""The kind of a line, its name and its references, by its text."""

from __future__ import annotations

import re
from typing import NamedTuple, Optional

NAME = "[A-Za-z∆⍙][A-Za-z∆⍙0-9_]*"
BLANKS = " \t\r"  # one CR at the end of a line is dropped by the program; elsewhere it refuses the line
LONGEST = 4096  # bytes of a line

PIECE = re.compile("'(?:[^']|'')*'?|⍝.*|[^'⍝]+", re.DOTALL)
TOKEN = re.compile(rf"(?P<text>'(?:[^']|'')*'?)|(?P<comment>⍝.*)|(?P<number>¯?[0-9]+)|(?P<name>{NAME})|(?P<sign>[^ \t])", re.DOTALL)
COMMAND = re.compile(rf"[ \t]*\)[ \t]*({NAME})(.*)", re.DOTALL)
DEFINITION = re.compile(rf"[ \t]*({NAME})[ \t]*←(.*)", re.DOTALL)
EDIT = re.compile(rf"[ \t]*({NAME})[ \t]*\[[^←]*\][ \t]*←", re.DOTALL)
OPENING = re.compile(r"[ \t]*\)[ \t]*OPEN[ \t]*([0-9]+)(.*)", re.DOTALL)
REFERENCE = re.compile(f"(?<![A-Za-z∆⍙0-9_¯]){NAME}")

COMMAND_WORDS = ("DATA", "ROW", "ERASE", "NAMES", "COST", "CSV", "OPEN", "STEP", "COMMIT", "DROP")
CHANGES = ("definition", "data", "edit", "row", "erase")


class Token(NamedTuple):
    """A part of a line: its kind (text, number, name or sign), its spelling, and the places where it begins and ends."""

    kind: str
    text: str
    start: int
    end: int


def tokens_of(text: str) -> list[Token]:
    """Returns the parts of a line in their order, without blanks and without its comment."""
    matches = TOKEN.finditer(text)
    return [Token(str(match.lastgroup), match[0], *match.span()) for match in matches if match.lastgroup != "comment"]


def code_of(text: str) -> str:
    """Returns the line without its comment, and with empty texts."""
    return "".join("''" if piece[0] == "'" else piece for piece in PIECE.findall(text) if piece[0] != "⍝").strip(BLANKS)


def place_in_text(text: str, place: int) -> int:
    """Returns the place in a line for a place in its code."""
    places: list[int] = []
    for piece in PIECE.finditer(text):
        if piece[0][0] == "'":
            places += [piece.start(), piece.end() - 1]
        elif piece[0][0] != "⍝":
            places += range(piece.start(), piece.end())
    return places[place + len(text) - len(text.lstrip(BLANKS))]


def without_comment(text: str) -> str:
    """Returns the line without its comment, and without blanks at its ends."""
    return "".join(piece for piece in PIECE.findall(text) if piece[0] != "⍝").strip(BLANKS)


class Line:
    """A typed line.

    text        the line without its end
    code        the same without comment, and with empty texts
    kind        one of CHANGES; names, cost, csv, open, step, commit or drop; nothing, user (it begins with ]), unknown or show
    name        the name that it binds, edits, extends, removes or prints as records, if there is one
    slot        the number of its slot, if there is one
    expression  the code of the shown or bound expression; for other lines the whole code
    """

    def __init__(self, text: str) -> None:
        self.text, self.code = text, code_of(text)
        self.kind, self.expression = "show", self.code
        self.name: Optional[str] = None
        self.slot: Optional[str] = None
        if not self.code or self.code[0] == "]":
            self.kind = "user" if self.code else "nothing"
        elif command := COMMAND.match(self.code):
            self.read_command(command[1], command[2])
        elif definition := DEFINITION.match(self.code):
            self.kind, self.name, self.expression = "definition", definition[1], definition[2]
        elif edit := EDIT.match(self.code):
            self.kind, self.name = "edit", edit[1]

    def read_command(self, word: str, rest: str) -> None:
        """Reads the word of a command, and the rest of the line."""
        self.kind = word.lower() if word in COMMAND_WORDS else "unknown"
        if self.kind in ("open", "step", "commit", "drop"):
            digits = re.match("[ \t]*0*([0-9]+)", rest)
            self.slot = digits[1] if digits else None
        elif self.kind == "data" and (definition := DEFINITION.match(rest)):
            self.name, self.expression = definition[1], definition[2]
        elif name := re.match(f"[ \t]*({NAME})", rest):
            self.name = name[1]

    @property
    def is_change(self) -> bool:
        return self.kind in CHANGES

    @property
    def opened(self) -> Line:
        """Returns the line after )OPEN k, or the whole line of another kind."""
        opening = OPENING.match(self.text)
        return Line(opening[2] if opening else self.text)

    @property
    def references(self) -> list[str]:
        """Returns the names in its expression, in their order."""
        return list(dict.fromkeys(REFERENCE.findall(self.expression)))
