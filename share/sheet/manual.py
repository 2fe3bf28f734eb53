"""The text of the manual, docs/LANGUAGE.md, as plain lines: about a symbol, a function, an error, a refusal, or a line that begins with )."""

from __future__ import annotations

import re
import textwrap
from difflib import get_close_matches
from functools import lru_cache
from pathlib import Path
from typing import NamedTuple

from .answers import ERRORS, REFUSALS
from .errors import Mistake
from .lines import COMMAND_WORDS
from .places import WIDEST, columns

HOME = Path(__file__).resolve().parents[1]  # share where the sources are, and share/aplsheet where they are installed
FILE = HOME.parent / ("doc/aplsheet/docs/LANGUAGE.md" if HOME.name == "aplsheet" else "docs/LANGUAGE.md")
SYMBOLS, LINES, FAULTS = "Each symbol", "Lines", "Refusals"  # sections of the page
SPELLINGS = {"⋆": "*", "∣": "|", "∼": "~", "^": "∧", "∈": "∊"}
KINDS = [f"{kind} ERROR" for kind in ERRORS.split("|")] + REFUSALS.split("|")


class Row(NamedTuple):
    """A row of a table: its section, the words at the head of the table, and its cells."""

    section: str
    heads: list[str]
    cells: list[str]

    @property
    def terms(self) -> list[str]:
        """The forms or words in backquotes that the row is about."""
        return re.findall("`([^`]+)`", self.cells[0])

    @property
    def names(self) -> list[str]:
        """The names of the functions that the row is about."""
        return self.cells[1].split(", ") if self.heads[1] == "Name" else []


class Passage(NamedTuple):
    """A paragraph, or a point of a list: its section, and its text on one line."""

    section: str
    text: str


class Page(NamedTuple):
    """The manual: the rows of its tables, and its passages."""

    rows: list[Row]
    passages: list[Passage]


@lru_cache(maxsize=None)
def page() -> Page:
    """Returns the manual; a Mistake if it cannot be read."""
    try:
        text = FILE.read_text("utf-8")
    except OSError as error:
        raise Mistake(f"the manual, {FILE}, cannot be read: {error.strerror}") from None
    read = Page([], [])
    for section in re.split("^## ", re.sub("^```.*?^```$", "", text, flags=re.DOTALL | re.MULTILINE), flags=re.MULTILINE)[1:]:
        title, _, body = section.partition("\n")
        for block in re.split(r"\n\n+|\n(?=- |[0-9]+\. )", body.strip("\n")):
            if block.startswith("|"):
                read.rows.extend(rows_of(title, block.split("\n")))
            elif block:
                read.passages.append(Passage(title, " ".join(block.split())))
    return read


def rows_of(section: str, lines: list[str]) -> list[Row]:
    """Returns the rows of a table, whose first line has the heads, and whose second line is a rule."""
    cells = [[cell.strip().replace("\\|", "|") for cell in re.split(r"(?<!\\)\|", line)[1:-1]] for line in lines]
    return [Row(section, cells[0], row) for row in cells[2:]]


def plain(text: str) -> str:
    """Returns a text without the marks of markdown."""
    return re.sub(r"`|\*\*|^- ", "", re.sub(r"\[([^]]+)\]\(#[^)]*\)", r"\1", text))


def symbols() -> list[str]:
    """Returns the symbols of the language, the longest ones first."""
    written = [symbol for row in page().rows if row.section == SYMBOLS for term in row.terms for symbol in term.split()]
    return sorted(written, key=len, reverse=True)


def rows_of_symbol(symbol: str) -> list[Row]:
    """Returns the rows of a symbol, and the rows with it in the sections that they name."""
    own = [row for row in page().rows if row.section == SYMBOLS and any(symbol in term.split() for term in row.terms)]
    sections = [section for row in own for section in re.findall(r"\[([^]]+)\]\(", row.cells[-1])]
    return own + [row for row in page().rows if any(symbol in term for term in row.terms) and row.section in sections]


def of_symbols(words: str) -> list[str]:
    """Returns the lines about each symbol in a word of symbols."""
    pattern = "|".join(map(re.escape, symbols()))
    written = "".join(SPELLINGS.get(sign, sign) for sign in words)
    if not re.fullmatch(f"(?:{pattern})+", written):
        return []
    return [line for symbol in dict.fromkeys(re.findall(pattern, written)) for row in rows_of_symbol(symbol) for line in lines_of_row(row)]


def of_fault(words: str) -> list[str]:
    """Returns the lines about an error or a refusal: its row, and the passages about its place in the order of checks."""
    fault = next((kind for kind in KINDS if words.upper() in (kind, kind.replace(" ERROR", ""))), None)
    if fault is None:
        return []
    rows = [row for row in page().rows if fault in row.terms]
    begin = re.compile(rf"- {fault.replace(' ERROR', '')}\b")
    passages = [passage for passage in page().passages if f"`{fault}`" in passage.text or begin.match(passage.text)]
    return [line for row in rows for line in lines_of_row(row)] + lines_of_passages([fault] * (not rows), passages)


def of_command(words: str) -> list[str]:
    """Returns the lines about a line that begins with ): its row, and the passages about it in the sections of lines and of refusals."""
    word = words.upper().replace(" ", "").lstrip(")")
    if word not in COMMAND_WORDS:
        return []
    begin = re.compile(rf"\){word}\b")
    rows = [row for row in page().rows if row.section == LINES and any(map(begin.match, row.terms))]
    passages = [passage for passage in page().passages if passage.section in (LINES, FAULTS) and re.search(rf"`\){word}\b", passage.text)]
    return [line for row in rows for line in lines_of_row(row)] + lines_of_passages([], passages)


def of_function(words: str) -> list[str]:
    """Returns the lines about the functions of a name, as reshape."""
    return [line for row in page().rows if words.lower() in row.names for line in lines_of_row(row)]


def explained(words: str) -> list[str]:
    """Returns the manual's lines about a symbol, an error, a refusal, a line or a function; a Mistake if it has none of that name."""
    lines = of_symbols(words) or of_command(words) or of_fault(words) or of_function(words)
    if lines:
        return lines
    names = {name for row in page().rows for name in row.names}
    known = {name.upper(): name for name in [*names, *KINDS, *(f"){word}" for word in COMMAND_WORDS), *symbols()]}
    near = [known[name] for name in get_close_matches(words.upper(), known, 3)]
    raise Mistake(f"the manual has no entry of {words}" + (f"; is {' or '.join(near)} meant?" if near else ""))


def lines_of_row(row: Row) -> list[str]:
    """Returns the terms of a row, and a line for each further cell after the head of its column."""
    cells = [(head, plain(cell)) for head, cell in zip(row.heads[1:], row.cells[1:]) if cell]
    return ["  ".join(row.terms) or plain(row.cells[0]), *(line for head, cell in cells for line in wrapped(f"{head}: {cell}"))]


def lines_of_passages(title: list[str], passages: list[Passage]) -> list[str]:
    """Returns passages, each after the title of its section if the section is new."""
    lines, section = [*title], ""
    for passage in passages:
        if passage.section != section:
            section = passage.section
            lines.append(f'In "{section}":')
        lines += wrapped(plain(passage.text))
    return lines


def wrapped(text: str) -> list[str]:
    """Returns a text as indented lines, at most as wide as the terminal."""
    width = min(WIDEST, columns())
    first, further = "  ", "    "
    return textwrap.wrap(text, width, initial_indent=first, subsequent_indent=further, break_long_words=False, break_on_hyphens=False)
