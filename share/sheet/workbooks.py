"""Workbooks (.xlsx): a sheet, or a block of its cells, as a table. openpyxl reads them, and is imported for them alone."""

from __future__ import annotations

import io
import re
import warnings
import zipfile
from contextlib import contextmanager
from functools import partial
from importlib import import_module
from types import ModuleType
from typing import Any, Iterator, NamedTuple, Optional, Sequence

from .cells import NO_VALUE, Cell, DateCell, NumberCell, field_of
from .errors import Mistake
from .numerals import Numerals
from .tables import OLDER_FORMAT, Table, bytes_of, shortened

ENDS = (".xlsx", ".xlsm")
UNPACKED = 512  # MiB of all parts of a workbook
MOST_CELLS = 1 << 22  # of a block to be read
ROWS, COLUMNS = 1 << 20, 1 << 14  # of a sheet
CHUNK = 1 << 20
FEW = 10  # sheets that a message names
BLANK = Cell("")  # a cell without a value, which may have a formula
BLOCK = re.compile(r"\$?([A-Za-z]{1,3})\$?([1-9][0-9]{0,6}):\$?([A-Za-z]{1,3})\$?([1-9][0-9]{0,6})?")
MERGED = re.compile(rb"""<(?:\w+:)?mergeCell\s[^>]*?ref=["']([A-Z]+[0-9]+:[A-Z]+[0-9]+)["']""")


class Block(NamedTuple):
    """A block of cells: its first and its last row and column, counted from 1; None for the last one with content."""

    row: int = 1
    column: int = 1
    last_row: Optional[int] = None
    last_column: Optional[int] = None

    @classmethod
    def of(cls, text: str) -> Optional[Block]:
        """Returns the block that is written as B2:F40, or as B2:F; None for another text."""
        found = BLOCK.fullmatch(text)
        if not found:
            return None
        return cls(int(found[2]), number_of(found[1]), int(found[4]) if found[4] else None, number_of(found[3]))

    @property
    def is_within(self) -> bool:
        """True for a block that begins before it ends, within the largest sheet."""
        last_row, last_column = self.last_row or ROWS, self.last_column or COLUMNS
        return self.row <= last_row <= ROWS and self.column <= last_column <= COLUMNS


class SheetTable(Table):
    """A table in a sheet; its messages name cells.

    sheet  the title of the sheet
    block  the block that it fills
    """

    def __init__(self, file: str, sheet: str, block: Block, rows: Sequence[Sequence[str]], has_titles: bool) -> None:
        titles = [str(field) for field in rows[0]] if has_titles and rows else None
        width = len(rows[0]) if rows else 0
        super().__init__(file, "", width, titles, in_turn=[field for row in rows[bool(titles) :] for field in row])
        self.sheet, self.block = sheet, block

    def where(self, record: int, column: int) -> str:
        return f"{self.file}: {self.sheet}!{letters_of(self.block.column + column - 1)}{self.block.row + record - 1}"

    def written(self, fields: Sequence[str], reading: Numerals) -> Sequence[str]:
        return [field.written(reading) if isinstance(field, Cell) else field for field in fields]

    def refused(self, field: str, place: int, wanted: Sequence[int], numerals: Numerals) -> Mistake:
        if not isinstance(field, Cell):
            return super().refused(field, place, wanted, numerals)
        where = self.where(place // len(wanted) + self.first, wanted[place % len(wanted)])
        return Mistake(f"{where} {field.refusal(numerals)}")

    def labels(self, column: int, one_line: bool = False) -> list[str]:
        """Returns the texts of a column; a number is a decimal text, and a date is YYYY-MM-DD. Another cell is a Mistake."""
        for place, field in enumerate(self.columns([column])):
            if isinstance(field, Cell) and not isinstance(field, (NumberCell, DateCell)):
                raise Mistake(f"{self.where(place + self.first, column)} {field.reason}")
        return [*map(str, super().labels(column, one_line))]


def number_of(letters: str) -> int:
    """Returns the number of a column by its letters: A is 1, and AA is 27."""
    number = 0
    for letter in letters.upper():
        number = 26 * number + ord(letter) - ord("A") + 1
    return number


def letters_of(number: int) -> str:
    """Returns the letters of a column."""
    letters = ""
    while number:
        number, rest = divmod(number - 1, 26)
        letters = chr(ord("A") + rest) + letters
    return letters


def is_workbook(file: str) -> bool:
    return file.lower().endswith(ENDS)


def library() -> ModuleType:
    """Returns openpyxl; a Mistake if it is absent."""
    try:
        return import_module("openpyxl")
    except ImportError:
        raise Mistake("a workbook needs openpyxl, which is not installed: apt install python3-openpyxl, or pip install openpyxl") from None


def table_in_workbook(file: str, sheet: Optional[str], word: Optional[str], has_titles: bool) -> SheetTable:
    """Returns the table in a sheet, or in a block of its cells as B2:F40."""
    block = block_of(word)
    library()
    raw = bytes_of(file)
    with readable(file):
        check_archive(file, raw)
        book = opened(raw)
        source = sheet_of(book, file, sheet)
        rows = rows_of(source, block, file)
        if any(field is BLANK for row in rows for field in row):
            settle_blanks(rows, sheet_of(opened(raw, with_values=False), file, sheet), block)
        filled = fill(rows, block)
        mark_merged(rows, filled, merged_blocks(raw, source))
    return SheetTable(file, source.title, filled, rows, has_titles)


def block_of(word: Optional[str]) -> Block:
    """Returns the block after --range, the whole sheet without the option; a Mistake for another word or a large block."""
    block = Block() if word is None else Block.of(word)
    if block is None or not block.is_within:
        raise Mistake("--range is followed by a block of cells, as B2:F40, or B2:F to the last row")
    if block.last_row and block.last_column:
        check_count((block.last_row - block.row + 1) * (block.last_column - block.column + 1))
    return block


def check_count(count: int) -> None:
    """Raises a Mistake if there are more than MOST_CELLS cells."""
    if count > MOST_CELLS:
        raise Mistake(f"more than {MOST_CELLS} cells are not read; --range B2:F40 reads a block of them")


def check_archive(file: str, raw: bytes) -> None:
    """Raises a Mistake for a file that is no workbook, or unpacks to more than UNPACKED."""
    if raw.startswith(OLDER_FORMAT):
        raise Mistake(f"{file} is encrypted, or a workbook of an older format; save it as .xlsx without a password")
    try:
        with zipfile.ZipFile(io.BytesIO(raw)) as archive:
            size = sum(part.file_size for part in archive.infolist())
    except zipfile.BadZipFile:
        raise Mistake(f"{file} is no workbook (.xlsx)") from None
    if size > UNPACKED << 20:
        raise Mistake(f"{file} is larger than {UNPACKED} MiB when it is unpacked")


@contextmanager
def readable(file: str) -> Iterator[None]:
    """Turns exceptions of zipfile and openpyxl into a Mistake, and hides warnings."""
    try:
        with warnings.catch_warnings():
            warnings.simplefilter("ignore")
            yield
    except (Mistake, MemoryError):
        raise
    except Exception as error:  # a damaged file raises exceptions of many kinds
        raise Mistake(f"{file} cannot be read as a workbook: {shortened(str(error)) or type(error).__name__}") from None


def opened(raw: bytes, with_values: bool = True) -> Any:
    """Opens a workbook: with the computed values of its formulas, or with the formulas."""
    return library().load_workbook(io.BytesIO(raw), read_only=True, data_only=with_values)


def sheet_of(book: Any, file: str, title: Optional[str]) -> Any:
    """Returns a sheet by its title, or the only one; else a Mistake names the sheets."""
    sheets = {sheet.title: sheet for sheet in book.worksheets}
    titles = ", ".join([*sheets][:FEW]) + ", .." * (len(sheets) > FEW)
    if not sheets or title is not None and title not in sheets:
        raise Mistake(f"{file} has no sheet '{shortened(title or '')}'; it has {titles}" if sheets else f"{file} has no sheets")
    if title is None and len(sheets) > 1:
        raise Mistake(f"{file} has {len(sheets)} sheets; add --sheet and one of {titles}")
    return sheets[title] if title is not None else next(iter(sheets.values()))


def rows_of(sheet: Any, block: Block, file: str) -> list[list[str]]:
    """Returns the fields of the rows in a block, each to its last cell; a Mistake if they are too many."""
    rows, count = [], 0
    for row in cells_of(sheet, block):
        rows.append([field_of_cell(cell) for cell in row])
        count += len(row)
        check_count(count)
        if len(rows) > ROWS:
            raise Mistake(f"{file} has a sheet of more than {ROWS} rows")
    return rows


def cells_of(sheet: Any, block: Block) -> Iterator[Sequence[Any]]:
    """Yields the cells of each row in a block; the size that the file states is not trusted."""
    sheet.reset_dimensions()
    rows: Iterator[Sequence[Any]] = sheet.iter_rows(block.row, block.last_row, block.column, block.last_column)
    return rows


def field_of_cell(cell: Any) -> str:
    """Returns the field of a cell; BLANK if the file has a cell there without a value."""
    if cell.value is None:
        is_text = cell.data_type == "str"  # of a formula
        return BLANK if hasattr(cell, "row") and not is_text else ""
    return field_of(cell.value, cell.data_type == "e")


def settle_blanks(rows: Sequence[list[str]], sheet: Any, block: Block) -> None:
    """Replaces each BLANK: a formula without a value is refused, and another cell is empty. `sheet` has the formulas."""
    for fields, row in zip(rows, cells_of(sheet, block)):
        for place, cell in enumerate(row):
            if fields[place] is BLANK:
                fields[place] = Cell("", NO_VALUE) if cell.data_type == "f" else ""


def fill(rows: list[list[str]], block: Block) -> Block:
    """Makes the rows equally long, to the end of the block or of the content. Returns the block that they fill."""
    top, left = block.row, block.column
    if block.last_row is None:
        while rows and not any(map(is_filled, rows[-1])):
            rows.pop()
    if block.last_column is None:
        top += (above := next((place for place, row in enumerate(rows) if any(map(is_filled, row))), 0))
        left += (before := min((place for row in rows for place, field in enumerate(row) if is_filled(field)), default=0))
        rows[:] = [row[before:] for row in rows[above:]]
    height = block.last_row - block.row + 1 if block.last_row else len(rows)
    width = block.last_column - left + 1 if block.last_column else max(map(last_filled, rows), default=0)
    check_count(height * width)
    rows += [[] for _ in range(height - len(rows))]
    rows[:] = [row[:width] + [""] * (width - len(row)) for row in rows]
    return Block(top, left, top + height - 1, left + width - 1)


def is_filled(field: str) -> bool:
    """Returns whether a cell has content, or is a Cell."""
    return field != "" or isinstance(field, Cell)


def last_filled(row: Sequence[str]) -> int:
    """Returns the number of the last cell of a row with content, 0 if there is none."""
    return next((number for number in range(len(row), 0, -1) if is_filled(row[number - 1])), 0)


def merged_blocks(raw: bytes, sheet: Any) -> Iterator[Block]:
    """Yields the blocks of merged cells of a sheet, which openpyxl does not read beside single rows."""
    texts, end = set(), b""
    with zipfile.ZipFile(io.BytesIO(raw)) as archive, archive.open(sheet._worksheet_path) as part:
        for chunk in iter(partial(part.read, CHUNK), b""):
            texts.update(MERGED.findall(end + chunk))
            end = chunk[-200:]
    return filter(None, (Block.of(text.decode()) for text in texts))


def mark_merged(rows: Sequence[list[str]], filled: Block, blocks: Iterator[Block]) -> None:
    """Replaces the fields of merged cells by cells that are refused; `filled` is the block of the rows."""
    for block in blocks:
        last_row, last_column = block.last_row or 0, block.last_column or 0
        reason = f"is merged with other cells, {letters_of(block.column)}{block.row}:{letters_of(last_column)}{last_row}; unmerge them"
        part = slice(max(block.column - filled.column, 0), max(last_column - filled.column + 1, 0))
        for row in rows[max(block.row - filled.row, 0) : max(last_row - filled.row + 1, 0)]:
            row[part] = [Cell(field, reason) for field in row[part]]
