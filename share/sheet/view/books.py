"""Workbooks in a page: it sends the bytes of one and chooses a sheet, or gets the bytes of one with the tables of the sheet."""

from __future__ import annotations

import base64
import tempfile
from itertools import islice
from pathlib import Path
from typing import Any, List, NamedTuple, Optional, Sequence

from ..cells import DateCell
from ..dates import dates_of
from ..errors import Mistake
from ..export_commands import Layout
from ..numerals import Numerals
from ..session import Session
from ..storing import Array
from ..tables import Table
from ..workbook_commands import Page, check_labels, check_titles, is_text, page_of, page_of_formulas, written
from ..workbooks import Block, SheetTable, cells_of, check_archive, field_of_cell, library, opened, readable, table_in_workbook
from .looks import Told

MOST_SHEETS = 100  # offered by a page
HEAD = Block(1, 1, 5, 12)  # cells that it shows of each
DAYS = "YYYY-MM-DD"


class Labelled(NamedTuple):
    """A name whose table a workbook gets, with the names of the labels that the page shows beside and above it."""

    name: str
    rows: Optional[str] = None
    columns: Optional[str] = None


def bytes_in(raw: str) -> bytes:
    """Returns the bytes that a text of base64 has; ValueError if it is none."""
    return base64.b64decode(raw, validate=True)


def sheets_in(title: str, raw: bytes) -> List[Told]:
    """Returns the titles of the sheets of a workbook, each with the texts of its first cells."""
    library()
    with readable(title):
        check_archive(title, raw)
        book = opened(raw)
        return [{"title": sheet.title, "head": head_of(sheet)} for sheet in islice(book.worksheets, MOST_SHEETS)]


def head_of(sheet: Any) -> List[List[str]]:
    """Returns the texts of the first cells of a sheet."""
    return [[str(field_of_cell(cell))[:40] for cell in row] for row in cells_of(sheet, HEAD)]


def sheet_table(title: str, raw: bytes, sheet: str, block: str, has_titles: bool) -> SheetTable:
    """Returns the table in a sheet of a workbook, or in a block of its cells as B2:F40; messages name the title."""
    with tempfile.TemporaryDirectory(prefix="sheet-book-") as folder:
        path = Path(folder, "book.xlsx")
        path.write_bytes(raw)
        try:
            table = table_in_workbook(str(path), sheet, block or None, has_titles)
        except Mistake as mistake:
            raise Mistake(str(mistake).replace(str(path), title).replace("--range is followed by", "the range is")) from None
    table.file = title
    return table


def numerals_for(table: Table, wanted: Sequence[int], decimals: int) -> Numerals:
    """Returns how the numbers in columns of a table are read: as days, if all of them are dates of a workbook."""
    fields: Sequence[str] = table.columns(wanted) if isinstance(table, SheetTable) else ()
    if fields and all(isinstance(field, DateCell) for field in fields):
        return Numerals(dates=dates_of(DAYS))
    return Numerals(decimals)


def book_of(session: Session, tables: Sequence[Labelled]) -> Told:
    """Returns a workbook with these tables and the formulas, and notes about its differences from the sheet."""
    library()
    kept = [table for table in tables if is_table(session, table.name)]
    check_titles([table.name for table in kept])
    pages = [page_of(session, table.name, Layout(table.rows, table.columns, None, False, None)) for table in kept]
    pages += page_of_formulas(session)
    if not pages:
        raise Mistake("there are no numbers and no formulas for a workbook")
    check_labels(pages)
    return {"raw": base64.b64encode(written(pages)).decode(), "notes": notes_on(pages)}


def is_table(session: Session, name: str) -> bool:
    """Returns whether a name shows numbers on at most two axes."""
    session.binding(name)
    array = Array(session.program, name)
    return not array.error and not array.is_text and len(array.shape) <= 2 and 0 not in array.shape


def notes_on(pages: Sequence[Page]) -> List[str]:
    """Returns a note if numbers were written as texts."""
    texts = sum(is_text(number, page.dates) for page in pages for _, numbers in page.rows() for number in numbers)
    return ["numbers with more digits than a spreadsheet keeps are texts in the workbook"] if texts else []
