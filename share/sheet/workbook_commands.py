"""The command ]export: it writes names as the sheets of a workbook, with labels, and the formulas as texts."""

from __future__ import annotations

import io
import re
from typing import TYPE_CHECKING, Any, Iterator, List, NamedTuple, Optional, Sequence, Tuple

from . import files
from .cells import DIGITS, significant
from .commands import command, counted
from .dates import dates_of, day_of
from .errors import Mistake
from .export_commands import Layout, array_of, records_of
from .lines import without_comment
from .storing import Array
from .tables import shortened
from .workbooks import COLUMNS, ROWS, letters_of, library

if TYPE_CHECKING:
    from .session import Session

END = ".xlsx"
FORMULAS = "Formulas"  # the sheet of formulas
RESERVED = (FORMULAS, "History")  # spreadsheets reserve the latter name
LONGEST_TITLE, LONGEST_TEXT = 31, 32767  # characters
UNWRITABLE = re.compile("[^\t -\ud7ff\ue000-\ufffd\U00010000-\U0010ffff]|_x[0-9A-Fa-f]{4}_")  # the latter stands for one character
FIRST_DAY, LAST_DAY = 61, 2958465  # from 1 March 1900 on, spreadsheets agree; the last one is 31 December 9999
WIDEST = 60  # characters in the width of a column of labels
FORMULA_SIGNS = tuple("=+-@")  # begin a formula in a typed text


class Page(NamedTuple):
    """A sheet to be written.

    title          its title
    records        its records of texts
    label_rows     the number of records at the head that are labels
    label_columns  the number of labels at the head of each other record; the rest are numbers
    dates          the form of dates; empty if the numbers are none
    """

    title: str
    records: Sequence[Sequence[str]]
    label_rows: int
    label_columns: int
    dates: str = ""

    def rows(self) -> Iterator[Tuple[Sequence[str], Sequence[str]]]:
        """Yields the labels and the numbers of each record."""
        for number, record in enumerate(self.records):
            count = len(record) if number < self.label_rows else self.label_columns
            yield record[:count], record[count:]


@command(
    "]export FILE NAME.. [--rows LABELS] [--titles LABELS] [--decimals 2] [--dates DD.MM.YYYY] [--replace]",
    "writes names as the sheets of a workbook (.xlsx), with labels, and the formulas in a sheet of their own; --replace overwrites a file",
)
def export_workbook(session: Session, file: str, names: List[str], replace: bool, **options: Any) -> None:
    if not file.lower().endswith(END):
        raise Mistake(f"the name of a workbook ends with {END}; ]csv writes other tables")
    library()
    check_titles(names)
    pages = [page_of(session, name, Layout(comma=False, **options)) for name in names] + page_of_formulas(session)
    check_labels(pages)
    if session.is_check:
        return
    try:
        files.export(file, written(pages), replace)
    except OSError as error:
        raise Mistake(f"{file} cannot be written: {files.reason(error)}") from None
    session.tell(f"{counted(len(pages), 'sheet')} written to {file}")
    if texts := sum(is_text(number, page.dates) for page in pages for _, numbers in page.rows() for number in numbers):
        session.inform(f"{counted(texts, 'item')} written as text, since spreadsheets have no such number or date")


def check_titles(names: Sequence[str]) -> None:
    """Raises a Mistake if names cannot be the titles of sheets: one is too long, or two differ in capitals alone."""
    known = {title.upper(): title for title in RESERVED}
    for name in names:
        if len(name) > LONGEST_TITLE:
            raise Mistake(f"{name} has {len(name)} characters, and the title of a sheet at most {LONGEST_TITLE}; ]rename shortens it")
        if name.upper() in known:
            raise Mistake(f"a sheet for {name} has the title of the sheet {known[name.upper()]}, since capitals do not count in titles")
        known[name.upper()] = name


def check_labels(pages: Sequence[Page]) -> None:
    """Raises a Mistake for a label that no cell can have."""
    for page in pages:
        for text in (label for labels, _ in page.rows() for label in labels):
            if UNWRITABLE.search(text) or len(text) > LONGEST_TEXT:
                raise Mistake(f"no cell of a workbook can have the text '{shortened(text)}' of {page.title}")


def page_of(session: Session, name: str, layout: Layout) -> Page:
    """Returns the page of a name, with the labels of the layout, or else with those that ]pivot has made."""
    layout = with_known_labels(session, name, layout)
    records = records_of(session, name, layout)
    width = max(map(len, records), default=0)
    if len(records) > ROWS or width > COLUMNS:
        raise Mistake(f"{name} takes {counted(len(records), 'row')} of {counted(width, 'column')}, and a sheet of a workbook has {ROWS} of {COLUMNS}")
    return Page(name, records, bool(layout.titles), bool(layout.rows), dates_of(layout.dates))


def with_known_labels(session: Session, name: str, layout: Layout) -> Layout:
    """Returns a layout with NAME_ROWS and NAME_COLUMNS for labels that it lacks; NAME_ROWS has the titles of a vector."""
    rows, titles = known_labels(session, f"{name}_ROWS"), known_labels(session, f"{name}_COLUMNS")
    if len(array_of(session, name).shape) < 2:
        rows, titles = None, rows
    return layout._replace(rows=layout.rows or rows, titles=layout.titles or titles)


def known_labels(session: Session, name: str) -> Optional[str]:
    """Returns a name that shows a matrix of characters; None for another one."""
    if name not in session.journal.bindings:
        return None
    array = Array(session.program, name)
    return name if array.is_text and len(array.shape) == 2 else None


def page_of_formulas(session: Session) -> List[Page]:
    """Returns the page of all formulas: name, formula and comment; no page without formulas."""
    records = [["Name", "Formula", "Comment"]]
    for name, binding in session.journal.bindings.items():
        if not binding.is_data and binding.text:
            code = without_comment(binding.text)
            comment = binding.text.strip()[len(code) :].strip(" \t⍝")
            records.append([name, code.partition("←")[2].strip(), comment])
    return [Page(FORMULAS, records, 1, 3)] if len(records) > 1 else []


def written(pages: Sequence[Page]) -> bytes:
    """Returns the bytes of a workbook with these pages."""
    book = library().Workbook(write_only=True)
    for page in pages:
        write_page(book.create_sheet(page.title), page)
    raw = io.BytesIO()
    book.save(raw)
    return raw.getvalue()


def write_page(sheet: Any, page: Page) -> None:
    """Writes a page to an empty sheet, whose titles and labels stay in sight."""
    sheet.freeze_panes = f"{'B' if page.label_columns == 1 else 'A'}{page.label_rows + 1}"
    for column in range(page.label_columns):
        widest = max(len(record[column]) for record in page.records)
        sheet.column_dimensions[letters_of(column + 1)].width = min(widest + 2, WIDEST)
    for labels, numbers in page.rows():
        sheet.append([*(text_cell(sheet, text) for text in labels), *(cell_of(sheet, text, page.dates) for text in numbers)])


def text_cell(sheet: Any, text: str) -> Any:
    """Returns a cell with a text, which never becomes a formula."""
    cell = new_cell(sheet, text)
    cell.data_type = "s"  # openpyxl takes =A1 for a formula, and #N/A for an error
    cell.quotePrefix = text.startswith(FORMULA_SIGNS)
    return cell


def cell_of(sheet: Any, text: str, dates: str) -> Any:
    """Returns a cell with a number or a date and its format; a text if spreadsheets have no such number."""
    if is_text(text, dates):
        return text_cell(sheet, text)
    decimals = len(text.partition(".")[2])
    if dates:
        cell = new_cell(sheet, int(day_of(text, dates) or 0))
        cell.number_format = dates.lower()
    elif decimals:
        cell = new_cell(sheet, float(text))
        cell.number_format = f"0.{'0' * decimals}"
    else:
        cell = new_cell(sheet, int(text))
        cell.number_format = "0"
    return cell


def is_text(text: str, dates: str) -> bool:
    """Returns whether a number has more digits than a workbook keeps, or spreadsheets differ about a date."""
    if dates:
        return not FIRST_DAY <= int(day_of(text, dates) or 0) <= LAST_DAY
    return significant(text) > DIGITS


def new_cell(sheet: Any, value: object) -> Any:
    return library().cell.WriteOnlyCell(sheet, value)
