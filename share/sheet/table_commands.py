"""The commands that read tables in files: ]table and ]labels."""

from __future__ import annotations

import re
from contextlib import contextmanager
from typing import TYPE_CHECKING, Any, Dict, Iterator, NamedTuple, Optional, Sequence

from .arrays import lines_of_array
from .commands import command, counted
from .dates import dates_of
from .errors import Mistake
from .lines import NAME
from .numerals import NUMBER, Numerals, decimals_of, is_within
from .tables import Table, encoding_of, separator_in, separator_of, shortened, table_in, text_of
from .units import units_of, with_units
from .workbooks import is_workbook, table_in_workbook

if TYPE_CHECKING:
    from .session import Session

MANY_ITEMS = 1 << 20  # of an array; for more, the program is asked before they are gathered


class FileKind(NamedTuple):
    """The options of a file: two of text files, and two of workbooks."""

    separator: Optional[str]
    encoding: Optional[str]
    sheet: Optional[str]
    range: Optional[str]

    @classmethod
    def taken_from(cls, options: Dict[str, Any]) -> FileKind:
        """Removes these options from others, and returns them."""
        return cls(*(options.pop(field) for field in cls._fields))


@command(
    "]table NAME FILE [--header] [--columns 2-7] [--separator ;] [--decimals 2] [--comma] [--point] [--thousands] [--empty 0] [--dates DD.MM.YYYY] [--encoding cp1252] [--sheet PRICES] [--range B2:F40]",
    "puts the numbers of a table file under a name; --header skips its titles, --columns takes some columns (2-7, or 1,3,5-, or titles)",
)
def put_table(session: Session, name: str, file: str, header: bool, columns: Optional[str], **options: Any) -> None:
    kind = FileKind.taken_from(options)
    numerals = numerals_of(**options)
    with memory_for(file):
        table = table_of(session, file, header, kind)
        if kind.separator is None:
            check_comma(table, numerals)
        wanted = columns_of(table, columns) if columns else [*range(1, table.width + 1)]
        numbers, each = table.numbers(wanted, numerals)
        check_size(session, shape := [table.height, len(wanted)])
        put_array(session, file, f"]table {name} {file}", name, shape, numbers, each, numerals.decimals)
    remark_on_units(session, name, numerals)


@command(
    "]labels NAME FILE COLUMN [--header] [--separator ;] [--one-line] [--encoding cp1252] [--sheet PRICES] [--range B2:F40]",
    "puts a column of names from a table file under a name, as a matrix of characters with a row for each record",
)
def put_labels(session: Session, name: str, file: str, column: str, header: bool, one_line: bool, **options: Any) -> None:
    with memory_for(file):
        table = table_of(session, file, header, FileKind.taken_from(options))
        if len(wanted := columns_of(table, column)) != 1:
            raise Mistake(f"COLUMN is one number or title, and not {column}")
        labels = table.labels(wanted[0], one_line)
        width = max(map(len, labels), default=0)
        check_size(session, shape := [table.height, width])
        items = "".join(label.ljust(width) for label in labels)
        put_array(session, file, f"]labels {name} {file} {column}", name, shape, items)


def remark_on_units(session: Session, name: str, numerals: Numerals) -> None:
    """Prints the unit of a name with decimals."""
    if numerals.decimals:
        session.inform(f"{name} is {units_of(numerals.decimals)}: 1{'0' * numerals.decimals} stands for 1")


def numerals_of(
    decimals: Optional[str], comma: bool, point: bool, thousands: bool, empty: Optional[str], dates: Optional[str] = None
) -> Numerals:
    """Returns the number format that the options name."""
    if comma and point:
        raise Mistake("--comma and --point are two decimal signs")
    if empty is not None and not (NUMBER.fullmatch(empty) and is_within(Numerals().numbers([empty])[0][0])):
        raise Mistake("--empty is followed by the whole number for empty fields")
    if dates and decimals:
        raise Mistake("--dates and --decimals do not go together: a day is a whole number; read the columns under two names")
    return Numerals(decimals_of(decimals), "," * comma or "." * point, thousands, empty or "", dates_of(dates))


@contextmanager
def memory_for(file: str) -> Iterator[None]:
    """Raises a Mistake if there is no memory for the table in a file."""
    try:
        yield
    except MemoryError:
        raise Mistake(f"{file}: there is no memory for this table") from None


def table_of(session: Session, file: str, header: bool, kind: FileKind) -> Table:
    """Returns the table in a file, without its titles; a Mistake for an option of another kind of file."""
    if is_workbook(file):
        if kind.separator or kind.encoding:
            raise Mistake("--separator and --encoding are for text files; a workbook has --sheet and --range")
        return table_in_workbook(file, kind.sheet, kind.range, header)
    if kind.sheet or kind.range:
        raise Mistake("--sheet and --range are for workbooks, whose names end with .xlsx")
    sign = separator_of(kind.separator)
    text = text_of(file, kind.encoding and encoding_of(kind.encoding))
    if sign is None and (sign := separator_in(file, text)) != ",":
        session.inform(f"the fields of {file} are parted by {'tab' if sign == chr(9) else sign}")
    return table_in(file, text, sign, header)


def check_comma(table: Table, numerals: Numerals) -> None:
    """Raises a Mistake if each record is also a single number with a comma, so that the separator is ambiguous."""
    if numerals.is_whole or table.width < 2 or table.separator != "," or not table.height:
        return
    fields, width = table.fields, table.width
    for reading in numerals.readings():
        if all(reading.number(",".join(fields[at : at + width])) for at in range(0, table.height * width, width)):
            advice = "add --separator , or --separator ; for one number in each record"
            raise Mistake(f"{table.file}: the comma can part fields or stand in numbers; {advice}")


def columns_of(table: Table, text: str) -> list[int]:
    """Returns columns by a list of titles and numbers: 3, 2-7, 5- (to the last) or Qty, with commas between them."""
    if not table.width:
        raise Mistake(f"{table.file} has no records, so it has no columns")
    if text in (table.titles or ()):  # a title may have commas
        return [column_of(table, text)]
    return [column for part in text.split(",") for column in columns_of_part(table, part)]


def columns_of_part(table: Table, part: str) -> Sequence[int]:
    """Returns the columns of one part of such a list."""
    ends = re.fullmatch("([0-9]{1,9})(?:(-)([0-9]{0,9}))?", part)
    if part in (table.titles or ()):
        return [column_of(table, part)]
    if not ends:
        kinds = "titles of the first record, or 3, 2-7 and 5-" if table.titles else "3, 2-7 and 5-"
        raise Mistake(f"'{shortened(part)}' names no columns; {kinds} do")
    first, last = int(ends[1]), int(ends[3] or (table.width if ends[2] else ends[1]))
    if first < 1 or last > table.width or first > last:
        raise Mistake(f"'{part}' names no columns of a table of {table.width}")
    return range(first, last + 1)


def column_of(table: Table, title: str) -> int:
    """Returns the column with a title; a Mistake if two columns have it, or it is the number of another column."""
    places = [place for place, it in enumerate(table.titles or (), 1) if it == title]
    if len(places) > 1:
        raise Mistake(f"{table.file}: {len(places)} columns have the title '{shortened(title)}'; their numbers are {', '.join(map(str, places))}")
    if re.fullmatch("[0-9]{1,9}", title) and 1 <= int(title) <= table.width and int(title) != places[0]:
        raise Mistake(f"{table.file}: '{title}' is the title of column {places[0]}, and the number of another one")
    return places[0]


def check_size(session: Session, shape: Sequence[int]) -> None:
    """Raises a Mistake if the program has no arrays of that shape. It asks the program, before many items are gathered."""
    if shape[0] * shape[1] <= MANY_ITEMS:
        return
    text = " ".join(map(str, shape))
    answer = session.program.ask(f"⍴{text}⍴0")
    if answer != [text]:
        raise not_taken_in(" ".join(answer), shape)


def not_taken_in(refusal: str, shape: Sequence[int]) -> Mistake:
    """Returns the Mistake of a table that the program refuses."""
    return Mistake(f"{refusal}: {counted(shape[0], 'record')} of {shape[1]} are not taken in")


def check_name(name: str) -> None:
    if not re.fullmatch(NAME, name):
        raise Mistake(f"{name} is no name")


def put_array(
    session: Session, file: str, title: str, name: str, shape: list[int], items: str | Sequence[str], each: int = 1, decimals: int = 0
) -> None:
    """Binds a name to data from a file."""
    check_name(name)
    try:
        lines = lines_of_array(name, shape, items, session.journal.spare_name(name), each)
        session.change(title, with_units(lines, name, decimals), file)
    except Mistake as refused:
        raise not_taken_in(str(refused), shape) from None
