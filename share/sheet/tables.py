"""Tables in files. Plain fields stay texts, which the program reads as numbers."""

from __future__ import annotations

import codecs
import csv
import io
import os
import re
import stat
import sys
from itertools import repeat
from typing import Optional, Sequence

from .errors import Mistake
from .numerals import MOST_DECIMALS, Numerals, is_plain, is_within

LARGEST = 256  # MiB of a file
SEPARATORS = ",;\t|"  # candidates without --separator
OLDER_FORMAT = b"\xd0\xcf\x11\xe0"  # begins an encrypted workbook, and one of the format .xls
ARCHIVE = b"PK\x03\x04"  # begins a workbook, and any other zip archive
MARKED = [(codecs.BOM_UTF32_LE, "utf-32"), (codecs.BOM_UTF32_BE, "utf-32"), (codecs.BOM_UTF16_LE, "utf-16"), (codecs.BOM_UTF16_BE, "utf-16")]


class Table:
    """The records of a file. A plain record is a text of numbers with blanks between them; other records are lists of fields.

    separator  the sign between the fields
    width      the number of fields of each record
    titles     the record of titles; None without --header
    records    the plain records; none if there are fields in turn
    in_turn    the fields of records that are not plain, one after the other
    uneven     the Mistake of the next record, if it has another number of fields than the first
    """

    def __init__(
        self,
        file: str,
        separator: str,
        width: int,
        titles: Optional[Sequence[str]],
        records: Sequence[str] = (),
        in_turn: Sequence[str] = (),
    ) -> None:
        self.file, self.separator, self.width, self.titles, self.records, self.in_turn = file, separator, width, titles, records, in_turn
        self.uneven: Mistake | None = None

    @property
    def first(self) -> int:
        """Returns the number of the first record after the titles."""
        return 1 if self.titles is None else 2

    @property
    def height(self) -> int:
        return len(self.records) or (len(self.in_turn) // self.width if self.width else 0)

    @property
    def fields(self) -> Sequence[str]:
        return " ".join(self.records).split(" ") if self.records else self.in_turn

    def columns(self, wanted: Sequence[int]) -> list[str]:
        """Returns the fields of these columns, counted from 1, one record after the other."""
        fields, kept = self.fields, [""] * (self.height * len(wanted))
        for place, column in enumerate(wanted):
            kept[place :: len(wanted)] = fields[column - 1 :: self.width]
        return kept

    def numbers(self, wanted: Sequence[int], numerals: Numerals = Numerals()) -> tuple[Sequence[str], int]:
        """Returns the numbers of these columns as texts, and the count in each text; a Mistake names the first field that is no number."""
        if self.records and numerals.is_whole and wanted == [*range(1, self.width + 1)]:
            return self.records, self.width
        fields, width = self.columns(wanted), len(wanted)
        if not (self.records and numerals.is_whole):
            fields = self.read(fields, wanted, numerals)
        self.check_end()
        return fields, 1

    def read(self, fields: Sequence[str], wanted: Sequence[int], numerals: Numerals) -> Sequence[str]:
        """Returns the numbers in fields by the only possible decimal sign; a Mistake names the first bad or ambiguous field."""
        readings = numerals.readings()
        found = [reading.numbers(self.written(fields, reading)) for reading in readings]
        well = [numbers for numbers, failed in found if failed is None]
        if not well:
            failed = max(place or 0 for _, place in found)
            raise self.refused(fields[failed], failed, wanted, numerals)
        differs = next((place for place, (one, other) in enumerate(zip(*well)) if int(one) != int(other)), None) if len(well) == 2 else None
        if differs is not None:
            where = self.where(differs // len(wanted) + self.first, wanted[differs % len(wanted)])
            raise Mistake(f"{where} can be two numbers: '{shortened(fields[differs])}'; add --comma or --point, the decimal sign")
        return well[0]

    def written(self, fields: Sequence[str], _reading: Numerals) -> Sequence[str]:
        """Returns fields as texts in a number format; fields of a text file are."""
        return fields

    def refused(self, field: str, place: int, wanted: Sequence[int], numerals: Numerals) -> Mistake:
        """Returns the Mistake of a field that is no number of 64 bits."""
        record, column = place // len(wanted) + self.first, wanted[place % len(wanted)]
        numbers = [number for number in (reading.number(field) for reading in numerals.readings()) if number]
        if any(not is_within(number) for number in numbers):
            return Mistake(f"{self.where(record, column)} is beyond 64 bits: {shortened(field.strip())}")
        if numbers:
            return Mistake(f"{self.where(record, column)} has another decimal sign than a field before it: '{shortened(field)}'")
        kind = "number" if numerals.decimals else "whole number"
        return Mistake(f"{self.where(record, column)} is no {kind}: '{shortened(field)}'{advice(field, record, column, numerals, self.separator)}")

    def where(self, record: int, column: int) -> str:
        return f"{self.file}: record {record} field {column}"

    def labels(self, column: int, one_line: bool = False) -> list[str]:
        """Returns the fields of a column. `one_line` replaces line ends by blanks; without it such a field is a Mistake."""
        labels = self.columns([column])
        if one_line:
            labels = [re.sub("\r\n|\r|\n", " ", label) for label in labels]
        for place, label in enumerate(labels):
            if "\n" in label or "\r" in label:
                raise Mistake(f"{self.where(place + self.first, column)} has more than one line; --one-line puts a blank for each end of a line")
        self.check_end()
        return labels

    def check_end(self) -> None:
        """Raises the Mistake of the next record, if there is one."""
        if self.uneven:
            raise self.uneven


def shortened(field: str) -> str:
    """Returns the first line of a field for a message, at most 60 characters of it."""
    start = field[:60].partition("\n")[0].partition("\r")[0]
    return start if start == field else f"{start}…"


def advice(field: str, record: int, column: int, numerals: Numerals, separator: str) -> str:
    """Returns a hint for a field that is no number: the option that reads it, or another remedy."""
    if separator and (";" in field or "\t" in field):
        return "; if this parts the fields, add --separator ';' or --separator tab"
    if not field.strip():
        return "; --empty 0 reads an empty field as 0"
    if numerals.dates and re.fullmatch("[0-9]+[-./][0-9]+[-./][0-9]+", field.strip()):
        return f", and no date as {numerals.dates}"
    if option := option_for(field, numerals):
        return f"; {option} reads it"
    if record == 1:
        return "; if the first record has titles, add --header"
    return "; --columns takes the columns of numbers alone, and ]labels one of names" if column == 1 else ""


def option_for(field: str, numerals: Numerals) -> Optional[str]:
    """Returns the options that would read a field as a number; None if there are none."""
    decimals = re.search("[.,]([0-9]+)[ \t]*$", field)
    places = min(max(len(decimals[1]) if decimals else 0, numerals.decimals), MOST_DECIMALS)
    thousands = numerals._replace(has_thousands=True)
    wider = {f"--decimals {places}": numerals._replace(decimals=places), "--thousands": thousands}
    options = [option for option, it in wider.items() if it != numerals and is_read_by(it, field)]
    both = thousands._replace(decimals=places)
    return " or ".join(options) or (f"--thousands --decimals {places}" if is_read_by(both, field) else None)


def is_read_by(numerals: Numerals, field: str) -> bool:
    return any(reading.number(field) for reading in numerals.readings())


def bytes_of(file: str) -> bytes:
    """Returns the bytes of a file; a Mistake if it cannot be read, may have no end, or is too large."""
    try:
        status = os.stat(file)
        if not stat.S_ISREG(status.st_mode):  # reading a pipe or a device may never end
            raise Mistake(f"{file} is a folder, a pipe or a device, and no file with a table")
        if status.st_size > LARGEST << 20:
            raise Mistake(f"{file} is larger than {LARGEST} MiB")
        with open(file, "rb") as source:
            return source.read()
    except OSError as error:
        raise Mistake(f"{file} cannot be read: {error.strerror}") from None
    except ValueError:
        raise Mistake(f"{file} cannot be read: no file has such a name") from None


def text_of(file: str, encoding: Optional[str] = None) -> str:
    """Returns the text of a table file. Without `encoding` the byte order mark decides, and UTF-8 is the default."""
    raw = bytes_of(file)
    if raw.startswith((OLDER_FORMAT, ARCHIVE)):
        raise Mistake(f"{file} is no text, but a workbook or an archive; the name of a workbook ends with .xlsx")
    marked = next((name for mark, name in MARKED if raw.startswith(mark)), "utf-8-sig")
    try:
        text = raw.decode(encoding or marked).lstrip("\ufeff" if encoding else "")
        text.encode()  # refuses lone surrogates
        return text
    except UnicodeError as error:
        line = error.object.count(b"\n", 0, error.start) + 1 if isinstance(error, UnicodeDecodeError) else 1
        name = (encoding or marked).upper().replace("-SIG", "")
        hint = "" if encoding else "; add --encoding cp1252 for files of older spreadsheets, or save the table as CSV in UTF-8"
        raise Mistake(f"{file}: line {line} is not {name}{hint}") from None


def encoding_of(name: str) -> str:
    """Returns the name of a text encoding; a Mistake if Python has none of that name."""
    try:
        "".encode(name)
        return name
    except (LookupError, ValueError):
        raise Mistake(f"'{shortened(name)}' is no encoding; utf-16, cp1252 and latin-1 are some") from None


def separator_of(word: Optional[str]) -> Optional[str]:
    """Returns the separator after --separator, None without the option; a Mistake for a character of numbers."""
    sign = "\t" if word == "tab" else word
    if sign is not None and (len(sign) != 1 or sign in '"-+¯0123456789\n\r\0' or "\ud800" <= sign <= "\udfff"):  # surrogates stand for bytes outside UTF-8
        raise Mistake("--separator is followed by one sign that is in no number, or by the word tab")
    return sign


def separator_in(file: str, text: str) -> str:
    """Returns the only character that splits all records evenly, or the comma if there is none; a Mistake if there are several."""
    present = [sign for sign in SEPARATORS if sign in text]
    fitting = [sign for sign in present if are_even(text, sign)] if present not in ([], [","]) else present
    if len(fitting) > 1:
        words = " or ".join("tab" if sign == "\t" else f"'{sign}'" for sign in fitting)
        raise Mistake(f"{file}: more than one sign can part the fields; add --separator {words}")
    return fitting[0] if fitting else ","


def are_even(text: str, separator: str) -> bool:
    """Returns whether a character splits all records into the same number of fields, at least two."""
    try:
        widths = {len(record) for record in csv.reader(io.StringIO(text, newline=""), delimiter=separator) if record}
    except csv.Error:
        return False
    return len(widths) == 1 and widths != {1}


def table_in(file: str, text: str, separator: str, has_titles: bool) -> Table:
    """Returns the table in a text of that file; empty lines are no records.

    Raises a Mistake if it cannot be read. The table keeps the Mistake of a record with another number of fields than the first.
    """
    csv.field_size_limit(sys.maxsize)
    titles, rest = cut_titles(text, separator) if has_titles else (None, text)
    if rest is not None and is_plain(rest.replace("\r\n", "\n"), separator):
        return plain_table(file, titles, rest.replace("\r\n", "\n"), separator)
    widths: list[int] = []
    fields: list[str] = []
    try:
        for record in filter(None, csv.reader(io.StringIO(text, newline=""), delimiter=separator)):
            widths.append(len(record))
            fields += record
    except csv.Error as error:
        raise Mistake(f"{file}: record {len(widths) + 1} cannot be read: {error}") from None
    width, height = widths[0] if widths else 0, even_records(widths)
    titles = fields[:width] if has_titles else None
    table = Table(file, separator, width, titles, in_turn=fields[width * has_titles : width * height])
    table.uneven = uneven_record(file, widths)
    return table


def cut_titles(text: str, separator: str) -> tuple[list[str], str | None]:
    """Returns the fields of the first record, and the text after it; None for the text if the record does not end with a line."""
    line, _, rest = text.lstrip("\r\n").partition("\n")
    line = line.rstrip("\r")
    records = [] if "\r" in line or "\0" in line else [*csv.reader([line, "0"], delimiter=separator)]
    return (records[0], rest) if len(records) == 2 else ([], None)  # with an open quote the 0 is in the first record


def plain_table(file: str, titles: Optional[list[str]], text: str, separator: str) -> Table:
    """Returns the table of plain records, one on each line."""
    records = [*filter(None, text.replace(separator, " ").split("\n"))]
    widths = [len(titles or ())] * bool(titles) + [blanks + 1 for blanks in map(str.count, records, repeat(" "))]
    if mistake := uneven_record(file, widths):
        raise mistake
    return Table(file, separator, widths[0] if widths else 0, titles or None, records)


def even_records(widths: Sequence[int]) -> int:
    """Returns the number of records before one with another number of fields than the first."""
    if len({*widths}) < 2:
        return len(widths)
    return next(place for place, width in enumerate(widths) if width != widths[0])


def uneven_record(file: str, widths: Sequence[int]) -> Mistake | None:
    """Returns the Mistake of the first record with another number of fields than the first, or None."""
    if (record := even_records(widths)) == len(widths):
        return None
    fields = f"{widths[record]} field{'s' * (widths[record] != 1)}"
    return Mistake(f"{file}: record {record + 1} has {fields}, and the first has {widths[0]}")
