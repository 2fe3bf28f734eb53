"""Cells of workbooks as fields of a table. Plain text stays a text; any other cell is a Cell."""

from __future__ import annotations

import math
from datetime import date, datetime
from decimal import Decimal

from .dates import DAY_0, date_of
from .numerals import MOST_DECIMALS, Numerals

DIGITS = 15  # significant digits of a decimal number that a binary float always keeps
UNREAD = "?"  # no number under any options
NO_VALUE = "is a formula without a computed value; open the workbook in a spreadsheet program and save it"


class Cell(str):
    """The text of a cell, and the reason why it is no field. Cells of this class itself are always refused."""

    def __new__(cls, text: str, reason: str = "") -> Cell:
        return super().__new__(cls, text)

    def __init__(self, text: str, reason: str = "") -> None:
        self.reason = reason

    def written(self, numerals: Numerals) -> str:
        """Returns the cell as a field of a text file in this number format."""
        return UNREAD

    def refusal(self, numerals: Numerals) -> str:
        """Returns why the cell is no number in this format: the end of a sentence that begins with its place."""
        return self.reason


class NumberCell(Cell):
    """A number as a decimal text: it has a point, no exponent and at most DIGITS significant digits."""

    def written(self, numerals: Numerals) -> str:
        return self.replace(".", numerals.mark)

    def refusal(self, numerals: Numerals) -> str:
        decimals = len(self.partition(".")[2])
        if decimals <= numerals.decimals:
            return f"is beyond 64 bits: {self}"
        advice = f"; --decimals {decimals} reads it" if decimals <= MOST_DECIMALS else ""
        return f"has {decimals} decimal{'s' * (decimals > 1)}: {self}{advice}"


class DateCell(Cell):
    """A date as YYYY-MM-DD, with the number of its day."""

    def __init__(self, text: str, reason: str = "") -> None:
        self.reason = reason
        self.day = (date.fromisoformat(text) - DAY_0).days

    def written(self, numerals: Numerals) -> str:
        return date_of(str(self.day), numerals.dates) if numerals.dates else UNREAD

    def refusal(self, numerals: Numerals) -> str:
        return f"is a date, {self}; --dates YYYY-MM-DD reads it"


def field_of(value: object, is_error: bool) -> str:
    """Returns the field for the value of a cell, as openpyxl returns it."""
    if isinstance(value, bool):
        return Cell(str(value).upper(), f"is {str(value).upper()}, and neither a number nor a text")
    if is_error:
        return Cell(str(value), f"is the error {value}")
    if isinstance(value, (int, float)):
        return number_field(value)
    if isinstance(value, datetime) and value == datetime(value.year, value.month, value.day):
        return DateCell(value.date().isoformat())
    if isinstance(value, date) and not isinstance(value, datetime):
        return DateCell(value.isoformat())
    if value is None or isinstance(value, str):
        return value or ""
    return Cell(str(value), f"is a time, {value}, and no whole day")


def number_field(value: int | float) -> Cell:
    """Returns the shortest decimal text of a number; a refused cell if it has more digits than a workbook keeps."""
    if not math.isfinite(value):
        return Cell(str(value), "is no number")
    text = repr(value)
    if "." in text or "e" in text:
        text = format(Decimal(text), "f")
        text = text.rstrip("0").rstrip(".") if "." in text else text
    if significant(text) > DIGITS:
        advice = "round it in the workbook, or enter it as a text"
        return Cell(text, f"has {significant(text)} digits: {text}; a workbook keeps {DIGITS}, so {advice}")
    return NumberCell("0" if text == "-0" else text)


def significant(text: str) -> int:
    """Returns the number of significant digits of a decimal text."""
    return len(text.lstrip("-").replace(".", "").strip("0"))
