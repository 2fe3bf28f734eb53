"""Reads fields as whole numbers: decimals, thousands, dates and empty fields, as the options allow."""

from __future__ import annotations

import re
from functools import lru_cache
from typing import List, NamedTuple, Optional, Pattern, Sequence, Tuple

from .dates import day_of
from .errors import Mistake

NUMBER = re.compile("[ \t]*([-+¯]?)([0-9]+)[ \t]*")
SIGN_OF = {"": "", "+": "", "-": "-", "¯": "-"}
LEAST, GREATEST = -(1 << 63), (1 << 63) - 1
MARKS = ",."  # the decimal signs
GAPS = " \u00a0\u2009\u202f'’"  # between thousands, like the other decimal sign
MOST_DECIMALS = 18

DIGITS = bytes.maketrans(b"123456789", b"0" * 9)
NOT_PLAIN = [b"--", b"0-", b"-,", b"-\n", b",,", b",\n", b"\n,", b"0" * 19]  # absent from plain records, with each digit as 0


def is_plain(text: str, separator: str = ",") -> bool:
    """Returns whether all fields are up to 18 digits with - or nothing before them, as in most tables: a million in some milliseconds."""
    if separator != "," and "," in text:  # a field has a comma, which the next check would take for a separator
        return False
    raw = text.encode().replace(separator.encode(), b",")
    signs = b"\n" + raw.translate(DIGITS) + b"\n"
    return not signs.translate(None, b"0-,\n") and not any(pair in signs for pair in NOT_PLAIN)


def are_plain(fields: Sequence[str]) -> bool:
    """Returns whether every field is plain."""
    text = "\n".join(fields)
    return "" not in fields and "," not in text and text.count("\n") < len(fields) and is_plain(text)


@lru_cache(None)
def form(mark: str, decimals: int, has_thousands: bool) -> Pattern[str]:
    """Returns the pattern of a number. Groups: sign, whole part, gap between thousands, decimals, decimals without a whole part."""
    part = rf"{re.escape(mark)}([0-9]{{1,{decimals}}})" if decimals else "([^\\s\\S])"
    gaps = re.escape(MARKS.replace(mark, "") + GAPS)
    whole = rf"[0-9]{{1,3}}(?:([{gaps}])[0-9]{{3}}(?:\3[0-9]{{3}})*)?|[0-9]+" if has_thousands else "[0-9]+()"
    return re.compile(rf"[ \t]*([-+¯]?)(?:({whole})(?:{part})?|{part})[ \t]*")


class Numerals(NamedTuple):
    """The number format of a table. Numbers are read in units of their last decimal.

    decimals       the greatest number of decimals
    mark           the decimal sign; empty if the fields decide
    has_thousands  whether a gap may separate thousands
    empty          the number for an empty field; empty if such a field is refused
    dates          the form of dates; empty if there are none
    """

    decimals: int = 0
    mark: str = ""
    has_thousands: bool = False
    empty: str = ""
    dates: str = ""

    @property
    def is_whole(self) -> bool:
        """True for numbers without decimals and gaps."""
        return not (self.decimals or self.has_thousands)

    def readings(self) -> list[Numerals]:
        """Returns one format for each possible decimal sign."""
        return [self._replace(mark=mark) for mark in (MARKS if not self.mark and not self.is_whole else self.mark or ".")]

    def number(self, field: str) -> Optional[str]:
        """Returns the number in a field without leading zeros; None if the field is no number."""
        day = day_of(field, self.dates) if self.dates else None
        if day is not None:
            return day
        found = form(self.mark, self.decimals, self.has_thousands).fullmatch(field if field.strip(" \t") else self.empty)
        if not found:
            return None
        sign, whole, gap, part, part_alone = found.groups("")
        digits = (whole.replace(gap, "") if gap else whole) + (part or part_alone).ljust(self.decimals, "0")
        return SIGN_OF[sign] + (digits.lstrip("0") or "0")

    def numbers(self, fields: Sequence[str]) -> Tuple[Sequence[str], Optional[int]]:
        """Returns the numbers in fields and None, or the numbers before the first bad field and its place. Numbers have 64 bits."""
        if self.empty:
            fields = [field if field.strip(" \t") else self.empty for field in fields]
        looks_plain = all(self.number(field) for field in fields[:100])  # the wrong mark fails here already
        plain = self.plain_numbers(fields) if looks_plain else None
        if plain is not None:
            return plain, None
        numbers = []
        for place, field in enumerate(fields):
            number = self.number(field)
            if number is None or not is_within(number):
                return numbers, place
            numbers.append(number)
        return numbers, None

    def plain_numbers(self, fields: Sequence[str]) -> Optional[Sequence[str]]:
        """Fast path for fields of digits with an optional - and decimals; None if a field has another form."""
        if self.decimals and "" not in fields and "-" not in fields:
            return self.full_numbers(fields) or self.filled_numbers(fields)
        return fields if are_plain(fields) else None

    def full_numbers(self, fields: Sequence[str]) -> Optional[Sequence[str]]:
        """Fast path for numbers with all decimals: removes the mark."""
        text, end = "\n".join(fields), -self.decimals
        if text.count(self.mark) != len(fields) or {field[end - 1 : end] for field in fields} != {self.mark}:
            return None
        numbers = text.replace(self.mark, "").split("\n")
        return numbers if len(numbers) == len(fields) and are_plain(numbers) else None

    def filled_numbers(self, fields: Sequence[str]) -> Optional[Sequence[str]]:
        """Fast path for numbers with fewer decimals: appends zeros."""
        parts = [field.partition(self.mark) for field in fields]
        if any(len(part) > self.decimals or mark and not part for _, mark, part in parts):
            return None
        zeros = "0" * self.decimals
        numbers = [whole + (part + zeros)[: self.decimals] for whole, _, part in parts]
        return numbers if are_plain(numbers) else None


def is_within(number: str) -> bool:
    """Returns whether a number without leading zeros has 64 bits."""
    return len(number) <= 18 or len(number) <= 20 and LEAST <= int(number) <= GREATEST


def decimals_of(word: Optional[str]) -> int:
    """Returns the number after --decimals, 0 without the option; a Mistake for another word."""
    if word is None:
        return 0
    if not re.fullmatch("[0-9]{1,2}", word) or not 1 <= int(word) <= MOST_DECIMALS:
        raise Mistake(f"--decimals is followed by a number from 1 to {MOST_DECIMALS}")
    return int(word)


def with_decimals(items: Sequence[str], decimals: int, mark: str) -> List[str]:
    """Returns numbers of the program with - for ¯ and a decimal sign before their last `decimals` digits."""
    numbers = " ".join(items).replace("¯", "-").split(" ") if items else []
    if not decimals:
        return numbers
    filled = [number.zfill(decimals + 1 + (number[0] == "-")) for number in numbers]
    return [f"{number[:-decimals]}{mark}{number[-decimals:]}" for number in filled]
