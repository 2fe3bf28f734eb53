"""Dates as the numbers of their days, as spreadsheets count them: 1 is the last day of 1899."""

from __future__ import annotations

import re
from datetime import date, timedelta
from functools import lru_cache
from typing import Optional, Pattern

from .errors import Mistake

DAY_0 = date(1899, 12, 30)
DATE_FORM = re.compile(r"(YYYY|MM|DD)([-./])(YYYY|MM|DD)\2(YYYY|MM|DD)")


@lru_cache(None)
def date_form(word: str) -> Pattern[str]:
    """Returns the pattern of a form as DD.MM.YYYY; a day and a month may have one digit."""
    parts = {"YYYY": "(?P<year>[0-9]{4})", "MM": "(?P<month>[0-9]{1,2})", "DD": "(?P<day>[0-9]{1,2})"}
    return re.compile("[ \t]*" + re.sub("YYYY|MM|DD", lambda part: parts[part[0]], re.escape(word)) + "[ \t]*")


def day_of(field: str, word: str) -> Optional[str]:
    """Returns the day number of a date; None if the field is no date of this form."""
    found = date_form(word).fullmatch(field)
    try:
        return str((date(int(found["year"]), int(found["month"]), int(found["day"])) - DAY_0).days) if found else None
    except ValueError:
        return None


def date_of(number: str, word: str) -> str:
    """Returns the date of a day number; a Mistake outside the years 1 to 9999."""
    try:
        day = DAY_0 + timedelta(days=int(number))
    except OverflowError:
        raise Mistake(f"{number} is the number of no day of the years 1 to 9999") from None
    return word.replace("YYYY", f"{day.year:04}").replace("MM", f"{day.month:02}").replace("DD", f"{day.day:02}")


def dates_of(word: Optional[str]) -> str:
    """Returns the form after --dates, empty without the option; a Mistake for another word."""
    found = DATE_FORM.fullmatch(word or "")
    if word is not None and not (found and len({found[1], found[3], found[4]}) == 3):
        raise Mistake("--dates is followed by the form of a date, as YYYY-MM-DD, DD.MM.YYYY or MM/DD/YYYY")
    return word or ""
