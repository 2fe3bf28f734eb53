"""Random workbooks, which ]table reads as Decimal does. The module workbooks runs this test."""

from __future__ import annotations

import random
import re
from datetime import date, datetime, time
from decimal import Decimal
from typing import Any, Callable, NamedTuple, Optional

from sheet.cells import DIGITS
from sheet.workbooks import letters_of

from .numerals import Options, value, written
from .rooms import Outcome, Room
from .workbook_files import FORMULA, Rows, workbook_of


class Case(NamedTuple):
    """A random workbook: the words of ]table, and the items or the first refused cell."""

    words: str
    rows: Rows
    wanted: str


NUMBERS_AT_RANDOM: list[Callable[[random.Random], object]] = [
    lambda chosen: chosen.randint(-20, 2000),
    lambda chosen: chosen.randint(-20000, 20000) / 100,
    lambda chosen: chosen.randint(0, 10 ** chosen.randint(1, 17)),
    lambda chosen: round(chosen.uniform(-1000, 1000), chosen.randint(0, 4)),
    lambda chosen: chosen.randint(1, 999) * 10.0 ** chosen.randint(-20, 20),
    lambda chosen: chosen.choice([0.1 + 0.2, 1 / 3, 1.1 * 3, -0.0, 1e15, 2.5, 123456789012.125]),
]
OTHERS_AT_RANDOM = [None, True, False, "#N/A", "#DIV/0!", FORMULA, datetime(2026, 1, 31, 7), time(8), date(2026, 1, 31), date(1900, 1, 5), "x", "1;2"]


def random_cell(chosen: random.Random, options: Options) -> object:
    """Returns a value of a cell: mostly a number, or a text of one in the format of the options."""
    if chosen.random() < 0.03:
        return chosen.choice(OTHERS_AT_RANDOM)
    if chosen.random() < 0.3:
        return written(chosen, options).replace("\n", "")
    return chosen.choice(NUMBERS_AT_RANDOM[: 1 if chosen.random() < 0.7 else None])(chosen)


def value_of_cell(cell: object, mark: str, options: Options, has_dates: bool) -> Optional[int]:
    """Returns the number of a cell in units of the last decimal, by Decimal; None if it has none."""
    if isinstance(cell, bool) or isinstance(cell, (datetime, time)) or cell in ("#N/A", "#DIV/0!", FORMULA):
        return None
    if isinstance(cell, date):
        return (cell - date(1899, 12, 30)).days if has_dates else None
    if cell is None or isinstance(cell, str):
        return value(cell or "", mark, options)
    number = Decimal(repr(float(f"{cell:.16g}"))).normalize()  # openpyxl writes 16 digits
    scaled = number.scaleb(options.decimals)
    return int(scaled) if len(number.as_tuple().digits) <= DIGITS and scaled == scaled.to_integral_value() else None


def wanted_of(rows: Rows, options: Options, has_dates: bool, corner: tuple[int, int]) -> str:
    """Returns the items, or the name of the first refused cell, of a block with that corner."""
    cells = [cell for row in rows for cell in row]
    found = [[value_of_cell(cell, mark, options, has_dates) for cell in cells] for mark in options.mark or ",."]
    fits = [[number is not None and -(1 << 63) <= number < 1 << 63 for number in numbers] for numbers in found]
    well = [numbers for numbers, fit in zip(found, fits) if all(fit)]
    if len(well) == 2 and well[0] != well[1]:
        place = next(at for at, pair in enumerate(zip(*well)) if pair[0] != pair[1])
    elif well:
        return " ".join(map(str, well[0])).replace("-", "¯")
    else:
        place = max(fit.index(False) for fit in fits)
    return f"{letters_of(corner[1] + place % len(rows[0]))}{corner[0] + place // len(rows[0])}"


def random_case(chosen: random.Random) -> tuple[Case, bytes]:
    """Returns a random case, and its workbook; its block stands anywhere in the sheet, and some cells beside it have texts."""
    options = Options(chosen.choice([0, 0, 1, 2, 2, 4, 18]), chosen.choice(["", "", ",", "."]), chosen.random() < 0.3, chosen.choice([None, None, 0, -3]))
    has_dates = options.decimals == 0 and chosen.random() < 0.3
    height, width = chosen.randint(1, 5), chosen.randint(1, 4)
    corner = (chosen.randint(1, 4), chosen.randint(1, 30))
    rows = [[random_cell(chosen, options) for _ in range(width)] for _ in range(height)]
    merged = chosen.random() < 0.05 and width > 1
    last = f"{letters_of(corner[1] + width - 1)}{corner[0] + height - 1}"

    def put(sheet: Any) -> None:
        for at, row in enumerate(rows):
            for column, cell in enumerate(row):
                if cell is not None:
                    sheet.cell(corner[0] + at, corner[1] + column, cell)
        sheet.cell(corner[0] + height, corner[1] + width, "beside")
        if merged:
            sheet.merge_cells(start_row=corner[0], end_row=corner[0], start_column=corner[1], end_column=corner[1] + 1)

    raw = workbook_of([], put)
    words = options.words + " --dates DD.MM.YYYY" * has_dates + f" --range {letters_of(corner[1])}{corner[0]}:{last}"
    if merged:
        return Case(words, rows, f"{letters_of(corner[1])}{corner[0]}"), raw
    return Case(words, rows, wanted_of(rows, options, has_dates, corner)), raw


def random_workbooks(room: Room, seed: int, count: int) -> Outcome:
    """]table agrees with Decimal on random workbooks, also about the first refused cell."""
    chosen, cases, lines = random.Random(seed), [], []
    for number in range(count):
        case, raw = random_case(chosen)
        room.put(f"{number}.xlsx", raw)
        lines += [f"]table T{number} {number}.xlsx{case.words}", f",T{number}", "'next'"]
        cases.append(case)
    _, printed, messages = room.call(lines="\n".join(lines))
    answers = [answer.strip("\n") for answer in printed.split("next\n")]
    for number, place in re.findall(r" ([0-9]+)\.xlsx: Sheet!([A-Z]+[0-9]+) ", messages):
        answers[int(number)] += place
    return [(case, answer) for case, answer in zip(cases, answers) if case.wanted != answer], []
