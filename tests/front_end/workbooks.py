"""Workbooks that ]table, ]labels and ]pivot read, and the list of all tests of workbooks.

They need openpyxl. If this Python lacks it and another one has it, that one runs these tests.

tests/workbooks/libreoffice.xlsx was converted by LibreOffice 7.4 (`soffice --convert-to xlsx`) from a workbook of openpyxl. LibreOffice
computed its formulas. Its sheets: Preise has a table with dates, formulas and a formatted empty cell; Fehler has a column of cells of
all kinds; Zwei Worte has merged cells. LibreOffice made tests/workbooks/saved_again.xlsx in the same way
from the workbook that ]export writes by the lines SAVED.
"""

from __future__ import annotations

import importlib.util
import io
import re
import subprocess
import zipfile
from datetime import date, datetime, time
from importlib import import_module
from typing import Any

from . import month, pages
from .rooms import SECONDS, TOP, Outcome, Room, Test, named_tests
from .workbook_exports import export_tests
from .workbook_files import FORMULA, Rows, workbook_of
from .workbooks_by_chance import random_workbooks

OTHER_PYTHON = "/usr/bin/python3"
LIBREOFFICE, SAVED_AGAIN = TOP / "tests/workbooks/libreoffice.xlsx", TOP / "tests/workbooks/saved_again.xlsx"
SAVED = """)DATA P←2 3⍴1250 399 ¯5 9223372036854775807 7 99999999999999 ⍝ in units of 0.01
)DATA P_ROWS←2 5⍴'=1+1 #N/A '
)DATA P_COLUMNS←3 4⍴'Größ2025 e2'
T←+⌿P[;2 3] ⍝ totals
]export ours.xlsx P
"""
PRICES: Rows = [["item", "price", "n", "day"], ["bolt", 0.35, 1200, date(2026, 1, 31)], ["frame", 182.29, -14, date(1900, 2, 1)], ["bolt", "1,50", None, None]]
TABLE = "]table A t.xlsx --header --columns"

CASES: dict[str, tuple[Rows, str, str, str]] = {  # rows of a sheet, lines, their output, and a part of their messages
    "decimals": (PRICES, f"{TABLE} price --decimals 2\n,A\n", "35 18229 150\n", "A is in units of 0.01"),
    "too many decimals": (PRICES, f"{TABLE} price --decimals 1\n", "", "t.xlsx: Sheet!B2 has 2 decimals: 0.35; --decimals 2 reads it\n"),
    "a text with the other sign": (PRICES, f"{TABLE} price --decimals 2 --point\n", "", "t.xlsx: Sheet!B4 is no number: '1,50'\n"),
    "numbers beside decimal commas": (PRICES, f"{TABLE} price --decimals 2 --comma\n,A\n", "35 18229 150\n", ""),
    "an empty cell": (PRICES, f"{TABLE} n\n", "", "t.xlsx: Sheet!C4 is no whole number: ''; --empty 0 reads an empty field as 0\n"),
    "an empty cell as a number": (PRICES, f"{TABLE} n --empty -1\n,A\n", "1200 ¯14 ¯1\n", ""),
    "dates": (PRICES, "]table A t.xlsx --range D2:D3 --dates DD.MM.YYYY\n,A\n", "46053 33\n", ""),
    "dates without the option": (PRICES, f"{TABLE} day\n", "", "t.xlsx: Sheet!D2 is a date, 2026-01-31; --dates YYYY-MM-DD reads it\n"),
    "labels": (PRICES, "]labels L t.xlsx item --header\nL\n]labels M t.xlsx n --header\nM\n", "bolt \nframe\nbolt \n1200\n-14 \n    \n", ""),
    "dates as labels": (PRICES, "]labels L t.xlsx 1 --range D2:D3\nL\n", "2026-01-31\n1900-02-01\n", ""),
    "totals": (
        PRICES,
        "]pivot S t.xlsx --rows item --sum price --decimals 2\n]print S --titles S_ROWS\n",
        "bolt   frame\n1.85  182.29\n",
        "S is in units of 0.01",
    ),
    "a block": ([[None, None, "x"], [None, 1, 2], [None, 3, 4], [None, 5, 6]], "]table A t.xlsx --range B2:C3\nA\n", "1 2\n3 4\n", ""),
    "a block to the last row": ([["a"], [1], [3], [None]], "]table A t.xlsx --range a2:$A\n,A\n", "1 3\n", ""),
    "a block beyond the content": ([[1]], "]table A t.xlsx --range A1:B2 --empty 0\nA\n", "1 0\n0 0\n", ""),
    "content within empty cells": ([[], [None, None, 7, None], [None, "", 8, 9], [None]], "]table A t.xlsx --empty 0\nA\n", "7 0\n8 9\n", ""),
    "an empty row": ([[1], [], [3]], "]table A t.xlsx\n", "", "t.xlsx: Sheet!A2 is no whole number: ''; --empty 0 reads an empty field as 0\n"),
    "an empty sheet": ([], "]table A t.xlsx\n⍴A\n]labels L t.xlsx 1\n", "0 0\n", "t.xlsx has no records, so it has no columns\n"),
    "no block": ([[1]], "]table A t.xlsx --range B2\n", "", "--range is followed by a block of cells, as B2:F40, or B2:F to the last row\n"),
    "a block that ends before it begins": ([[1]], "]table A t.xlsx --range B2:A1\n", "", "--range is followed by a block of cells"),
    "a block beyond a sheet": ([[1]], "]table A t.xlsx --range A1:ZZZ2\n", "", "--range is followed by a block of cells"),
    "a block of many cells": ([[1]], "]table A t.xlsx --range A1:XFD1048576\n", "", "more than 4194304 cells are not read; --range B2:F40 reads a block"),
    "a boolean": ([[1], [True]], "]table A t.xlsx\n", "", "t.xlsx: Sheet!A2 is TRUE, and neither a number nor a text\n"),
    "a boolean as a label": ([[False]], "]labels A t.xlsx 1\n", "", "t.xlsx: Sheet!A1 is FALSE, and neither a number nor a text\n"),
    "an error": ([["#N/A"]], "]table A t.xlsx --empty 0\n", "", "t.xlsx: Sheet!A1 is the error #N/A\n"),
    "an error as a label": ([["#REF!"]], "]labels A t.xlsx 1\n", "", "t.xlsx: Sheet!A1 is the error #REF!\n"),
    "a formula without a value": ([[1, FORMULA]], "]table A t.xlsx --empty 0\n", "", "t.xlsx: Sheet!B1 is a formula without a computed value; open"),
    "cells that are not taken": ([[1, FORMULA, True, "#N/A", 1 / 3, time(7, 30)]], "]table A t.xlsx --columns 1\nA\n", "1\n", ""),
    "a binary fraction": (
        [[1 / 3]],
        "]table A t.xlsx --decimals 16\n",
        "",
        "t.xlsx: Sheet!A1 has 16 digits: 0.3333333333333333; a workbook keeps 15, so round it in the workbook, or enter it as a text\n",
    ),
    "a long number": ([[1234567890123456]], "]table A t.xlsx\n", "", "t.xlsx: Sheet!A1 has 16 digits: 1234567890123456; a workbook keeps 15"),
    "a long text": ([["9223372036854775807", 123456789012345]], "]table A t.xlsx\nA\n", "9223372036854775807 123456789012345\n", ""),
    "powers of ten": ([[1e3, 1.5e-7, -0.0]], "]table A t.xlsx --decimals 8\nA\n", "100000000000 15 0\n", ""),
    "a number beyond 64 bits": ([[1e19]], "]table A t.xlsx\n", "", "t.xlsx: Sheet!A1 is beyond 64 bits: 10000000000000000000\n"),
    "many decimals": ([[1e-19]], "]table A t.xlsx --decimals 18\n", "", "t.xlsx: Sheet!A1 has 19 decimals: 0.0000000000000000001\n"),
    "a date with a time": ([[datetime(2026, 1, 31, 13, 30)]], "]table A t.xlsx --dates YYYY-MM-DD\n", "", "t.xlsx: Sheet!A1 is a time, 2026-01-31 13:30:00"),
    "a text with semicolons": ([["1;2"]], "]table A t.xlsx\n", "", "t.xlsx: Sheet!A1 is no whole number: '1;2'; if the first record has titles"),
    "a text of two lines": ([["a\nb"]], "]labels L t.xlsx 1 --one-line\nL\n]labels L t.xlsx 1\n", "a b\n", "t.xlsx: Sheet!A1 has more than one line"),
    "years as titles": ([[2025, 2026], [1, 2]], f"{TABLE} 2026\nA\n", "2\n", ""),
    "options of text files": ([[1]], "]table A t.xlsx --separator ;\n", "", "--separator and --encoding are for text files; a workbook has --sheet"),
    "no such sheet": ([[1]], "]table A t.xlsx --sheet Prices\n", "", "t.xlsx has no sheet 'Prices'; it has Sheet\n"),
    "a sheet of a text file": ([], "]table A t.csv --sheet Prices\n", "", "--sheet and --range are for workbooks, whose names end with .xlsx\n"),
    "no file": ([], "]table A absent.xlsx\n", "", "absent.xlsx cannot be read: No such file or directory\n"),
}
OF_LIBREOFFICE = {  # lines about tests/workbooks/libreoffice.xlsx, their output, and a part of their messages
    "]labels L t.xlsx Artikel --header --sheet Preise\nL\n": ("Größe 1\nÖse    \n=Winkel\n", ""),
    "]table A t.xlsx --header --columns Preis,Summe --decimals 2 --sheet Preise\nA\n": (" 1250  1500000\n  110    ¯1540\n18229 43749600\n", ""),
    "]table A t.xlsx --header --columns ab --dates YYYY-MM-DD --sheet Preise\n]print A --dates DD.MM.YYYY\n": ("31.01.2026\n28.02.2026\n29.02.2024\n", ""),
    "]table A t.xlsx --range B2:B5 --decimals 2 --sheet Preise\n": ("", "t.xlsx: Preise!B5 is no number: ''"),
    "]table A t.xlsx --range F2:F4 --sheet Preise\n": ("", "t.xlsx: Preise!F2 is TRUE"),
    "]table A t.xlsx\n": ("", "t.xlsx has 3 sheets; add --sheet and one of Preise, Fehler, Zwei Worte\n"),
    "]table A t.xlsx --sheet Fehler\n": ("", "t.xlsx: Fehler!A1 is the error #DIV/0!"),
    "]table A t.xlsx --range A3:A3 --sheet Fehler --decimals 1\n]print A\n": ("0.3\n", ""),
    "]table A t.xlsx --range A4:A5 --sheet Fehler --empty 0 --decimals 2\n,A\n": ("0 1250\n", ""),
    "]table A t.xlsx --range A7:A9 --sheet Fehler --thousands --decimals 1\n,A\n": ("", "Fehler!A8 is beyond 64 bits: 1000000000000000000000\n"),
    "]table A t.xlsx --range A9:A10 --sheet Fehler\n": ("", "Fehler!A10 is a time, 2026-01-31 13:30:00, and no whole day\n"),
    "]table A t.xlsx --range A11:A12 --sheet Fehler --decimals 2\n,A\n": ("19 0\n", ""),
    "]table A t.xlsx --range A1:C1 --sheet 'Zwei Worte'\nA\n": ("1 2 3\n", ""),
    "]table A t.xlsx --columns 2 --sheet 'Zwei Worte'\n": ("", "t.xlsx: Zwei Worte!B2 is merged with other cells, B2:C2; unmerge them\n"),
}


def reading(room: Room, rows: Rows, lines: str, output: str, said: str) -> Outcome:
    room.put("t.xlsx", workbook_of(rows))
    return answer_to(room, lines, said), (output, True)


def reading_libreoffice(room: Room, lines: str, output: str, said: str) -> Outcome:
    room.put("t.xlsx", LIBREOFFICE.read_bytes())
    return answer_to(room, lines, said), (output, True)


def answer_to(room: Room, lines: str, said: str) -> tuple[str, object]:
    """Returns the output for lines, and whether a text is among the messages, or else the messages."""
    _, printed, messages = room.call(lines=lines)
    return printed, said in messages or messages


def with_part(raw: bytes, part: str, old: bytes, new: bytes) -> bytes:
    """Returns a workbook with a text replaced in one of its parts."""
    result = io.BytesIO()
    with zipfile.ZipFile(io.BytesIO(raw)) as source, zipfile.ZipFile(result, "w", zipfile.ZIP_DEFLATED) as target:
        for name in source.namelist():
            target.writestr(name, source.read(name).replace(old, new) if name == part else source.read(name))
    return result.getvalue()


def digits_of_excel(room: Room) -> Outcome:
    """A number with 17 digits, as Excel writes 1.1, is the shortest decimal of its float; a stated size of a sheet is not trusted."""
    part = "xl/worksheets/sheet1.xml"
    raw = with_part(workbook_of([[1.1, 2], [3, 4]]), part, b"<v>1.1</v>", b"<v>1.1000000000000001</v>")
    room.put("t.xlsx", with_part(raw, part, b'ref="A1:B2"', b'ref="A1"'))
    return answer_to(room, "]table A t.xlsx --decimals 1\n,A\n", ""), ("11 20 30 40\n", True)


def dates_since_1904(room: Room) -> Outcome:
    """A date of a workbook whose days count from 1904 has the same day number."""

    def count_from_1904(sheet: Any) -> None:
        sheet.parent.epoch = import_module("openpyxl.utils.datetime").CALENDAR_MAC_1904

    room.put("t.xlsx", workbook_of([[date(2026, 1, 1)]], count_from_1904))
    is_marked = b"date1904" in zipfile.ZipFile(room.folder / "t.xlsx").read("xl/workbook.xml")
    return (is_marked, *answer_to(room, "]table A t.xlsx --dates YYYY-MM-DD\nA\n", "")), (True, "46023\n", True)


def files_that_are_none(room: Room) -> Outcome:
    """Text, an encrypted workbook, a large archive, one of a later version, a damaged workbook and a sparse one are refused."""
    raw = workbook_of([[1]])
    version = raw.rindex(b"PK\x01\x02") + 6
    size = version + 18
    damaged = with_part(raw, "xl/worksheets/sheet1.xml", b"</sheetData>", b"")
    files = {"text": b"1,2\n", "encrypted": b"\xd0\xcf\x11\xe0" + b"\0" * 600, "large": raw[:size] + b"\0\0\0\x7f" + raw[size + 4 :]}
    files.update(later=raw[:version] + b"\xff" + raw[version + 1 :], damaged=damaged)
    files.update(sparse=workbook_of([[1]], lambda sheet: sheet.cell(1048576, 16384, 2)))
    for name, content in files.items():
        room.put(f"{name}.xlsx", content)
    room.put("other.csv", raw)
    messages = room.messages(*(f"]table A {name}.xlsx" for name in files), "]table A other.csv")
    wanted = ["text.xlsx is no workbook (.xlsx)\n", "encrypted.xlsx is encrypted, or a workbook of an older format; save it as .xlsx"]
    wanted += ["large.xlsx is larger than 512 MiB when it is unpacked\n", "damaged.xlsx cannot be read as a workbook: ", "later.xlsx cannot be read", "more than 4194304 cells"]
    wanted += ["other.csv is no text, but a workbook or an archive; the name of a workbook ends with .xlsx\n"]
    return [text for text in wanted if text not in messages] and messages, []


def saved_by_libreoffice(room: Room) -> Outcome:
    """Numbers, labels and formulas of an export are the same when LibreOffice has read and saved them."""
    room.put("t.xlsx", SAVED_AGAIN.read_bytes())
    words = "t.xlsx --sheet P --header"
    lines = f"]table Q {words} --columns 2- --decimals 2\n]labels L {words} 1\n]labels F t.xlsx Formula --sheet Formulas --header\n"
    lines += f"]table R {words} --columns Größ,2025 --decimals 2\n∧/,P=Q\n∧/,P[;1 2]=R\n∧/,L=P_ROWS[;⍳4]\nF\n"
    return answer_to(room, SAVED + lines, "2 sheets written to ours.xlsx\n"), ("1\n1\n1\n+⌿P[;2 3]\n", True)


def no_library(room: Room) -> Outcome:
    """Without openpyxl one line says how to get it, and nothing else happens."""
    room.customize("import sys\nsys.modules['openpyxl'] = None\n")
    room.put("t.xlsx", workbook_of([[1]]))
    status, printed, messages = room.call(lines="A←1\n]table A t.xlsx\n]export u.xlsx A\nA\n")
    said = "a workbook needs openpyxl, which is not installed: apt install python3-openpyxl, or pip install openpyxl\n"
    return (status, printed, messages.count(said), (room.folder / "u.xlsx").exists()), (1, "1\n", 2, False)


def saved_lines(room: Room) -> Outcome:
    """]save keeps a ]table line about an unchanged workbook, and writes the data after a change of it."""
    room.put("t.xlsx", workbook_of([[1, 2]]))
    line = "]table A t.xlsx --sheet Sheet\n"
    room.put("s.apl", line)
    room.call("s.apl", "-", lines="]save\n")
    kept = (room.folder / "s.apl").read_text()
    room.call("s.apl", "-", lines="A[1;1]←7\n]save\n")
    return (kept, (room.folder / "s.apl").read_text()), (line, ")DATA A←1 2⍴7 2\n")


def run_by(room: Room, python: str) -> Outcome:
    """Runs these tests by another Python."""
    words = [python, str(TOP / "tests/sheet"), "--only", "workbook", room.program]
    ran = subprocess.run(words, capture_output=True, text=True, timeout=10 * SECONDS)
    is_well = re.fullmatch("[1-9][0-9]+ passed, 0 failed\n", ran.stdout)
    return is_well is not None or ran.stdout + ran.stderr, True


def own_tests() -> list[Test]:
    cases = [Test(name, reading, row) for name, row in CASES.items()]
    cases += [Test(f"LibreOffice, {lines.splitlines()[0]}", reading_libreoffice, (lines, *row)) for lines, row in OF_LIBREOFFICE.items()]
    cases += [Test(f"random {seed}", random_workbooks, (seed, 30)) for seed in range(2)]
    calls = [digits_of_excel, dates_since_1904, saved_by_libreoffice, files_that_are_none, no_library, saved_lines]
    return [*cases, *named_tests([*calls, month.month_with_calendar, pages.commands_of_manual])]


def tests(_times: int) -> list[Test]:
    if importlib.util.find_spec("openpyxl"):
        return [test._replace(name=f"workbook: {test.name}") for test in own_tests() + export_tests()]
    if subprocess.run([OTHER_PYTHON, "-c", "import openpyxl"], capture_output=True).returncode == 0:
        return [Test(f"workbooks by {OTHER_PYTHON}", run_by, (OTHER_PYTHON,))]
    print("there is no openpyxl: workbooks are not tried")
    return []
