"""Workbooks that ]export writes. The module workbooks runs these tests."""

from __future__ import annotations

import random
import re
import zipfile
from datetime import datetime
from importlib import import_module
from typing import Any, Dict, List, Optional

from .rooms import TOP, Outcome, Room, Test, named_tests

Sheets = Optional[Dict[str, List[List[Any]]]]  # rows of values by the titles of sheets; None if no workbook is written
LISTS = ")DATA P←2 3⍴1250 399 ¯5 100000 7 0 ⍝ in units of 0.01\n)DATA L←2 5⍴'=1+1 #N/A '\n)DATA Y←2024 2025 2026\n"
NUMBERS: list[list[Any]] = [[12.5, 3.99, -0.05], [1000, 0.07, 0]]
EXPORTS: dict[str, tuple[str, Sheets, str]] = {  # lines behind LISTS, the sheets that they write, and a part of their messages
    "decimals": ("]export t.xlsx P\n", {"P": NUMBERS}, "1 sheet written to t.xlsx\n"),
    "labels": (
        "]export t.xlsx P --rows L --titles Y\n",
        {"P": [[None, "2024", "2025", "2026"], ["=1+1", *NUMBERS[0]], ["#N/A", *NUMBERS[1]]]},
        "1 sheet written",
    ),
    "known labels": (
        ")DATA P_ROWS←2 1⍴'ab'\n)DATA P_COLUMNS←3 1⍴'xyz'\n]export t.xlsx P Y\n",
        {"P": [[None, "x", "y", "z"], ["a", *NUMBERS[0]], ["b", *NUMBERS[1]]], "Y": [[2024, 2025, 2026]]},
        "2 sheets written",
    ),
    "known labels of a vector": (")DATA Y_ROWS←3 1⍴'xyz'\n]export t.xlsx Y\n", {"Y": [["x", "y", "z"], [2024, 2025, 2026]]}, ""),
    "labels that do not fit": (")DATA P_ROWS←3 1⍴'abc'\n]export t.xlsx P\n", None, "P_ROWS has 3 labels, and there are 2 records\n"),
    "numbers that are no labels": ("P_ROWS←+/1 1\n]export t.xlsx P\n", {"P": NUMBERS, "Formulas": [["Name", "Formula", "Comment"], ["P_ROWS", "+/1 1", None]]}, ""),
    "formulas": (
        "T←+/P ⍝ totals, in units of 0.01\nU←-T\n]export t.xlsx T\n",
        {"T": [[16.44, 1000.07]], "Formulas": [["Name", "Formula", "Comment"], ["T", "+/P", "totals, in units of 0.01"], ["U", "-T", None]]},
        "2 sheets written",
    ),
    "other decimals": ("]export t.xlsx P --decimals 1\n", {"P": [[125, 39.9, -0.5], [10000, 0.7, 0]]}, ""),
    "dates": (
        ")DATA D←46023 61 60 2958465\n]export t.xlsx D --dates DD.MM.YYYY\n",
        {"D": [[datetime(2026, 1, 1), datetime(1900, 3, 1), "28.02.1900", datetime(9999, 12, 31)]]},
        "1 item written as text, since spreadsheets have no such number or date\n",
    ),
    "long numbers": (
        ")DATA B←9223372036854775807 ¯999999999999999 1200000000000000000 1000000000000001\n]export t.xlsx B\n",
        {"B": [["9223372036854775807", -999999999999999, 1.2e18, "1000000000000001"]]},
        "2 items written as text",
    ),
    "an error": ("E←1÷0\n]export t.xlsx P E\n", None, "E shows DOMAIN ERROR IN E, and no array\n"),
    "no name": ("]export t.xlsx Q\n", None, "Q is not there\n"),
    "no names": ("]export t.xlsx\n", None, "NAME is missing; the form is ]export FILE NAME.."),
    "characters": ("]export t.xlsx L\n", None, "L is characters; --rows and --titles take those\n"),
    "equal titles": (")DATA p←1\n]export t.xlsx P p\n", None, "a sheet for p has the title of the sheet P, since capitals do not count in titles\n"),
    "a title of its own": (")DATA FORMULAS←1\n]export t.xlsx FORMULAS\n", None, "a sheet for FORMULAS has the title of the sheet Formulas"),
    "a long title": (f")DATA {'N' * 32}←1\n]export t.xlsx {'N' * 32}\n", None, "has 32 characters, and the title of a sheet at most 31; ]rename shortens it\n"),
    "another kind of file": ("]export t.csv P\n", None, "the name of a workbook ends with .xlsx; ]csv writes other tables\n"),
    "a wide vector": (")DATA V←⍳16385\n]export t.xlsx V\n", None, "V takes 1 row of 16385 columns, and a sheet of a workbook has 1048576 of 16384\n"),
    "a label that no cell has": (")DATA M←1 2⍴'a\x07'\n]export t.xlsx Y --titles Y --rows M\n", None, "no cell of a workbook can have the text 'a\x07' of Y\n"),
    "labels of dates": (
        ")DATA D←46023\n)DATA M←1 17⍴'a label of 17 sign'\n]export t.xlsx D --rows M --titles M --dates DD.MM.YYYY\n",
        {"D": [[None, "a label of 17 sig"], ["a label of 17 sig", datetime(2026, 1, 1)]]},
        "1 sheet written to t.xlsx\n",
    ),
    "a workbook with macros": ("]export t.xlsm P\n", None, "the name of a workbook ends with .xlsx; ]csv writes other tables\n"),
    "dates and decimals": ("]export t.xlsx P --dates DD.MM.YYYY --decimals 2\n", None, "--dates and --decimals do not go together"),
    "a folder": ("]export absent/t.xlsx P\n", None, "absent/t.xlsx cannot be written: No such file or directory\n"),
}


def export(room: Room, lines: str, sheets: Sheets, said: str) -> Outcome:
    messages = room.messages(LISTS + lines)
    path = room.folder / "t.xlsx"
    book = import_module("openpyxl").load_workbook(path) if path.exists() else None
    came = {sheet.title: [[cell.value for cell in row] for row in sheet] for sheet in book} if book else None
    formulas = [cell.coordinate for sheet in book or () for row in sheet for cell in row if cell.data_type in ("f", "e")]
    return (came, formulas, said in messages or messages), (sheets, [], True)


def number_formats(room: Room) -> Outcome:
    """Decimals and dates are number formats. Texts that look like formulas are marked as texts."""
    room.answers(LISTS + "]export t.xlsx P --rows L\n]export v.xlsx Y\n)DATA D←46023\n]export u.xlsx D --dates YYYY-MM-DD\n")
    books = [import_module("openpyxl").load_workbook(room.folder / name).active for name in ("t.xlsx", "u.xlsx", "v.xlsx")]
    formats = [books[0]["B1"].number_format, books[1]["A1"].number_format, books[2]["A1"].number_format]
    return (formats, books[0]["A1"].quotePrefix, books[0].freeze_panes), (["0.00", "yyyy-mm-dd", "0"], True, "B1")


def replaced_workbook(room: Room) -> Outcome:
    """An existing workbook stays without --replace, and if a name has an error."""
    room.put("t.xlsx", "old\n")
    messages = room.messages(LISTS + "]export t.xlsx P\nE←1÷0\n]export t.xlsx E --replace")
    kept = (room.folder / "t.xlsx").read_text()
    room.answers(LISTS + "]export t.xlsx P --replace")
    said = ["t.xlsx is there already; --replace puts the new one in its place and keeps that file as t.xlsx~", "E shows DOMAIN ERROR IN E"]
    state = (kept, (room.folder / "t.xlsx~").read_text(), zipfile.is_zipfile(room.folder / "t.xlsx"))
    return ([text for text in said if text not in messages], state), ([], ("old\n", "old\n", True))


def checked_export(room: Room) -> Outcome:
    """--check writes no workbook."""
    room.put("s.apl", LISTS + "]export t.xlsx P\n")
    return (*room.call("--check", "s.apl"), (room.folder / "t.xlsx").exists()), (0, "", "", False)


def random_round_trips(room: Room) -> Outcome:
    """]table reads the workbooks of ]export."""
    chosen, lines = random.Random(11), []
    for number in range(30):
        height, width, decimals = chosen.randint(1, 4), chosen.randint(1, 4), chosen.choice([0, 0, 1, 2, 5, 18])
        items = [chosen.choice([0, 1, -1, 5, -40, 1234567, 10**15, 2**63 - 1, -(2**63), chosen.randint(-(10**16), 10**16)]) for _ in range(height * width)]
        words = f" --decimals {decimals}" * bool(decimals)
        lines += [f")DATA A{number}←{height} {width}⍴{' '.join(map(str, items))}".replace("-", "¯")]
        lines += [f"]export {number}.xlsx A{number}{words}", f"]table B{number} {number}.xlsx{words}", f"∧/,A{number}=B{number}"]
    return room.answers(*lines).split(), ["1"] * 30


def exports_of_tutorial(room: Room) -> Outcome:
    """The lines of docs/TUTORIAL.md that write files and read them again."""
    for path in (TOP / "examples/tutorial").iterdir():
        room.put(path.name, path.read_bytes())
    lines = re.findall(r"^- `(\](?:csv|export|table) [^`]*)`", (TOP / "docs/TUTORIAL.md").read_text(), re.MULTILINE)
    script = (room.folder / "income.apl").read_text().replace("examples/tutorial/", "")
    status, printed, _ = room.call(lines="\n".join([script, *lines, "∧/,AGAIN=PRICE"]))
    report = (room.folder / "report.csv").read_text()
    return (len(lines), status, printed.endswith("\n1\n"), report.splitlines()[2:3]), (3, 0, True, ["frame;182,29;2552,06"])


def export_tests() -> list[Test]:
    calls = [number_formats, replaced_workbook, checked_export, random_round_trips, exports_of_tutorial]
    return [*(Test(f"export of {name}", export, row) for name, row in EXPORTS.items()), *named_tests(calls)]
