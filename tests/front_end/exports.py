"""]csv and ]print: files and columns with labels, decimals and dates."""

from __future__ import annotations

import csv
import io
import random
from decimal import Decimal

from .rooms import Outcome, Room, Test, named_tests

SALES = ")DATA P←2 3⍴1250 399 ¯5 100000 7 0\n)DATA L←2 5⍴'bolt frame'\n)DATA Y←2024 2025 2026\nE←1÷0\n)DATA T←3 3⍴'JanFebMar'\n"
CASES = {  # lines after SALES, their output, the file t.csv, and a part of the messages
    "a file": ("]csv t.csv P\n", "", "1250,399,-5\n100000,7,0\n", "2 records written to t.csv\n"),
    "names and decimals": (
        "]csv t.csv P --rows L --titles Y --decimals 2\n",
        "",
        ",2024,2025,2026\nbolt,12.50,3.99,-0.05\nframe,1000.00,0.07,0.00\n",
        "3 records written",
    ),
    "decimal commas": ("]csv t.csv P --decimals 2 --comma --separator ;\n", "", "12,50;3,99;-0,05\n1000,00;0,07;0,00\n", "2 records"),
    "decimal commas in quotes": ("]csv t.csv P --decimals 1 --comma\n", "", '"125,0","39,9","-0,5"\n"10000,0","0,7","0,0"\n', "2 records"),
    "tabs": ("]csv t.csv P --titles T --separator tab\n", "", "Jan\tFeb\tMar\n1250\t399\t-5\n100000\t7\t0\n", "3 records"),
    "a vector": ("]csv t.csv Y\n", "", "2024,2025,2026\n", "1 record written"),
    "a number": (")DATA S←7\n]csv t.csv S\n", "", "7\n", "1 record written"),
    "no records": (")DATA N←0 3⍴0\n]csv t.csv N --titles Y\n", "", "2024,2025,2026\n", "1 record written"),
    "columns": (
        "]print P --rows L --titles Y --decimals 2\n",
        "          2024  2025   2026\nbolt     12.50  3.99  -0.05\nframe  1000.00  0.07   0.00\n",
        None,
        "",
    ),
    "columns alone": ("]print P\n", "  1250  399  -5\n100000    7   0\n", None, ""),
    "dates": (
        ")DATA A←46023 1\n]print A --dates DD.MM.YYYY\n]csv t.csv A --dates YYYY-MM-DD\n",
        "01.01.2026  31.12.1899\n",
        "2026-01-01,1899-12-31\n",
        "1 record",
    ),
    "no dates": (
        "]print P --dates DD/MM/YYYY\n)DATA A←9999999\n]print A --dates DD/MM/YYYY\n",
        "03/06/1903  02/02/1901  25/12/1899\n14/10/2173  06/01/1900  30/12/1899\n",
        None,
        "9999999 is the number of no day of the years 1 to 9999",
    ),
    "dates and decimals": (
        "]print P --dates DD.MM.YYYY --decimals 2\n",
        "",
        None,
        "--dates and --decimals do not go together",
    ),
    "an error": ("]csv t.csv E\n", "", None, "E shows DOMAIN ERROR IN E, and no array\n"),
    "no name": ("]print Q\n", "", None, "Q is not there\n"),
    "characters": ("]csv t.csv L\n", "", None, "L is characters; --rows and --titles take those\n"),
    "three axes": (")DATA C←2 2 2⍴0\n]csv t.csv C\n", "", None, "C has 3 axes, and a table has two\n"),
    "too many labels": ("]print P --rows Y\n", "", None, "Y has 3 labels, and there are 2 records\n"),
    "too few titles": ("]print P --titles L\n", "", None, "L has 2 labels, and there are 3 columns\n"),
    "a matrix of numbers as labels": ("]print P --rows P\n", "", None, "P has 6 labels, and there are 2 records\n"),
    "an error as labels": ("]print P --rows E\n", "", None, "E shows DOMAIN ERROR IN E, and no array\n"),
    "no decimals": ("]print P --decimals x\n", "", None, "--decimals is followed by a number from 1 to 18\n"),
    "a folder": ("]csv . P --replace\n", "", None, ". cannot be written: it is no ordinary file\n"),
    "a folder that is not there": ("]csv none/t.csv P\n", "", None, "none/t.csv cannot be written: No such file or directory\n"),
}


def export(room: Room, lines: str, output: str, file: str | None, said: str) -> Outcome:
    _, printed, messages = room.call(lines=SALES + lines)
    path = room.folder / "t.csv"
    return (printed, path.read_text() if path.exists() else None, said in messages or messages), (output, file, True)


def replaced_file(room: Room) -> Outcome:
    """An existing file stays without --replace; with it the old file is kept as t.csv~."""
    room.put("t.csv", "old\n")
    first = room.messages(SALES + "]csv t.csv P")
    kept = (room.folder / "t.csv").read_text()
    room.answers(SALES + "]csv t.csv P --replace")
    files = [(room.folder / name).read_text() for name in ("t.csv", "t.csv~")]
    advice = "t.csv is there already; --replace puts the new one in its place and keeps that file as t.csv~"
    return (advice in first, kept, files), (True, "old\n", ["1250,399,-5\n100000,7,0\n", "old\n"])


def checked_script(room: Room) -> Outcome:
    """--check writes no file."""
    room.put("s.apl", SALES.replace("E←1÷0\n", "") + "]csv t.csv P\n]print P\n")
    return (*room.call("--check", "s.apl"), (room.folder / "t.csv").exists()), (0, "", "", False)


def random_exports(room: Room) -> Outcome:
    """]csv writes the same decimals as Decimal, and ]table reads them back."""
    chosen, lines, wanted = random.Random(7), [], []
    for number in range(60):
        height, width, decimals = chosen.randint(1, 4), chosen.randint(1, 4), chosen.choice([0, 0, 1, 2, 5, 18])
        rows = [[chosen.choice([0, 1, -1, 5, -40, 1234567, 2**63 - 1, -(2**63)]) for _ in range(width)] for _ in range(height)]
        items = " ".join(str(it) for row in rows for it in row).replace("-", "¯")
        words = f" --decimals {decimals}" * bool(decimals) + " --comma" * chosen.choice([0, 1]) * bool(decimals)
        lines += [f")DATA A{number}←{height} {width}⍴{items}", f"]csv {number}.csv A{number} --separator ;{words}"]
        lines += [f"]table B{number} {number}.csv --separator ;{words}", f"∧/,A{number}=B{number}"]
        mark = "," if "--comma" in words else "."
        wanted.append([[f"{Decimal(it).scaleb(-decimals):.{decimals}f}".replace(".", mark) for it in row] for row in rows])
    answers = room.answers(*lines).split()
    came = [[*csv.reader(io.StringIO((room.folder / f"{number}.csv").read_text()), delimiter=";")] for number in range(60)]
    return ([pair for pair in zip(came, wanted) if pair[0] != pair[1]], answers), ([], ["1"] * 60)


def tests(_times: int) -> list[Test]:
    return [*(Test(f"export: {name}", export, row) for name, row in CASES.items()), *named_tests([replaced_file, checked_script, random_exports])]
