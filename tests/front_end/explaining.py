"""Why a name shows its value, as ]why tells it."""

from __future__ import annotations

from .rooms import Outcome, Room, Test, named_tests

SHARE = "SHARE←(100×TOTAL)÷+/TOTALS ⍝ in percent"
SHEET = [")DATA DEMAND←2 3⍴⍳6", "TOTAL←+/DEMAND", SHARE, "PLAN←SHARE×2", "REPORT←PLAN,TOTAL"]
AROSE = [f"  arose    {SHARE}", f"{31 * ' '}∧", "           TOTALS is not there; is TOTAL meant?"]
VALUE = "  value    VALUE ERROR IN SHARE"
READS = ["  reads    TOTAL   6 15", "           TOTALS  is not there"]

# A name, lines that follow SHEET, and the output of ]why.
SHOWN = [
    ("TOTAL", [], "TOTAL←+/DEMAND\n  value    6 15\n  reads    DEMAND  numbers 2 3: 1 2 3 4 5 6\n  read by  SHARE, REPORT\n"),
    ("DEMAND", [], "DEMAND is data: numbers 2 3\n  value    numbers 2 3: 1 2 3 4 5 6\n  read by  TOTAL\n"),
    ("A", [" A ← 5 ⍝ five"], "A ← 5 ⍝ five\n  value    5\n"),
    ("A", [")DATA A←'it''s'", "A[1]←'I'"], "A is data: characters 4\n  value    It's\n"),
    ("A", [")DATA A←''"], "A is data: characters 0\n"),
    ("A", [")DATA A←⍳201"], "A is data: numbers 201\n"),
    ("B", [")DATA A←⍳201", "B←+/A+¯1"], "B←+/A+¯1\n  value    20100\n  reads    A  numbers 201\n"),
    ("A", ["A←'VALUE ERROR IN Q'"], "A←'VALUE ERROR IN Q'\n  value    VALUE ERROR IN Q\n"),
    ("B", [")DATA A←2 2⍴'abcd'", "B←A"], "B←A\n  value    characters 2 2: abcd\n  reads    A  characters 2 2: abcd\n"),
    ("A", ["A←⍳60"], f"A←⍳60\n  value    {' '.join(map(str, range(1, 33)))} ..\n"),
    ("PLAN", [], ["PLAN←SHARE×2", VALUE, *AROSE, "  reads    SHARE  VALUE ERROR IN SHARE", "  read by  REPORT"]),
    ("SHARE", [], [SHARE, VALUE, *AROSE, *READS, "  read by  PLAN"]),
]


def shown(room: Room, name: str, lines: list[str], wanted: str | list[str]) -> Outcome:
    text = wanted if isinstance(wanted, str) else "".join(f"{line}\n" for line in wanted)
    return room.answers(*SHEET, *lines, f"]why {name}"), text


def nothing(room: Room) -> Outcome:
    return room.messages(*SHEET, "]why TOTALS"), "line 6: TOTALS is not there; is TOTAL meant?\n  ]why TOTALS\n"


def many_readers(room: Room) -> Outcome:
    """The names that read one are wrapped, and no line is wider than the terminal."""
    lines = room.answers("A←1", *(f"READER{number}←A" for number in range(40)), "]why A").splitlines()
    return (len(lines), max(map(len, lines)) <= 100, lines[2][:18], lines[-1].split()[-1]), (7, True, "  read by  READER0", "READER39")


def tests(_times: int) -> list[Test]:
    return [Test(f"why {row[0]} {row[1]}", shown, row) for row in SHOWN] + named_tests([nothing, many_readers])
