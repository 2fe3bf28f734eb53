"""The example of a planner's month, examples/month: 50,000 order lines, and a calendar in a workbook."""

from __future__ import annotations

import sys

from .rooms import TOP, Outcome, Room, Test, named_tests

FOLDER = TOP / "examples/month"


def with_orders(room: Room) -> None:
    """Copies the files of the example, and makes its orders."""
    for path in FOLDER.iterdir():
        room.put(path.name, path.read_bytes())
    room.run([sys.executable, "make_orders.py"])


def month_of_orders(room: Room) -> Outcome:
    """The report of the orders has labels, and its sums agree with the order lines."""
    with_orders(room)
    text = (room.folder / "orders.csv").read_text("cp1252").replace(".", "").replace(",", "")
    fields = [line.split(";") for line in text.splitlines()[1:]]
    cents, pieces = sum(int(field[5]) for field in fields), sum(int(field[4]) for field in fields)
    (room.folder / "totals.apl").write_text("+/BY_CUSTOMER\n+/,PIECES\n")
    status, printed, _ = room.call("month.apl", "totals.apl")
    return (len(fields), status, printed), (50000, 0, (FOLDER / "month.out").read_text() + f"{cents}\n{pieces}\n")


def month_with_calendar(room: Room) -> Outcome:
    """The calendar of the workbook beside the orders, and the report as a workbook. It needs openpyxl."""
    with_orders(room)
    status, printed, _ = room.call("month.apl", "calendar.apl")
    wanted = "".join((FOLDER / name).read_text() for name in ("month.out", "calendar.out"))
    lines = "]table P report.xlsx --sheet PLAN --header --columns 2-\n]load month.apl\n]load calendar.apl\n∧/,P=PLAN\n"
    return (status, printed, room.answers(lines)[-2:]), (0, wanted, "1\n")


def tests(_times: int) -> list[Test]:
    return named_tests([month_of_orders])
