"""]pivot and ]sort."""

from __future__ import annotations

import csv
import random
from collections import Counter

from .rooms import Outcome, Room, Test, named_tests

ORDERS = "customer;month;amount\nKant;10;12,50\nHegel;9;3,99\nKant;9;0,75\nKant;10;7,50\n"
PIVOT = "]pivot S t.csv --rows customer"
CASES = {  # a file, lines, their output, and a part of their messages
    "two axes": (
        ORDERS,
        f"{PIVOT} --columns month --sum amount --decimals 2\nS\nS_ROWS\nS_COLUMNS\n",
        "2000  75\n   0 399\nKant \nHegel\n10\n9 \n",
        "2 labels in S_ROWS by 2 labels in S_COLUMNS\n",
    ),
    "sorted": (
        ORDERS,
        f"{PIVOT} --columns month --sum amount --decimals 2 --sorted\nS\nS_ROWS\nS_COLUMNS\n",
        "399    0\n 75 2000\nHegel\nKant \n9 \n10\n",
        "S is in units of 0.01",
    ),
    "one axis": (ORDERS, f"{PIVOT} --count\nS\n⍴S\nS_ROWS\n)NAMES\n", "3 1\n2\nKant \nHegel\nS\nS_ROWS\n", "2 labels in S_ROWS\n"),
    "columns by number": (
        ORDERS,
        "]pivot S t.csv --rows 2 --columns 1 --count\nS\n",
        "1 1\n2 0\n".replace("1 1\n2 0", "2 0\n1 1"),
        "2 labels in S_ROWS by 2",
    ),
    "no sum": (ORDERS, f"{PIVOT}\n", "", "]pivot takes --rows with a title, and either --sum with one or --count\n"),
    "a sum and a count": (ORDERS, f"{PIVOT} --sum amount --count\n", "", "]pivot takes --rows with a title"),
    "no rows": (ORDERS, "]pivot S t.csv --count\n", "", "]pivot takes --rows with a title"),
    "several columns": (ORDERS, "]pivot S t.csv --rows customer,month --count\n", "", "'customer,month' names 2 columns, and one is wanted\n"),
    "no such title": (ORDERS, "]pivot S t.csv --rows client --count\n", "", "'client' names no columns; titles of the first record"),
    "an amount that is none": (ORDERS + "Kant;9;x\n", f"{PIVOT} --sum amount --decimals 2\n", "", "t.csv: record 6 field 3 is no number: 'x'\n"),
    "a total beyond 64 bits": (
        "k,a\nx,9223372036854775807\nx,1\n", "]pivot S t.csv --rows k --sum a\n", "", "the total of x is beyond 64 bits: 9223372036854775808\n",
    ),
    "a total that comes back": (
        "k,a\nx,9223372036854775807\nx,1\nx,-1\n",
        "]pivot S t.csv --rows k --sum a\nS\n⍴S\n",
        "9223372036854775807\n1\n",
        "",
    ),
    "too many totals": (
        "r,c\n" + "".join(f"{number},{number}\n" for number in range(1100)),
        "A←1\n]pivot S t.csv --rows r --columns c --count\n)NAMES\n",
        "A\n",
        "LIMIT ERROR",
    ),
    "one long label of many": (
        f"k\n{'b' * 100000}\n" + "".join(f"{number}\n" for number in range(100)),
        "A←1\n]pivot S t.csv --rows k --count\n)NAMES\n",
        "A\n",
        "LIMIT ERROR: 101 records of 100000 are not taken in\n",
    ),
    "a list of titles alone": ("k,a\n", "]pivot S t.csv --rows k --sum a\n⍴S\n⍴S_ROWS\n", "0\n0 0\n", "0 labels in S_ROWS"),
    "the order of a column": ("", ")DATA T←3 2⍴5 1 2 9 5 0\n]sort O T 1\nO\nT[O;]\n]sort O T 1 --down\nO\n", "2 1 3\n2 9\n5 1\n5 0\n1 3 2\n", ""),
    "the order of rows": ("", ")DATA T←3 2⍴5 1 2 9 5 0\n]sort O T\nO\n]sort O T --down\nO\n", "2 3 1\n1 3 2\n", ""),
    "the order of labels": ("", ")DATA L←3 3⍴'petAnnBo '\n]sort O L\nL[O;]\n", "Ann\nBo \npet\n", ""),
    "the order of a vector": ("", ")DATA V←3 ¯1 3 0\n]sort O V\nO\nV[O]\n]undo\n)NAMES\n", "2 4 1 3\n¯1 0 3 3\nV\n", ""),
    "no such column": ("", ")DATA T←3 2⍴0\n]sort O T 3\n", "", "T has 2 columns, and '3' is none of them\n"),
    "the order of a number": ("", ")DATA S←7\n]sort O S\n", "", "S has 0 axes, and no rows\n"),
    "the order of an error": ("", "E←1÷0\n]sort O E\n", "", "E shows DOMAIN ERROR IN E\n"),
    "no name": ("", ")DATA V←1 2\n]sort 1X V\n", "", "1X is no name\n"),
    "a list under no name": (ORDERS, "]pivot 1X t.csv --rows 1 --count\n", "", "1X is no name\n"),
    "the order of nothing": ("", "]sort O Q\n", "", "Q is not there\n"),
}


def grouping(room: Room, file: str, lines: str, output: str, said: str) -> Outcome:
    room.put("t.csv", file)
    _, printed, messages = room.call(lines=lines)
    return (printed, said in messages or messages), (output, True)


def saved_totals(room: Room) -> Outcome:
    """Saving keeps a ]pivot line, and writes the data of an edited total."""
    room.put("t.csv", ORDERS)
    script = f"{PIVOT} --columns month --count\nT←+/,S\n"
    room.put("s.apl", script)
    room.call("s.apl", "-", lines="]save\n")
    kept = (room.folder / "s.apl").read_text()
    room.call("s.apl", "-", lines="S[1;1]←7\n]save\n")
    status, shown = room.call("s.apl", "-", lines="S\nS_ROWS\nS_COLUMNS\nT\n")[:2]
    return (kept, status, shown), (script, 0, "7 1\n0 1\nKant \nHegel\n10\n9 \n9\n")


def random_lists(room: Room) -> Outcome:
    """]pivot agrees with a counter on random lists."""
    chosen, lines, wanted = random.Random(5), [], []
    for number in range(40):
        records = [(chosen.choice("abcdefg"), chosen.choice(["x", "yy", "z z"]), chosen.randint(-99, 99)) for _ in range(chosen.randint(1, 60))]
        with open(room.folder / f"{number}.csv", "w", newline="") as file:
            csv.writer(file).writerows([("k", "c", "a"), *records])
        totals: Counter[tuple[str, str]] = Counter()
        for key, other, amount in records:
            totals[key, other] += amount
        rows, columns = ([*dict.fromkeys(record[at] for record in records)] for at in (0, 1))
        wanted.append(" ".join(str(totals[key, other]) for key in rows for other in columns).replace("-", "¯"))
        lines += [f"]pivot S{number} {number}.csv --rows k --columns c --sum a", f",S{number}"]
    return room.answers(*lines).splitlines(), wanted


def tests(_times: int) -> list[Test]:
    return [*(Test(f"grouping: {name}", grouping, row) for name, row in CASES.items()), *named_tests([saved_totals, random_lists])]
