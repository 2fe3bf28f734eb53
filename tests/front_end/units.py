"""Units of names, which are comments of their lines."""

from __future__ import annotations

from .rooms import Outcome, Room, Test, named_tests

PRICES = "12.50\n3.99\n"
READ = "]table P t.csv --decimals 2\n"
CASES = {  # lines, and their output
    "a table": (READ + "]print P\n]names\n", "12.50\n 3.99\nP  data  numbers 2 1 in units of 0.01\n"),
    "an edit and a row": (READ + "P[1;1]←5\n)ROW P 700\n]print P\n", "0.05\n3.99\n7.00\n"),
    "data and formulas by hand": (
        ")DATA D←1250 399 ⍝ prices, in units of 0.01\nT←+/D ⍝ in units of 0.01\nN←⍴D\n]print D\n]print T\n]print N\n",
        "12.50  3.99\n16.49\n2\n",
    ),
    "another number of decimals": (")DATA D←1250 ⍝ in units of 0.001\n]print D\n]print D --decimals 1\n", "1.250\n125.0\n"),
    "data that is bound anew": (READ + ")DATA P←7\n]print P\n]undo\n]print P\n]redo\n]print P\n", "7\n12.50\n 3.99\n7\n"),
    "a table that is read anew": (READ + "]table P t.csv --decimals 3\n]print P\n]undo\n]print P\n", "12.500\n 3.990\n12.50\n 3.99\n"),
    "another name": (READ + "]rename P Q\n]print Q\n]names\n", "12.50\n 3.99\nQ  data  numbers 2 1 in units of 0.01\n"),
    "a shown and an edited line": (READ + "P[1;1]←5\n]show P\n]edit P\n", ")DATA P←2 1⍴5 399 ⍝ in units of 0.01\n" * 2),
    "words in a text": ("T←'in units of 0.01'\n]names\n", "T  formula  characters 16  'in units of 0.01'\n"),
    "a file": (READ + "]csv o.csv P --comma --separator ;\n]table Q o.csv --decimals 2 --separator ;\n∧/,P=Q\n", "1\n"),
    "many rows": ("]table P many.csv --decimals 2\n]names\nP[7;1]←1\n]names\n", "P  data  numbers 3000 1 in units of 0.01\n" * 2),
    "totals of a list": ("]pivot S list.csv --rows k --sum a --decimals 2\n]print S --titles S_ROWS\n", "   x     y\n2.50  1.00\n"),
}


def units(room: Room, lines: str, output: str) -> Outcome:
    room.put("t.csv", PRICES)
    room.put("many.csv", "".join(f"{number}.25\n" for number in range(3000)))
    room.put("list.csv", "k,a\nx,1.25\ny,1\nx,1.25\n")
    return room.call(lines=lines)[:2], (0, output)


def saved_units(room: Room) -> Outcome:
    """Saving keeps the unit, and writes it once."""
    room.put("t.csv", PRICES)
    room.put("s.apl", ")DATA D←7 8 ⍝ per piece, in units of 0.1\n)DATA E←1\n")
    lines = READ + "P[1;1]←5\nD[1]←9\n]save\n"
    room.call("s.apl", "-", lines=lines)
    room.call("s.apl", "-", lines="P[2;1]←6\nD[2]←3\n]save\n")
    shown = room.call("s.apl", "-", lines="]print P\n]print D\n")[1]
    script = ")DATA D←9 3 ⍝ per piece, in units of 0.1\n)DATA E←1\n)DATA P←2 1⍴5 6 ⍝ in units of 0.01\n"
    return ((room.folder / "s.apl").read_text(), shown), (script, "0.05\n0.06\n0.9  0.3\n")


def tests(_times: int) -> list[Test]:
    return [*(Test(f"units: {name}", units, row) for name, row in CASES.items()), *named_tests([saved_units])]
