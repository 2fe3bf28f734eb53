"""Lines, and the messages about the last one."""

from __future__ import annotations

import os
import subprocess
import sys

from sheet.places import MARK

from .rooms import SECONDS, TOP, Outcome, Room, Test, named_tests

# Lines, and the messages about the last one.
NOTES = [
    ("D←1\nD[1]←-5", "¯5, by the keys `2"),
    (")DATA D←1 2\n)ROW D -5", "¯5, by the keys `2"),
    ("1 -5", "- subtracts here"),
    ("D=1 2", "a name is bound by ←"),
    (")DATA D=1 2", "by ←, by the keys `["),
    (")DATA D←1 2\nD[2]=5", "an item is edited by ←"),
    ("D<-1 2", "the arrow is one sign"),
    (")DATA D←1 2\nD[2]<-5", "the arrow is one sign"),
    ("D:=1", "the arrow is one sign"),
    ("1.5×2", "there is no decimal point"),
    ("1E6", "written out in digits"),
    ('"abc"', "single quotes"),
    ("T←5\nT[1]←3", "T is a formula, T←5; )DATA T←T makes data of it"),
    (")DATA D←1 2\nI←1\nD[I]←3", "an edit puts a literal into one item"),
    (")DATA D←1 2\nD[1]←1+1", "an edit puts a literal into one item"),
    (")DATA D←1 2\n)ROW D 1+1", "a row is a literal"),
    ("2x3", "times is ×"),
    ("1<=2", "≤ by the keys `4"),
    ("⇒ 5", "leave such lines out"),
    ("quit", "is ]off meant?"),
    (")OFF", "is ]off meant?"),
    (")vars", "is ]names meant?"),
    (")DATA T←1 2\n)CSV T > t.csv", "]csv FILE NAME writes a table file"),
    (")data D←1", "commands are in capitals: )DATA\n"),
    (")Names", "commands are in capitals: )NAMES\n"),
    (")COL D 1 2", "there is no )COL; )ROW puts a row behind D, and )DATA D←D,5 6 a column"),
    (")ERAS D", "there is no )ERAS; is )ERASE meant?"),
    (")SIC", "there is no )SIC; there are )DATA, )ROW,"),
    (")OPEN 1 )data D←1", "commands are in capitals: )DATA\n"),
    (")DATA T←3 4 5\nSUM(T)", "a total is +/T;"),
    ("T←sum (A)", "a total is +/T;"),
    ("SUM←5\nSUM(T)", "A,B joins"),
    ("AVERAGE(T)", "an average is a total by a count, (+/T)÷⍴T"),
    ("MAX(A;B)", "the greatest is ⌈/T; the greater of two is A⌈B"),
    ("MIN(T)", "the least is ⌊/T"),
    ("COUNT(T)", "⍴T is how many items there are"),
    ("IF(C;A;B)", "(C×A)+B×~C is A where C is 1, and B where it is 0"),
    ("=ROUND(T;2)", "(N-P|N)÷P is rounded down"),
    ("T(2;3)", "an index stands in brackets: T[2;3]\n"),
    ("1+T(2)", "an index stands in brackets: T[2]\n"),
    ("T(I;J)×2", "an index stands in brackets: T[I;J]\n"),
    ("[1 2 3]", "a list has no brackets: 1 2 3 is one"),
    (")DATA D←[1 2 3]", "a list has no brackets: 1 2 3 is one"),
    ("1 2 3[2]", "a literal stands in parentheses before an index: (1 2 3)[2]"),
    (")DATA P←12,50", "this joins two numbers; numbers are whole"),
    ("P←12,50", "this joins two numbers; numbers are whole"),
    (")DATA A←1\n)DATA B←2\n)ERASE A B", "this takes one name"),
    ("5−2", "only looks like -\n"),
    ("A −2", "only looks like -\n"),
    ("−A", "only looks like -\n"),
    ("D←−5", "only looks like ¯, by the keys `2"),
    ("2×−5", "only looks like ¯, by the keys `2"),
    ("1 −5", "only looks like ¯, by the keys `2"),
    (")DATA D←1 2\n)ROW D −5", "only looks like ¯, by the keys `2"),
    ("⍋5", "'⍋' is no sign of the language"),
    ("`v/0 1", "the backquote itself was typed"),
    ("(1+2", "( and ) do not pair"),
    ("(1+2]", "[ and ] do not pair"),
    ("1+2)×(3", "( and ) do not pair"),
    ("'⍝ and", "a text is not closed"),
    ("1\x1b", "U+001B is no sign of the language"),
    ("'abc", "a text is not closed"),
    ("A←1\nA A", "A,B joins"),
    (")DATA A←1 'a'", "A,B joins"),
    (")OPEN 1 )DATA A←Q", "\n  Q is not there\n"),
    (")OPEN 1 Q[1]←2", "Q is not there"),
    (")DATA D←1 2\n)OPEN 1 D[3]←2", "shapes: D: 2"),
    (")OPEN", "SYNTAX ERROR"),
    ("2*64", "a number is beyond 64 bits"),
    (")DATA DEMAND←1\nT←+/DEMND\nT", "DEMND is not there; is DEMAND meant?"),
    (")DATA DEMAND←1\nDEMAN[1]←2", "DEMAN is not there; is DEMAND meant?"),
    (")ERASE Q", "Q is not there"),
    ("]show Q", "Q is not there"),
    ("A←B\nB←C+1\nC←A", "C → A → B → C"),
    ("A←A+1", "A → A"),
    ("A←B\n)OPEN 1 B←A", "B → A → B"),
    (")DATA A←1 2\n)DATA B←1 2 3\nC←A+B\nC", "shapes: A: 2; B: 3"),
    (")DATA A←1 2\nA[3]←1", "shapes: A: 2"),
    ("7÷2", "the quotient is not whole"),
    ("5÷0", "a number divided by 0 is an error, but for 0÷0, which is 1"),
    ("2+(3 4÷0)×2", "a number divided by 0 is an error"),
    ("7÷2+0÷0", "the quotient is not whole"),
    ("7÷0+2", "the quotient is not whole"),
    ("1 2∘.÷0 1", "the quotient is not whole, and by 0"),
    ("(6÷2)∧1", "∧ takes 0 and 1 alone"),
    ("∧/1 2", "∧ takes 0 and 1 alone"),
    ("1∘.∨2", "∨ takes 0 and 1 alone"),
    ("(6÷2)+'a'", "+ takes numbers alone, and no characters"),
    ("+\\'ab'", "+ takes numbers alone, and no characters"),
    ("1 2,'a'", "numbers and characters do not join"),
    (")DATA A←'ab'\n)CSV A", "A is of characters"),
    (")COMMIT 1", "slots are 1 to 8"),
    ("A←1\n)OPEN 1 A←2\n)OPEN 1 A←3", "the slot holds a change"),
    ("A←1\nB←A+1\n)OPEN 1 A←2\n)COMMIT 1", "steps are left"),
    ("1+⍝" + "a" * 5000, "a line has at most 4096"),
    (")OPEN " + "1" * 4000, "a number is beyond 64 bits"),
    (")OPEN " + "1" * 5000, "a line has at most 4096"),
    ("+".join(f"Q{number}" for number in range(200)), "195 others are not there"),
]

# Lines that get no note, since they can be meant so.
PLAIN = ["1,200", ")DATA P←1,200", ")DATA P←12,50,3", "12,50", ")DATA DEMAND←1 2\n)ROW DEMAND 1", "+/[1]2 2⍴⍳4", "(1 2)[1]", "A←1\n2 -A"]

# Lines with an error and no note, because no note would be right for all such lines.
NO_HINT = ["⍲/⍳0", "⍳¯1", "2*¯1", "(6÷2)*¯1", "A←6÷3\n(A÷2)⍴¯1"]

# Lines that hints recommend, and the answer to the last one.
ADVICE = [
    (")DATA T←3 4 5\n(+/T)÷⍴T", "4"),
    (")DATA T←3 9 5\n⌈/T", "9"),
    (")DATA T←3 9 5\n+/T>4", "2"),
    ("C←1 0 1\nA←10\nB←20\n(C×A)+B×~C", "10 20 10"),
    (")DATA N←7 8\n)DATA P←4\n(N-P|N)÷P", "1 2"),
    (")DATA D←2 2⍴⍳4\n)DATA D←D,5 6\nD", "1 2 5\n3 4 6"),
    ("(1 2 3)[2]", "2"),
]

# Looks for slips in lines of some 200,000 characters. A search from each of them would take quadratic time.
LONG = """
from sheet.lines import Line
from sheet.slips import doubts_of, slip_of
lines = ["A" + " " * 200000 + "x", "A" * 200000 + " ;", "D[" + "] " * 100000 + "x", "1 " * 100000 + "x", "T(" + ";" * 200000]
lines += ["1" * 200000 + "x;", "A " * 60000 + "(", "D[1" + ";1" * 60000 + "]←1 x", ")ROW D" + " 1" * 100000 + " x", "'" * 200001]
lines += ["(" * 200000, "5" + " " * 200000 + "-;", "SUM" + " " * 200000 + ";", "A←" + "'a' " * 50000, ")" + " " * 200000 + ";"]
lines += [")" + "A" * 200000 + " ;"]
for line in map(Line, lines):
    slip_of(line, {}), doubts_of(line)
print(len(lines))
"""


def note(room: Room, lines: str, text: str) -> Outcome:
    messages = room.messages(*lines.split("\n"))
    return (text in messages or messages), True


def no_note(room: Room, lines: str) -> Outcome:
    """Returns the messages about the last line, without the line and its mark; none is wanted."""
    messages = room.messages(*lines.split("\n")).splitlines()
    notes = [line for line in messages if line.startswith("  ") or ": note:" in line]
    return [line for line in notes if line.strip() not in (lines.split("\n")[-1], MARK)], []


def advice(room: Room, lines: str, answer: str) -> Outcome:
    return room.answers(*lines.split("\n")), f"{answer}\n"


def long_lines(_room: Room) -> Outcome:
    """Hints on long lines come at once. For a line that is too long, only the length is checked."""
    words, variables = [sys.executable, "-B", "-c", LONG], {**os.environ, "PYTHONPATH": str(TOP / "share")}
    ran = subprocess.run(words, env=variables, capture_output=True, text=True, timeout=SECONDS)
    return ran.stdout + ran.stderr, "16\n"


def blanks(room: Room) -> Outcome:
    """The note on a line that is too long has only its length."""
    messages = room.messages("A" + " " * 400000 + "x").splitlines()
    wanted = "  the line has 400002 bytes, and a line has at most 4096; a table from a file comes in by ]table"
    return (messages[0], messages[2:]), ("line 1: LINE TOO LONG", [wanted])


def tests(_times: int) -> list[Test]:
    plain = [Test(f"no note: {lines}", no_note, (lines,)) for lines in PLAIN + NO_HINT]
    notes = [Test(f"note: {row[0][:60]}", note, row) for row in NOTES]
    return notes + plain + [Test(f"advice: {row[0]}", advice, row) for row in ADVICE] + named_tests([long_lines, blanks])
