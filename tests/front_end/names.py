"""The commands about names over pipes: ]rename, ]edit and ]watch."""

from __future__ import annotations

from .dialogues import dialogue
from .rooms import Outcome, Room, Test

RENAMING = {  # lines, their output, and their messages
    "formulas follow, texts and comments stay": (
        "A←1\nAB←A+1 ⍝ A and AB\nT←'A'\nU←A,(⍴'it''s A'),AB,A ⍝ 'A\n]rename A N\n]show AB\n]show T\n]show U\n]show N\nU\n)NAMES\n",
        "AB←N+1 ⍝ A and AB\nT←'A'\nU←N,(⍴'it''s A'),AB,N ⍝ 'A\nN←1\n1 6 2 1\nAB\nT\nU\nN\n",
        "",
    ),
    "a name inside another one stays": (
        "A←1\nA1←2\n∆A←3\nA_←4\nAA←A+A1+∆A+A_+⍙A\n]rename A N\n]show AA\n)NAMES\n",
        "AA←N+A1+∆A+A_+⍙A\nA1\n∆A\nA_\nAA\nN\n",
        "",
    ),
    "data keeps its line": (")DATA D←1 2 ⍝ of D\nT←+/D\n]rename D E\n]show E\n]show T\nT\n", ")DATA E←1 2 ⍝ of D\nT←+/E\n3\n", ""),
    "data that was edited": (")DATA D←1 2\nD[1]←5\nT←+/D\n]rename D E\n]show E\nE[2]←1\nT\n", ")DATA E←5 2\n6\n", ""),
    "data named DATA": (")DATA DATA←1 2\nT←+/DATA\n]rename DATA D\n]show D\n]show T\n", ")DATA D←1 2\nT←+/D\n", ""),
    "data that gets the name DATA": (")DATA D←1 2\nT←+/D\n]rename D DATA\n]show DATA\n]show T\n", ")DATA DATA←1 2\nT←+/DATA\n", ""),
    "a formula with blanks": ("  A  ← 1+Q ⍝ A\nB← A ⍝ A\n]rename A N\n]show N\n]show B\n", "N← 1+Q ⍝ A\nB← N ⍝ A\n", ""),
    "taken back": (
        "A←1\nB←A\n]rename A N\n]undo\n)NAMES\n]show B\n]redo\n]show B\n",
        "A\nB\nB←A\nB←N\n",
        "taken back: ]rename A N\nmade again: ]rename A N\n",
    ),
    "a name that formulas wait for": ("A←1\nB←N\n]rename A N\nB\n", "1\n", ""),
    "a cycle": ("A←N+1\nB←A\n]rename A N\n]show B\n)NAMES\n", "B←A\nA\nB\n", "line 3: CYCLE\n  ]rename A N\n"),
    "to a name that is there": ("A←1\nB←A\n]rename A B\n", "", "line 3: B is there already\n  ]rename A B\n"),
    "to no name": ("A←1\n]rename A 1B\n", "", "line 2: 1B is no name\n  ]rename A 1B\n"),
    "of a name that is not there": ("TOTAL←1\n]rename TOTALS N\n", "", "TOTALS is not there; is TOTAL meant?"),
    "a line that gets too long": (
        f"A←1\nB←{'A+' * 100}+/{'1 ' * 1900}\n]rename A {'N' * 60}\nB\n)NAMES\n",
        "2000\nA\nB\n",
        f"line 3: LINE TOO LONG\n  ]rename A {'N' * 60}\n",
    ),
}

EDITING = {
    "a formula": ("  A ← 1+Q ⍝ why\n]edit A\n", "A ← 1+Q ⍝ why\n", ""),
    "data": (")DATA D←2 2⍴⍳4\n]edit D\nD[1;2]←9\n]edit D\n", ")DATA D←2 2⍴⍳4\n)DATA D←2 2⍴1 9 3 4\n", ""),
    "characters": (")DATA D←'it''s'\nD[1]←''''\n]edit D\n", ")DATA D←'''t''s'\n", ""),
    "much data": (")DATA D←⍳5000\nD[1]←2\n]edit D\n", "", "D is data of more than one line; D[..]←.. edits an item of it"),
    "a name that is not there": ("A←1\n]edit B\n", "", "line 2: B is not there\n  ]edit B\n"),
}

WATCHED = ")DATA D←1 2\nH←D×10\nT←+/H\nX←5\n]watch T\n"  # this prints T  30
WATCHING = {
    "an edit": ("D[1]←4\n", "T  60\n"),
    "another name": ("X←6\n)DATA Y←1\n", ""),
    "a line that is refused": ("D[9]←1\nD\n", "1 2\n"),
    "a row and what takes it back": (")ROW D 3\n]undo\n]redo\n", "T  60\nT  30\nT  60\n"),
    "a formula between": ("H←D\n", "T  3\n"),
    "the formula itself": ("T←⌈/H\n]undo\n", "T  20\nT  30\n"),
    "a name that goes and comes": (")ERASE D\n]undo\n", "T  VALUE ERROR IN H\nT  30\n"),
    "a table": ("]table D t.csv\n", "T  30 70\n"),
    "a file": ("]load t.apl\n]undo\n", "T  50\nT  30\n"),
    "a file that does not reach it": ("]load x.apl\n", ""),
    "a change in a slot": (")OPEN 1 D[1]←4\n)STEP 1\n)STEP 1\n)COMMIT 1\n", "2\n1\n0\nT  60\n"),
    "several names": ("]watch X\nD[1]←4\nX←6\n", "X  5\nT  60\nX  6\n"),
    "all again": ("]watch X\n]watch\n", "X  5\nT  30\nX  5\n"),
    "another name for it": ("]rename T N\nD[1]←4\n", "N  30\nN  60\n"),
    "another name for what it reads": ("]rename H N\nD[1]←4\n", "T  30\nT  60\n"),
    "its end": ("]watch T --off\nD[1]←4\n", ""),
    "the end of all": ("]watch X\n]watch --off\nD[1]←4\nX←6\n", "X  5\n"),
    "no names left": ("]clear\n]undo\n", "T  VALUE ERROR\nT  30\n"),
}


def watching(room: Room, lines: str, printed: str) -> Outcome:
    """Watched names are shown after each change that reaches them, and after no other line."""
    room.put("t.csv", "1,2\n3,4\n")
    room.put("t.apl", "D[1]←4\nD[2]←1\n")
    room.put("x.apl", "X←1\nX←2\n")
    return room.answers(WATCHED + lines), "T  30\n" + printed


def tests(_times: int) -> list[Test]:
    dialogues = [Test(f"]rename: {name}", dialogue, row) for name, row in RENAMING.items()]
    dialogues += [Test(f"]edit: {name}", dialogue, row) for name, row in EDITING.items()]
    return [*dialogues, *(Test(f"]watch: {name}", watching, row) for name, row in WATCHING.items())]
