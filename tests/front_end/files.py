"""Sheets in files, and scripts."""

from __future__ import annotations

import os
import re

from .rooms import Outcome, Room, Test, named_tests

# A sheet with everything that is hard to save.
HARD = [
    ")DATA WORDS←2 4⍴'it''sa b⍝'",
    ")DATA BELOW←¯5 0 9223372036854775807 ¯9223372036854775808",
    ")DATA CUBE←2 2 3⍴⍳12",
    "CUBE[2;1;3]←¯7",
    ")DATA NONE←⍳0",
    ")DATA NOTEXT←0⍴''",
    ")DATA FLAT←0 3⍴0",
    ")DATA THIN←2 0⍴''",
    ")DATA ONE←1⍴5",
    ")DATA LETTER←'a'",
    ")DATA QUOTE←''''",
    ")DATA SIGN←1⍴'é'",
    ")DATA NUMBER←¯3",
    ")DATA GROWN←1 2",
    ")ROW GROWN 3",
    "EARLY←+/LARGE ⍝ before what it refers to",
    ")DATA LARGE←3000⍴1000+⍳3000",
    "LARGE[7]←¯1",
    ")DATA LONG←2500⍴'it''s '",
    "LONG[2]←'é'",
    "GONE←1",
    ")ERASE GONE",
    "LATE←ABSENT+1",
    "⍙x_1←WORDS='a' ⍝ 'a text'",
]


def whole_sheet(room: Room, *lines: str) -> tuple[list[str], str]:
    """Returns the names of the sheet that these lines make, with the line, shape, kind and items of each."""
    names = room.answers(*lines, ")NAMES").split()
    asked = [question.format(name) for name in names for question in ("⍴{}", "0=1↑0⍴{}", ",{}")]
    return names, room.answers(*lines, "]names", *asked)


def save_and_load(room: Room) -> Outcome:
    before, messages = whole_sheet(room, *HARD), room.messages(*HARD, "]save a.apl")
    after, again = whole_sheet(room, "]load a.apl"), room.messages("]load a.apl", "]save b.apl")
    script = room.call("a.apl", "-", lines="]save c.apl\n")
    texts = [(room.folder / name).read_text() for name in ("a.apl", "b.apl", "c.apl")]
    longest = max(len(line.encode()) for line in texts[0].split("\n"))
    came = after, messages, again, script, texts[1:], longest <= 4096, "EARLY←+/LARGE ⍝ before what it refers to\n" in texts[0]
    saved = f"{len(before[0])} names saved in "
    return came, (before, f"{saved}a.apl\n", f"{saved}b.apl\n", (0, "", f"{saved}c.apl\n"), [texts[0]] * 2, True, True)


def save_keeps(room: Room) -> Outcome:
    """An existing file stays unchanged without --replace, and keeps its rights with it."""
    room.put("plan.apl", "B←2\n")
    (room.folder / "plan.apl").chmod(0o640)
    _, _, messages = room.call(lines="A←1\n]save plan.apl\n")
    first = (room.folder / "plan.apl").read_text(), "plan.apl is there already" in messages
    _, _, messages = room.call(lines="A←1\n]save plan.apl --replace\n]save no/plan.apl\n]save plan.apl/a\n]save .\n")
    second = (room.folder / "plan.apl").read_text(), (room.folder / "plan.apl").stat().st_mode & 0o777, messages.count("\nline ")
    return (first, second, sorted(os.listdir(room.folder))), (("B←2\n", True), ("A←1\n", 0o640, 3), ["plan.apl", "plan.apl~"])


def load_on_top(room: Room) -> Outcome:
    """A loaded file is one change. Its lines are answered, with their places. Files may load files, to a limit."""
    room.put("one.apl", "A←1\n)DATA A←Q\n]load two.apl\nA\n")
    room.put("two.apl", "B←A+1\nB\n]load absent.apl\n")
    room.put("self.apl", "]load self.apl\n")
    status, printed, messages = room.call(lines="C←1\n]load one.apl\n]undo\n)NAMES\n]load self.apl\n]load .\n")
    wanted = ["one.apl:2: VALUE ERROR", "two.apl:3: absent.apl cannot be read: No such file or directory", "taken back: ]load one.apl"]
    wanted += ["self.apl:1: self.apl is not loaded: it is being loaded already", "line 6: . cannot be read: Is a directory"]
    return (status, printed, [part for part in wanted if part not in messages]), (1, "2\n1\nC\n", [])


def scripts(room: Room) -> Outcome:
    """Scripts are answered in their order, with their places; - continues with standard input."""
    room.put("a.apl", "\ufeff)DATA D←1 2 3\n\nT←+/D\nT+Q\n")
    room.put("b.apl", "T\n]table E none.csv\n")
    first, second = room.call("a.apl", "b.apl", "-", lines="D[1]←9\nT\n1÷0\n"), room.call("absent.apl")
    messages = "a.apl:4: VALUE ERROR\n  T+Q\n    ∧\n  Q is not there\n"
    messages += "b.apl:2: none.csv cannot be read: No such file or directory\n  ]table E none.csv\n"
    messages += "line 3: DOMAIN ERROR\n  1÷0\n   ∧\n  a number divided by 0 is an error, but for 0÷0, which is 1\n"
    return (first, second), ((1, "6\n14\n", messages), (1, "", "sheet: absent.apl cannot be read: No such file or directory\n"))


def check(room: Room) -> Outcome:
    """--check reports only faults, with the names in whose formulas an error arose, and writes no file."""
    room.put("good.apl", ")DATA D←1 2\nD\nD[1]←5\n]save kept.apl\n")
    room.put("bad.apl", "D←1 2\nD\nT←+/DD\nU←T+1\nD[1]=\nD[1]←3\n")
    good, bad = room.call("--check", "good.apl"), room.call("--check", "bad.apl")
    places = re.findall("^bad.apl:.*", bad[2], re.MULTILINE)
    wanted = ["bad.apl:5: SYNTAX ERROR", "bad.apl:6: NOT DATA", "bad.apl:3: VALUE ERROR IN T"]
    return (good, bad[:2], places, "kept.apl" in os.listdir(room.folder)), ((0, "", ""), (1, ""), wanted, False)


def tests(_times: int) -> list[Test]:
    return named_tests([save_and_load, save_keeps, load_on_top, scripts, check])
