"""The mark below the place of an error."""

from __future__ import annotations

import random
from typing import Optional
from unittest import mock

from sheet.answers import answer
from sheet.lines import Line
from sheet.places import Spot, spot_of
from sheet.program import Program
from sheet.session import Session

from .rooms import Outcome, Room, Test, named_tests
from .screens import Screen

DATA = [")DATA D←1 2 3", ")DATA M←2 3⍴⍳6", ")DATA C←'ab'", "T←D+1 2", ")DATA S←2"]

# A line, and the sign of it below which the mark stands: it is the one behind ▲. Where there is no ▲, there is no mark.
MARKED = [
    "D+▲Q",
    "A+▲Q⍝ Q",
    "Q[1;▲A]",
    "'Q'=▲Q",
    "A←1+▲A",
    ")OPEN 1 A←1+▲A",
    "▲⍋D",
    "D▲−1",
    "'⍋',▲⍋D",
    "A←▲(1+2",
    "(1+2▲]",
    ")DATA A←1,▲'abc",
    "D ▲D",
    "D[2]←▲-5",
    "1▲.5",
    "▲SUM(D)",
    "D▲(2)",
    "'a''b',D▲(2;3)",
    ")▲data A←1",
    "1 2 3▲[2]",
    ")OPEN 1 )DATA A←▲(1",
    "1 2▲+1 2 3",
    "1+1 2▲+1 2 3",
    "(1 2▲+1 2 3)+1",
    "((1 2▲+1 2 3)[1])÷0",
    "1▲÷0",
    "5,0÷1▲÷1-1",
    "D▲[4]",
    "1+M[3▲÷2;]",
    "M▲[9;'a']",
    "(1+M[1;])▲[4]",
    "M▲[1]",
    "1+▲+/[3]M",
    "D▲∘.÷0 1",
    "D▲+.×1 2",
    "1 2▲/D",
    "2+▲+\\C",
    "D▲,[5]D",
    "9223372036854775807▲+1",
    "2▲*64",
    "1+▲9223372036854775808",
    "D[▲99999999999999999999]←1",
    ")DATA A←1 2▲+D",
    ")OPEN 3 )DATA A←1 2▲+D",
    "D[▲4]←1",
    "M[1;▲9]←1",
    "M[▲¯1;9]←1",
    "M▲[1]←1",
    "D[1]←▲1 2",
    " D [ 1 ] ← ▲'a'⍝ ←",
    ")OPEN 1 D[▲0]←1",
    ")ROW D ▲'a'",
    ")ROW M ▲1 2",
    ")ROW ▲S 1",
    "1+1 2=3⍴'" + "a" * 4083 + "'",
    ")CSV C",
    "D ▲+(1 2 3 4)",
    "'日本'=▲Q",
]


def marked(room: Room, line: str) -> Outcome:
    """Compares the lines below the error with the line and the mark."""
    place, text = line.lstrip().find("▲"), line.replace("▲", "")
    columns = sum(2 if sign in "日本" else 1 for sign in text.lstrip()[:place])
    wanted = [f"  {text.strip()}"] + [f"  {' ' * columns}∧"] * (place >= 0)
    lines = room.messages(*DATA, text).splitlines()[1:3]
    return (lines[: len(wanted)], "∧" in lines[-1]), (wanted, place >= 0)


def session_of(room: Room) -> Session:
    """Returns a session with the sheet of DATA."""
    session = Session(Program([room.program]), lambda _: None, lambda _: None)
    session.program.start()
    for line in DATA:
        session.take(line)
    return session


def in_formula(room: Room) -> Outcome:
    """An error that arose in the formula of another name is shown there, and a check shows it once."""
    room.put("plan.apl", "\n".join([*DATA, "U←T×2"]))
    checked = room.call("--check", "plan.apl")[2]
    wanted = "line 6: LENGTH ERROR IN T\n  1+T\n  T←D+1 2\n     ∧\n  shapes: D: 3\n"
    return (room.messages(*DATA, "1+T"), checked), (wanted, "plan.apl:4: LENGTH ERROR IN T\n  T←D+1 2\n     ∧\n  shapes: D: 3\n")


def long_line(room: Room) -> Outcome:
    """Of a line that is wider than the terminal the part around the place is shown."""
    ones = "+1" * 100
    shown = [room.messages(line).splitlines()[1:3] for line in (f"Q{ones}", f"1{ones}+Q{ones}", f"1{ones}+Q")]
    places = [line.index("Q") - mark.index("∧") for line, mark in shown]
    ends = [(line[:5], line[-2:]) for line, _ in shown]
    return (places, ends, max(len(line) for line, _ in shown) <= 100), ([0] * 3, [("  Q+1", ".."), ("  ..+", ".."), ("  ..+", "+Q")], True)


def at_terminal(room: Room) -> Outcome:
    """Below a typed line the mark stands alone; where the line is wrapped, or several came at once, the line is shown again."""
    screen = Screen(room)
    shown = [screen.keys(line + "\n") for line in ("2+A+Q", "'日'+Q", "1" + "+1" * 100 + "+Q")]
    wanted = ["2+A+Q\n          ∧\nVALUE ERROR\n", "'日'+Q\n           ∧\nVALUE ERROR\n"]
    last = shown[2].partition("VALUE ERROR\n")[2].splitlines()
    absent = [part for part, text in zip(wanted, shown) if part not in text]
    return (absent, last[0][:4], last[0].find("Q"), screen.end()[0]), ([], "  ..", last[1].find("∧"), 0)


def slow_answer(room: Room) -> Outcome:
    """An expression whose answer took long is not asked for again, and of a quick one at most 12 questions are asked."""
    session = session_of(room)
    fault = answer(session.program, Line("((((((((((((((1 2+1 2 3)+1)+1)+1)+1)+1)+1)+1)+1)+1)+1)+1)+1)+1)+1"))
    with mock.patch.object(session.program, "ask", wraps=session.program.ask) as ask:
        spots = [spot_of(session, fault), ask.call_count]
        fault.seconds = 1
        spots += [spot_of(session, fault), ask.call_count]
    session.program.stop()
    return spots, [None, 12, None, 12]


MONADIC = ["-", "+", "÷", "⍳", "⍴", ",", "⌽", "⍉", "+/", "×\\", "~", "⌈⌿"]
DYADIC = ["+", "-", "×", "÷", "*", ",", "⍴", "↑", "↓", "/", "⌿", "∘.+", "+.×", "⍳", "∊", "∧", "|", "⌽", "⍪", "⊤", "⊥", "⍉"]
ATOMS = ["D", "M", "C", "S", "3", "0", "¯2", "1 2 3", "2 3", "'ab'", "''"]


def expression(chosen: random.Random, depth: int) -> str:
    """Returns a random expression; a function with an axis stands before parentheses."""
    end, length = operand(chosen, depth), chosen.randint(0, 3)
    for _ in range(length):
        if chosen.random() < 0.1:
            end = f"{chosen.choice(['+/', ',', '⌽'])}[{chosen.choice('123')}]({end})"
        elif chosen.random() < 0.4:
            end = chosen.choice(MONADIC) + end
        else:
            end = operand(chosen, depth) + chosen.choice(DYADIC) + end
    return end


def operand(chosen: random.Random, depth: int) -> str:
    kind = chosen.random()
    if depth == 0 or kind < 0.5:
        return chosen.choice(ATOMS)
    inside = f"({expression(chosen, depth - 1)})"
    if kind < 0.8:
        return inside
    positions = [expression(chosen, depth - 1) if chosen.random() < 0.8 else "" for _ in range(chosen.randint(1, 2))]
    return f"{chosen.choice(['D', 'M', inside])}[{';'.join(positions)}]"


def opening(text: str, place: int) -> int:
    """Returns the place of the sign that opens the parentheses or brackets which are closed here."""
    depth = 0
    for before in range(place, -1, -1):
        depth += (text[before] in ")]") - (text[before] in "([")
        if depth == 0:
            return before
    raise ValueError(text)


def group_end(text: str, place: int) -> int:
    """Returns where the expression ends in which the sign at this place stands."""
    depth = 0
    for behind in range(place, len(text)):
        depth += (text[behind] in "([") - (text[behind] in ")]")
        if depth < 0 or depth == 0 and text[behind] == ";":
            return behind
    return len(text)


def operand_start(text: str, end: int) -> int:
    """Returns where the operand begins that ends here."""
    place = end - 1
    while text[place] == "]":
        place = opening(text, place) - 1
    if text[place] in ")'":
        return opening(text, place) if text[place] == ")" else text.rindex("'", 0, place)
    while text[place].isdigit() and place and text[place - 1] in "0123456789 ¯":
        place = len(text[:place].rstrip("0123456789 ¯"))
    return place


def parts_of(spot: Spot) -> tuple[str, list[str]]:
    """Returns the part of the line that is to show the error of a place, and the arguments in it that are not to."""
    text, place = spot.text, spot.place
    if not spot.function:
        start, end, positions, begin = operand_start(text, place), group_end(text, place + 1), [], place + 1
        while text[end] == ";":
            positions.append(text[begin:end])
            begin, end = end + 1, group_end(text, end + 1)
        return text[start : end + 1], [text[start:place], *positions, text[begin:end]]
    end = group_end(text, place)
    has_left = place > 0 and (text[place - 1].isalnum() or text[place - 1] in ")]'")
    start = operand_start(text, place) if has_left else place
    return text[start:end], [text[start:place], text[place + len(spot.function) : end]]


def doubt(session: Session, line: str, fault: Optional[str], spot: Spot) -> list[str]:
    """Returns the parts of a line that do not answer as its mark says."""
    whole, arguments = parts_of(spot)
    shows = {part: session.program.ask(f"⍴⍴{part}") == [fault] for part in [whole, *filter(None, arguments)]}
    return [line, str(spot)] if not shows.pop(whole) or any(shows.values()) else []


def random_errors(room: Room, seed: int) -> Outcome:
    """At the mark of each error of values the program shows the error, and its arguments alone do not; most such errors have a mark."""
    session, chosen = session_of(room), random.Random(seed)
    wrong, marks, errors = [], 0, 0
    while errors < 150:
        line = expression(chosen, 2)
        answered = answer(session.program, Line(line))
        if answered.is_fault and answered.kind != "SYNTAX ERROR":
            spot = spot_of(session, answered)
            errors, marks = errors + 1, marks + (spot is not None)
            wrong += doubt(session, line, answered.kind, spot) if spot else []
    session.program.stop()
    return (wrong, marks > 140), ([], True)


def tests(_times: int) -> list[Test]:
    lines = [Test(f"mark: {line}", marked, (line,)) for line in MARKED]
    seeds = [Test(f"marks of random lines {seed}", random_errors, (seed,)) for seed in range(3)]
    return lines + seeds + named_tests([in_formula, long_line, at_terminal, slow_answer])
