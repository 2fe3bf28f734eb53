"""Lines that ]edit returns, watched names, and completed paths."""

from __future__ import annotations

from .rooms import Outcome, Room, Test, named_tests
from .screens import Screen


def edit(room: Room) -> Outcome:
    """]edit puts the line of a name at the prompt, once; typed keys follow it."""
    screen = Screen(room)
    for keys in (")DATA D`[1 2 3\n", "T`[+/D `- 2 ⍝ a comment\n", "D[2]`[9\n"):
        screen.keys(keys)
    asked = screen.keys("]edit T\n", "⍝ a comment")
    made = screen.keys("s\n"), screen.keys("]show T\n"), screen.keys("]edit D\n", "1 9 3"), screen.keys(" 4\n"), screen.keys("D\n")
    line = "T←+/D × 2 ⍝ a comment"
    wanted = "s\n", f"]show T\n{line}s\n", "]edit D\n      )DATA D←1 9 3", " 4\n", "D\n1 9 3 4\n"
    absent = screen.keys("]edit E\n")
    return (asked, made, absent, screen.end()[0]), (f"]edit T\n      {line}", wanted, "]edit E\nE is not there\n", 0)


def watch(room: Room, terminal: str) -> Outcome:
    """A watched name is shown after each change that reaches it, and after no other. Changed items are bold if the terminal has bold text."""
    room.environment["TERM"] = terminal
    room.put("a.apl", "D[1]←5\nD[2]←6\n")
    screen = Screen(room)
    for line in (")DATA D`[1 2 3\n", "T`[D`-2\n", "E`[1\n"):
        screen.keys(line)
    shown = [screen.keys(line) for line in ("]watch T\n", "D[2]`[9\n", "E`[2\n", "]undo\n", "]undo\n", "]load a.apl\n", "]undo\n")]
    rows = ["2 4 6", "2 *18* 6", "", "", "2 *4* 6", "*10* *12* 6", "*2* *4* 6"]
    bold = ["".join(f"\x1b[1m{part}\x1b[0m" if place % 2 else part for place, part in enumerate(row.split("*"))) for row in rows]
    plain = [row.replace("*", "") for row in rows]
    came = ["".join(line[3:] for line in text.splitlines() if line.startswith("T  ")) for text in shown]
    off = screen.keys("]watch --off\n"), screen.keys("D[1]`[7\n")
    return (came, off), (plain if terminal == "dumb" else bold, ("]watch --off\n", "D[1]←7\n"))


def completed_path(room: Room) -> Outcome:
    """Paths are completed across folders and blanks, which get backslashes; hidden files after a typed dot."""
    folder = room.folder / "my plans"
    folder.mkdir()
    room.put("my plans/it's june.apl", "JUNE←6\n")
    room.put(".hidden.apl", "HIDDEN←1\n")
    screen = Screen(room)
    begun = screen.keys("]load my\t", "plans/")
    shown = begun + screen.keys("it\t\n"), screen.keys(")NAMES\n"), screen.keys("]load .hid\t\n"), screen.keys(")NAMES\n")
    wanted = "]load my\\ plans/it\\'s\\ june.apl\n", ")NAMES\nJUNE\n", "]load .hidden.apl\n", ")NAMES\nJUNE\nHIDDEN\n"
    return (shown, screen.end()[0]), (wanted, 0)


def tests(_times: int) -> list[Test]:
    return [*[Test(f"watch: {terminal}", watch, (terminal,)) for terminal in ("dumb", "xterm")], *named_tests([edit, completed_path])]
