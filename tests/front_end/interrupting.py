"""Ctrl-C stops a running task. The sheet, its log and the program then agree."""

from __future__ import annotations

import os
import random
import re
import signal
import time

from .recovering import typed
from .rooms import Outcome, Room, Test, named_tests
from .screens import PROMPT, Screen


def printed_value(room: Room) -> Outcome:
    """Ctrl-C while a value is printed stops only the printing: the program goes on, and an open change stays."""
    screen = Screen(room)
    screen.keys("A`[5\n")
    screen.keys(")OPEN 3 A`[6\n")
    screen.keys("100000 1`r`i100000\n", " 1000\n")
    shown = screen.keys("\x03")
    messages = "STOPPED\n" in shown, " 100000\n" in shown, "given up" in shown
    return (messages, screen.keys(")COMMIT 3\n"), screen.keys("A\n"), screen.end()[0]), ((True, False, False), ")COMMIT 3\n", "A\n6\n", 0)


def waiting(room: Room, screen: Screen, line: str) -> str:
    """Types a line that never ends, and Ctrl-C once it runs; returns the screen from there on."""
    (room.folder / "wait").touch()
    os.write(screen.master, f"{typed(line)}\n".encode())
    room.wait_for("waits")
    shown = screen.keys("\x03")
    for name in ("wait", "waits"):
        (room.folder / name).unlink()
    return shown


def line_under_way(room: Room) -> Outcome:
    """Ctrl-C stops a line that is being answered; sheet and log stay unchanged, and a message names the lost open change."""
    screen = Screen(room, program=room.fake())
    for line in ("A`[5\n", ")OPEN 3 B`[6\n"):
        screen.keys(line)
    shown = waiting(room, screen, "SLOW←7")
    messages = "STOPPED\n" in shown, "the changes that were open are given up: 3\n" in shown
    return (messages, room.kept(), screen.keys("]undo\n"), screen.end()[0]), ((True, True), ["A←5\n"], "]undo\ntaken back: A←5\n", 0)


def long_answer(room: Room) -> Outcome:
    """From two seconds on, the terminal shows how long an answer takes; the text disappears when the answer comes."""
    screen = Screen(room, program=room.fake())
    (room.folder / "wait").touch()
    os.write(screen.master, b"SLOW\n")
    screen.read(lambda: "computing for 2 s; Ctrl-C stops it" in screen.shown)
    (room.folder / "wait").unlink()
    screen.read(lambda: screen.shown.endswith(f"VALUE SLOW\n{PROMPT}"))
    is_shown = re.search("; Ctrl-C stops it +VALUE SLOW\n", screen.shown) is not None
    return (is_shown, screen.keys("A\n"), screen.end()[0]), (True, "A\nVALUE A\n", 0)


def undo_under_way(room: Room) -> Outcome:
    """Ctrl-C stops an undo by a new program; sheet and log stay unchanged, and the next undo succeeds."""
    screen = Screen(room, program=room.fake())
    for line in ("A`[5\n", "SLOW`[6\n", ")ERASE A\n"):
        screen.keys(line)
    before = room.logs()[0].read_text()
    shown = waiting(room, screen, "]undo")
    messages = "STOPPED\n" in shown, "FAULT" in shown, room.logs()[0].read_text() == before
    undone = [screen.keys("]undo\n").splitlines()[-1] for _ in range(2)]
    wanted = ["taken back: )ERASE A", "taken back: SLOW←6"], "]redo\nmade again: SLOW←6\n", 0
    return (messages, undone, screen.keys("]redo\n"), screen.end()[0]), ((True, False, True), *wanted)


def file_under_way(room: Room) -> Outcome:
    """A file that is loaded is stopped; its changes so far are one change, in the next session too."""
    room.put("a.apl", "B←1\nC←2\nSLOW←3\nD←4\n")
    screen = Screen(room, program=room.fake())
    screen.keys("A`[5\n")
    messages = "a.apl:3: STOPPED\n" in waiting(room, screen, "]load a.apl")
    screen.break_off(signal.SIGKILL)
    screen = Screen(room, program=room.fake())
    screen.keys("]recover\n")
    undone = [screen.keys("]undo\n").splitlines()[-1] for _ in range(2)]
    return (messages, undone, screen.end()[0]), (True, ["taken back: ]load a.apl", "taken back: A←5"], 0)


def any_moment(room: Room, times: int) -> Outcome:
    """Ctrl-C at random moments while lines are pasted: the sheet equals its log, in names and values."""
    lines = [")DATA D←1 2 3", "T←+/D", "D[2]←7", ")ROW D 9", "]undo", "]redo", "]clear", "]undo", ")ERASE T", "]undo", "D[1]←8", "N←T+1"]
    wrong, asked = [], [")NAMES", "D", "T", "N"]
    for _ in range(times):
        screen = Screen(room)
        for line in random.sample(lines, len(lines)):
            os.write(screen.master, f"{typed(line)}\n".encode())
            until = time.monotonic() + random.random() / 50
            screen.read(lambda: time.monotonic() > until)
            screen.process.send_signal(signal.SIGINT)
        screen.keys("\n'SY','NC'\n", f"\nSYNC\n{PROMPT}")
        came = [screen.keys(f"{line}\n").splitlines()[1:] for line in asked]
        screen.break_off(signal.SIGKILL)
        again = Screen(room)
        again.keys("]recover\n")
        kept = [again.keys(f"{line}\n").splitlines()[1:] for line in asked]
        again.keys("]recover 1 --forget\n")
        again.keys("]clear\n")
        again.end()
        if came != kept or "FAULT" in screen.shown + again.shown:
            wrong.append((came, kept, screen.shown))
    return wrong, []


def tests(times: int) -> list[Test]:
    calls = [printed_value, line_under_way, long_answer, undo_under_way, file_under_way]
    return [Test("Ctrl-C at any moment", any_moment, (2 * times,)), *named_tests(calls)]
