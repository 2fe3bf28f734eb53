"""Logs of sessions: no end of a session loses an accepted change, and ]recover goes on with it."""

from __future__ import annotations

import os
import random
import shutil
import signal
import time
from pathlib import Path
from typing import Optional, Tuple

from .rooms import Outcome, Room, Test, named_tests
from .screens import PROMPT, Screen

WAYS = {"SIGKILL": signal.SIGKILL, "SIGHUP": signal.SIGHUP, "SIGTERM": signal.SIGTERM, "closed terminal": None}
LINES = [f"A{number}←{number}\n" for number in range(12)]

# While the file `full` is there, files of data take half of each write, and no new file can be made.
FULL_DISK = """
import errno, os, stat, tempfile
full, write, mkstemp = {full!r}, os.write, tempfile.mkstemp

def refuse():
    raise OSError(errno.ENOSPC, os.strerror(errno.ENOSPC))

def write_half(file, raw):
    if stat.S_ISREG(os.fstat(file).st_mode) and os.path.exists(full):
        write(file, raw[: len(raw) // 2])
        refuse()
    return write(file, raw)

def make(*words, **more):
    return refuse() if os.path.exists(full) else mkstemp(*words, **more)

os.write, tempfile.mkstemp = write_half, make
"""
UNLOGGED = "this session is not logged: No space left on device; a crash would lose the changes from here on\n"


def typed(line: str) -> str:
    """Returns the keys of a line."""
    return line.replace("←", "`[")


def closing(room: Room, sign: Optional[signal.Signals], is_pasted: bool) -> Tuple[int, list[str]]:
    """Breaks a session off at a random moment; returns how many lines had a prompt behind them, and the lines in its logs."""
    shutil.rmtree(room.folder / "state", ignore_errors=True)
    screen, number = Screen(room), random.randint(0, len(LINES))
    begun = len(screen.shown)
    for line in LINES[: number * (not is_pasted)]:
        screen.keys(typed(line))
    os.write(screen.master, "".join(map(typed, LINES if is_pasted else LINES[number : number + 1])).encode())
    until = time.monotonic() + random.random() / 20
    screen.read(lambda: time.monotonic() > until)
    screen.break_off(sign)
    return screen.shown.count("\n" + PROMPT, begun), "".join(room.kept()).splitlines(True)


def broken_off(room: Room, times: int, sign: Optional[signal.Signals], is_pasted: bool) -> Outcome:
    """Each change behind which a prompt was shown is in the log, by whole lines, and comes back in the next session."""
    wrong = []
    for _ in range(times):
        shown, lines = closing(room, sign, is_pasted)
        names = [line.partition("←")[0] for line in lines]
        back = room.call(lines="]recover\n)NAMES\n")[1].split() if lines else []
        if len(lines) < shown or lines != LINES[: len(lines)] or back != names:
            wrong.append((shown, lines, back))
    return wrong, []


def changes_of_many_lines(room: Room) -> Outcome:
    """A table, a loaded file and a new name of several lines are one change each in the next session too, and in the one behind it."""
    room.put("t.csv", "1,2\n3,4\n")
    room.put("t.apl", ")ERASE A\nA`[5\n]table U t.csv\n".replace("`[", "←"))
    screen = Screen(room)
    lines = ["A←1", "B←A", ")DATA D←1 2", "D[1]←7", "]undo", "D[2]←8", "]table T t.csv", "]rename B C", "]load t.apl", "E←1", "]undo"]
    for line in lines:
        screen.keys(typed(line) + "\n")
    names = screen.keys("]names\n")
    screen.break_off(signal.SIGKILL)
    for _ in range(2):
        screen = Screen(room)
        screen.keys("]recover\n")
        again = screen.keys("]names\n")
        screen.break_off(signal.SIGKILL)
    screen = Screen(room)
    screen.keys("]recover\n")
    messages = [screen.keys("]undo\n").splitlines()[1], screen.keys(")NAMES\n").split()[1:]]
    messages += [screen.keys("]undo\n").splitlines()[-1] for _ in range(3)] + [screen.keys("D\n"), screen.keys(")NAMES\n")]
    titles = [f"taken back: {title}" for title in ("]rename B C", "]table T t.csv", "D[2]←8")]
    wanted = ["taken back: ]load t.apl", ["A", "D", "T", "C"], *titles, "D\n1 2\n", ")NAMES\nA\nB\nD\n"]
    return (again, messages, screen.end()[0]), (names, wanted, 0)


def home_of_a_recovered_sheet(room: Room, script: str, text: str, line: str) -> Outcome:
    """A sheet that is recovered comes from the same file as before: ]save needs no name, and writes that one."""
    room.put(script, text)
    screen = Screen(room, script, "-")
    screen.keys(typed(f"{line}\n"))
    screen.break_off(signal.SIGKILL)
    screen = Screen(room)
    screen.keys("]recover\n")
    messages = "saved in" in screen.keys("]save\n"), screen.end()[0]
    return (messages, (room.folder / script).read_text(), room.logs()), ((True, 0), f"{text}{line}\n", [])


def foreign_files(room: Room) -> Outcome:
    """Files that only look like logs are no logs: they are neither offered nor removed."""
    state = room.folder / "state/aplsheet"
    state.mkdir(parents=True)
    name = "session-20260101-000000-abcdefgh.apl"
    texts = {"session-plan.apl": "⍝ a note that is longer than the head of a log\n", name: "A←1\nB←2\n"}
    texts["session-20260101-000000-empty.apl"] = ""
    for folder in (room.folder, state):
        for file, text in texts.items():
            (folder / file).write_text(text)
    os.symlink("gone", state / "session-20260101-000000-symlink.apl")
    os.symlink(room.folder / name, state / "session-20260101-000001-symlink.apl")
    screen = Screen(room)
    messages = "not saved" in screen.shown, "there is no session 1 to be recovered" in screen.keys("]recover --forget\n")
    screen.keys("Z`[1\n")
    screen.break_off(signal.SIGKILL)
    offers = Screen(room).shown.count("]recover 1: the session of ")
    kept = [(folder / file).read_text() for folder in (room.folder, state) for file in texts]
    return (messages, offers, kept), ((False, True), 1, [*texts.values()] * 2)


def damaged(room: Room, damage: str) -> Outcome:
    """A log that a crash of the machine has damaged gives all changes before the damage."""
    state = room.folder / "state/aplsheet"
    state.mkdir(parents=True)
    head = "⍝ aplsheet session of 2026-01-01 00:00:00\n"
    (state / "session-20260101-000000-abcdefgh.apl").write_text(f"{head}A←1\nB←A+1\n{damage}")
    return room.call(lines="]recover\nB\n)NAMES\n")[:2], (0, "2\nA\nB\n")


DAMAGES = {"no bytes": "\0" * 500, "no bytes and a line": "\0" * 500 + "\nC←1\n", "no change": "A+\nC←1\n"}
DAMAGES.update({"a part of a group": "⍝ lines 3: ]table D\nC←1\n"})
DAMAGES.update({"nothing to redo": "⍝ redo 1: C←1\nC←1\n", "too many joined": "⍝ joined 3: ]load c\nC←1\n"})
DAMAGES.update({"a part of a line": "C←1", "no path": "⍝ saved 00: plan\nC←1\n"})


def full_disk(room: Room, first: int, last: int) -> Outcome:
    """A full disk gets one message; its changes are in the log as soon as there is room again."""
    full = room.folder / "full"
    room.customize(FULL_DISK.format(full=str(full)))
    full.touch()
    full.unlink() if first else None
    screen = Screen(room)
    for number, line in enumerate(LINES[:6], 1):
        full.touch() if number == first else None
        full.unlink() if number == last else None
        screen.keys(typed(line))
    messages = screen.shown.count(UNLOGGED), screen.shown.count("this session is logged again\n"), screen.shown.count("not logged")
    screen.break_off(signal.SIGKILL)
    return (messages, room.kept()), ((1, 1, 1), ["".join(LINES[:6])])


def end_with_a_full_disk(room: Room) -> Outcome:
    """The end of a session does not lose a sheet that no file has: it stays once, and says so."""
    full = room.folder / "full"
    room.customize(FULL_DISK.format(full=str(full)))
    screen = Screen(room)
    screen.keys("A`[5\n")
    full.touch()
    screen.keys("B`[6\n")
    stays = "the sheet is not saved, and no file can be written" in screen.keys("\x04")
    sheet = screen.keys("A,B\n")
    status, shown = screen.end()
    full.unlink()
    screen = Screen(room)
    screen.keys("A`[5\n")
    full.touch()
    screen.keys("B`[6\n")
    screen.keys("]off\n")
    full.unlink()
    again = screen.end()
    is_kept = "]recover goes on with it" in again[1] and "A←5\nB←6\n" in room.kept()
    came = stays, sheet, status, "the last changes are lost" in shown, again[0], is_kept
    return came, (True, "A,B\n5 6\n", 0, True, 0, True)


def remove_folder(room: Room) -> None:
    shutil.rmtree(room.folder / "state")


def remove_log(room: Room) -> None:
    room.logs()[-1].unlink()


def replace_folder(room: Room) -> None:
    remove_folder(room)
    (room.folder / "state").touch()


def rename_folder(room: Room) -> None:
    (room.folder / "state").rename(room.folder / "other")


LOSSES = [remove_folder, remove_log, replace_folder, rename_folder]


def lost_log(room: Room, number: int, is_last: bool) -> Outcome:
    """After the removal of the log or its folder, the next change begins a new log with all changes; so does the end."""
    screen = Screen(room)
    screen.keys("A`[5\n")
    LOSSES[number](room)
    if not is_last:
        screen.keys("B`[6\n")
        screen.break_off(signal.SIGKILL)
    else:
        messages = screen.end()[1]
        logs = [*room.logs(), *room.folder.glob("session-*.apl")]
        if len(logs) != 1 or str(logs[0]) not in messages:
            return (messages, logs), "the path of the only log"
    again = Screen(room)
    again.keys("]recover\n")
    return (again.keys("A\n"), again.keys(")NAMES\n")), ("A\n5\n", ")NAMES\nA\n" + "B\n" * (not is_last))


def recovered_twice(room: Room) -> Outcome:
    """Two sessions recover one sheet: the second finds none, and the log stays until another file has the sheet."""
    screen = Screen(room)
    screen.keys("A`[5\n")
    screen.break_off(signal.SIGKILL)
    full = room.folder / "full"
    room.customize(FULL_DISK.format(full=str(full)))
    first, second = Screen(room), Screen(room)
    full.touch()
    first.keys("]recover\n")
    before = [*filter(None, room.kept())]
    full.unlink()
    first.keys("B`[6\n")
    third = Screen(room)
    messages = second.keys("]recover 1 --forget\n"), third.keys("]recover\n")
    is_told = "forgotten" in messages[0], "there is no session 1" in messages[1]
    return (before, is_told, first.keys("A,B\n")), (["A←5\n"], (True, True), "A,B\n5 6\n")


def recovered_over_pipes(room: Room) -> Outcome:
    """Lines over pipes are not logged: so the log of a sheet that they recover stays."""
    screen = Screen(room)
    screen.keys("A`[5\n")
    screen.break_off(signal.SIGKILL)
    return ([room.call(lines="]recover\nA\n")[1] for _ in range(2)], room.kept()), (["5\n", "5\n"], ["A←5\n"])


def state_folder_that_is_none(room: Room, state: Optional[str]) -> Outcome:
    """A relative state folder is not made, and the log goes elsewhere."""
    room.environment.update({"XDG_STATE_HOME": "state"} if state else {"XDG_STATE_HOME": "", "HOME": "nowhere"})
    screen = Screen(room)
    screen.keys("A`[5\n")
    screen.break_off(signal.SIGKILL)
    return ([path.name[:7] for path in Path(room.folder).iterdir()], "no history" in screen.shown), (["session"], True)


def tests(times: int) -> list[Test]:
    ends = [(name, sign, is_pasted) for name, sign in WAYS.items() for is_pasted in (False, True)]
    broken = [Test(f"broken off: {name}{', pasted' * more}", broken_off, (times, sign, more)) for name, sign, more in ends]
    homes = {"a": ("a.apl", "⍝ a plan\nA←1\n", "B←2"), "of no lines": ("b.apl", "", "B←2"), "of two lines": ("a\nb.apl", "A←1\n", "B←2")}
    back = [Test(f"home of a recovered sheet: {name}", home_of_a_recovered_sheet, row) for name, row in homes.items()]
    times_full = ((0, 1), (0, 3), (1, 2), (1, 4), (2, 3), (2, 6))
    full = [Test(f"full disk: {first} to {last}", full_disk, (first, last)) for first, last in times_full]
    losses = [(number, call.__name__, is_last) for number, call in enumerate(LOSSES) for is_last in (False, True)]
    lost = [Test(f"lost log: {name}{', then the end' * is_last}", lost_log, (number, is_last)) for number, name, is_last in losses]
    none = [Test(f"state folder that is none: {state}", state_folder_that_is_none, (state,)) for state in ("state", None)]
    rest = named_tests([changes_of_many_lines, foreign_files, end_with_a_full_disk, recovered_twice, recovered_over_pipes])
    bad = [Test(f"damaged log: {name}", damaged, (damage,)) for name, damage in DAMAGES.items()]
    return [*broken, *bad, *back, *full, *lost, *none, *rest]
