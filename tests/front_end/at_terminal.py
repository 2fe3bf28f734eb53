"""Lines that are typed at a terminal."""

from __future__ import annotations

import os
import re
import subprocess
import time

from .rooms import SECONDS, Outcome, Room, Test, named_tests
from .screens import PROMPT, Screen


SLOW = "+/|\\1000000⍴9000000000000000000 ¯8999999999999999989 7777777777777777777\n"  # takes minutes


def typed_lines(room: Room) -> Outcome:
    """The keys of the symbols, the answers, and Ctrl-D; the status is 0 even after an error."""
    screen = Screen(room)
    shown = [screen.keys(keys) for keys in (")DATA D`[1 2 3\n", "T`[+/D`-2\n", "T\n", "D[2]`[`25\n", "T\n", "Q\n", "``\n")]
    wanted = [")DATA D←1 2 3\n", "T←+/D×2\n", "T\n12\n", "D[2]←¯5\n", "T\n¯2\n", "Q\n      ∧\nVALUE ERROR\n  Q is not there\n"]
    typed = "a backquote and a key are a symbol where ]keys shows one; here the backquote itself was typed"
    wanted.append(f"`\n      ∧\nSYNTAX ERROR\n  {typed}\n")
    return (shown, screen.end()[0]), (wanted, 0)


def dropped_line(room: Room) -> Outcome:
    """Ctrl-C drops the line that is being typed, and nothing else."""
    screen = Screen(room)
    screen.keys("A`[5\n")
    screen.keys("A`[6", "6")
    time.sleep(1)  # readline shows a key before it reads the next one
    return (screen.keys("\x03"), screen.keys("A\n"), screen.end()[0]), ("\n", "A\n5\n", 0)


def stopped_line(room: Room) -> Outcome:
    """Ctrl-C stops a line that is being answered, and the sheet stays unchanged."""
    screen = Screen(room)
    screen.keys("A`[5\n")
    screen.keys(")OPEN 3 A`[6\n")
    slow = "+/|\\100000⍴9000000000000000000 ¯8999999999999999989 7777777777777777777\n"
    os.write(screen.master, slow.encode())
    screen.read(lambda: screen.shown.endswith("777\n"))
    time.sleep(1)
    stopped = screen.keys("\x03")
    return ("STOPPED\n" in stopped, "are given up: 3\n" in stopped, screen.keys("A\n"), screen.end()[0]), (True, True, "A\n5\n", 0)


def history(room: Room) -> Outcome:
    """Lines of an earlier session come back by the arrow keys, and lines that several sessions typed are all kept."""
    first, second = Screen(room), Screen(room)
    first.keys("A`[5\n")
    second.keys("B`[6\n")
    ends = first.end()[0], second.end()[0]
    third = Screen(room)
    shown = third.keys("\x1b[A\x1b[A\n")
    return (ends, "A←5" in shown, third.keys("A\n"), third.end()[0]), ((0, 0), True, "A\n5\n", 0)


def completion(room: Room) -> Outcome:
    """Names, words behind ) and ], and files are completed."""
    room.put("plan_of_june.apl", "PLAN←7\n")
    screen = Screen(room)
    screen.keys("DEMAND`[1 2\n")
    shown = [screen.keys(keys) for keys in ("]lo\tplan_o\t\n", "+/DEM\t\n", "(1+PL\t)×2\n", ")NAM\t\n", "]na\t\n")]
    texts = "+/DEMAND\n3\n", "(1+PLAN)×2\n16\n", ")NAMES \nDEMAND\nPLAN\n", "]names \nDEMAND  formula"
    return [text in answer for text, answer in zip(("]load plan_of_june.apl\n", *texts), shown)] + [screen.end()[0]], [True] * 5 + [0]


def unsaved_sheet(room: Room) -> Outcome:
    """The next session offers an unsaved sheet, and continues it with its changes. It does not offer a saved one."""
    screen = Screen(room)
    screen.keys("A`[5\nB`[6\nA`[7\n]undo\n", "taken back: A←7")
    status, shown = screen.end("]off\n")
    is_told = "the sheet was not saved; ]recover goes on with it, from " in shown
    again = Screen(room)
    offer = re.findall(r"^not saved: \]recover 1: the session of [-0-9 :]+, 2 changes$", again.shown, re.MULTILINE)
    recovered = again.keys("]recover\n"), again.keys("A+B\n"), again.keys("]redo\n"), again.keys("]save a.apl\n")
    ends = again.end()[0], Screen(room).shown + Screen(room, "a.apl", "-").shown
    wanted = "A+B\n11\n", "]redo\nmade again: A←7\n", "]save a.apl\n2 names saved in a.apl\n"
    return (status, is_told, len(offer), recovered[1:], ends[0], "not saved" in ends[1]), (0, True, 1, wanted, 0, False)


def several_unsaved_sheets(room: Room) -> Outcome:
    """Each unsaved session is offered, but not a running one, and not a forgotten one."""
    sheets = [Screen(room) for _ in range(3)]
    for number, screen in enumerate(sheets):
        screen.keys(f"A`[{number}\n")
        time.sleep(1.1)  # names of logs have their second
    sheets[0].end()
    sheets[1].process.kill()
    sheets[1].read(lambda: False)
    last = Screen(room)
    offers = len(re.findall(r"^not saved: ", last.shown, re.MULTILINE))
    messages = last.keys("]recover 3\n"), last.keys("]recover 1 --forget\n"), last.keys("]recover\n"), last.keys("A\n")
    wanted = "there is no session 3 to be recovered" in messages[0], "forgotten: the session of" in messages[1], messages[3]
    return (offers, wanted, sheets[2].keys("A\n")), (2, (True, True, "A\n0\n"), "A\n2\n")


def no_state_folder(room: Room) -> Outcome:
    """Without a state folder a message says that there is no history, and the log goes to the current folder."""
    room.environment["XDG_STATE_HOME"] = "/dev/null"
    screen = Screen(room)
    messages = "there is no history" in screen.shown
    screen.keys("A`[5\n")
    status, shown = screen.end()
    (log,) = room.folder.glob("session-*.apl")
    again = Screen(room)
    recovered = again.keys("]recover\nA\n", "A\n5\n")
    return (messages, status, str(log) in shown, bool(recovered)), (True, 0, True, True)


def script_and_terminal(room: Room) -> Outcome:
    """A script is answered before the typed lines; its errors have their places."""
    room.put("a.apl", "A←5\nQ\n")
    screen = Screen(room, "a.apl", "-")
    begun = screen.shown
    return ("a.apl:2: VALUE ERROR\n  Q\n  ∧\n" in begun, screen.keys("A\n"), screen.end()[0]), (True, "A\n5\n", 0)


def pasted_lines(room: Room) -> Outcome:
    """Pasted lines are answered one after the other."""
    screen = Screen(room)
    os.write(screen.master, "A`[5\nB`[A+1\nB\n".encode())
    screen.read(lambda: screen.shown.endswith("6\n" + PROMPT))
    return screen.end()[0], 0


def stopped_script(room: Room) -> Outcome:
    """Ctrl-C stops a loading script; its changes so far are one change. A script of the call ends with status 130."""
    room.put("slow.apl", "A←5\nB←6\nA\n" + SLOW + "C←7\n")
    screen = Screen(room)
    os.write(screen.master, b"]load slow.apl\n")
    screen.read(lambda: screen.shown.endswith("slow.apl\n5\n"))
    time.sleep(1)
    shown = screen.keys("\x03"), screen.keys(")NAMES\n"), screen.keys("]undo\n"), screen.end()[0]
    words, pipe = room.words("slow.apl"), subprocess.PIPE
    call = subprocess.Popen(words, cwd=room.folder, env=room.environment, stdout=pipe, stderr=pipe)
    assert call.stdout
    call.stdout.readline()
    time.sleep(1)
    call.send_signal(2)
    messages = call.communicate(timeout=SECONDS)[1].decode()
    wanted = ")NAMES\nA\nB\n", "]undo\ntaken back: ]load slow.apl\n", 0
    return (shown[1:], "slow.apl:4: STOPPED\n" in shown[0], messages[:20], call.returncode), (wanted, True, "slow.apl:4: STOPPED\n", 130)


def tests(_times: int) -> list[Test]:
    lines = [typed_lines, dropped_line, stopped_line, stopped_script, history, completion]
    return named_tests([*lines, unsaved_sheet, several_unsaved_sheets, no_state_folder, script_and_terminal, pasted_lines])
