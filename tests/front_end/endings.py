"""Ends of a session: closed terminals, and signals at any time."""

from __future__ import annotations

import os
import random
import shlex
import shutil
import signal
import time

from .rooms import SECONDS, Outcome, Room, Test, named_tests
from .screens import PROMPT, Screen, wait_for_end


def hang_up(room: Room) -> Outcome:
    """SIGHUP keeps the sheet."""
    screen = Screen(room)
    screen.keys("A`[5\n")
    time.sleep(1)  # the key is read
    screen.process.send_signal(1)
    screen.read(lambda: False)
    return (screen.process.wait(SECONDS), room.kept()), (129, ["A←5\n"])


def closed_terminal(room: Room, times: int, shell: str) -> Outcome:
    """Closing the terminal of a shell keeps each line that was followed by a prompt."""
    lines, wrong = [f"A{number}←{number}\n" for number in range(30)], []
    for _ in range(times):
        shutil.rmtree(room.folder / "state", ignore_errors=True)
        screen = Screen(room, shell=shell)
        screen.keys(lines[0].replace("←", "`["))
        before = len(screen.shown)
        os.write(screen.master, "".join(lines[1:] * random.choice((1, 0))).replace("←", "`[").encode())
        until = time.monotonic() + random.random() / 4
        screen.read(lambda: time.monotonic() > until)
        shown = 1 + screen.shown.count(PROMPT, before)
        screen.close()
        kept = room.kept()
        if len(kept) != 1 or kept[0] not in ("".join(lines[:count]) for count in range(shown, len(lines) + 1)):
            wrong.append((shown, kept))
    return wrong, []


def killed_tmux_session(room: Room, times: int) -> Outcome:
    """The same if tmux ends a session with a shell that runs the front end."""
    tmux, logs = ["tmux", "-u", "-f", "/dev/null", "-S", str(room.folder / "socket")], []
    for _ in range(times):
        shutil.rmtree(room.folder / "state", ignore_errors=True)
        pipe, opening = room.watch()
        room.run([*tmux, "new-session", "-d", "-x", "200", "-y", "50", f"{opening}{shlex.join(room.words())}; true"])
        for keys, shown in (("", "Ctrl-D ends\n"), ("A`[5+1\nA\n", "\n6\n")):
            room.run([*tmux, "send-keys", "-l", keys.replace("\n", "\r")])
            begun = time.monotonic()
            while shown not in room.run([*tmux, "capture-pane", "-p"]).stdout:
                if time.monotonic() - begun > SECONDS:
                    raise TimeoutError(f"tmux does not show {shown}")
                time.sleep(0.05)
        time.sleep(random.random() / 4)
        room.run([*tmux, "kill-session"])
        wait_for_end(pipe)
        logs.append(room.kept())
    return logs, [["A←5+1\n"]] * times


ENDS = {"Ctrl-D": b"\x04", "]off": b"]off\n", "SIGTERM": signal.SIGTERM, "SIGHUP": signal.SIGHUP}


def signals_at_the_end(room: Room, times: int, end: bytes | signal.Signals) -> Outcome:
    """Signals of each kind right after the end of a session lose nothing, and show no traceback."""
    wrong = []
    for _ in range(times):
        shutil.rmtree(room.folder / "state", ignore_errors=True)
        screen = Screen(room)
        screen.keys("A`[5\n")
        if isinstance(end, bytes):
            os.write(screen.master, end)
        else:
            screen.process.send_signal(end)
        for sign in (signal.SIGINT, signal.SIGHUP, signal.SIGINT, signal.SIGTERM, signal.SIGHUP, signal.SIGTERM):
            screen.process.send_signal(sign)
            time.sleep(random.choice((0, 0.02)))
        screen.end()
        if room.kept() != ["A←5\n"] or "Traceback" in screen.shown:
            wrong.append((room.kept(), screen.shown))
    return wrong, []


def signals_at_any_time(room: Room, times: int, *signs: signal.Signals) -> Outcome:
    """Several signals in a row, at any time, do not cut the end off. A signal just before readline waits is seen at the next key."""
    logs = []
    for _ in range(times):
        shutil.rmtree(room.folder / "state", ignore_errors=True)
        screen = Screen(room)
        screen.keys("A`[5\n")
        for sign in signs:
            time.sleep(random.choice((0, random.random() / 100)))
            screen.process.send_signal(sign)
        screen.end()
        logs.append(room.kept())
    return logs, [["A←5\n"]] * times


DURING_A_COMPLETION = [(signal.SIGINT,), (signal.SIGHUP,), (signal.SIGINT, signal.SIGTERM)]


def signals_in_a_completion(room: Room, *signs: signal.Signals) -> Outcome:
    """Signals are seen while the files of a large folder are listed for a completion, where readline drops exceptions."""
    files = room.folder / "many"
    files.mkdir()
    for number in range(20000):
        (files / f"f{number}").touch()
    screen = Screen(room, program=room.fake())
    screen.keys("A`[5\n")
    os.write(screen.master, f"]load {files}/\t".encode())
    time.sleep(0.05)
    for sign in signs:
        screen.process.send_signal(sign)
    if signs == (signal.SIGINT,):
        screen.read(lambda: screen.shown.count(f"\n{PROMPT}") > 2)
        screen.keys("\n")
        screen.end()
    else:
        screen.read(lambda: False)
        screen.process.wait(SECONDS)
    return room.kept(), ["A←5\n"]


def interrupted_end(room: Room, times: int) -> Outcome:
    """Ctrl-C after Ctrl-D does not cut the end off either, with a sheet of 600,000 numbers.

    A terminal drops an unread Ctrl-D when Ctrl-C comes, so another one follows.
    """
    text, outcomes = "".join(f")DATA D{number}←{'7 ' * 2000}\n" for number in range(300)), []
    room.put("large.apl", text)
    for _ in range(times):
        shutil.rmtree(room.folder / "state", ignore_errors=True)
        screen = Screen(room, "large.apl", "-", program=room.fake())
        screen.keys("A`[5\n")
        os.write(screen.master, b"\x04")
        time.sleep(random.random() / 50)
        os.write(screen.master, b"\x03")
        time.sleep(random.random() / 50)
        screen.end()
        outcomes.append(room.kept() == [text + "A←5\n"])
    return outcomes, [True] * times


def tests(times: int) -> list[Test]:
    shells = [shell for shell in ("bash", "dash") if shutil.which(shell)]
    closed = [Test(f"closed terminal: {shell}", closed_terminal, (times, shell)) for shell in shells]
    closed += [Test("killed tmux session", killed_tmux_session, (times,))] * bool(shutil.which("tmux"))
    kept = [Test(f"signals at the end: {name}", signals_at_the_end, (times, end)) for name, end in ENDS.items()]
    pairs = [(signal.SIGTERM, signal.SIGHUP), (signal.SIGHUP, signal.SIGINT), (signal.SIGINT, signal.SIGTERM, signal.SIGINT)]
    kept += [Test(f"signals at any time: {signs}", signals_at_any_time, (3 * times, *signs)) for signs in pairs]
    kept += [Test(f"signals in a completion: {signs}", signals_in_a_completion, signs) for signs in DURING_A_COMPLETION]
    return [*named_tests([hang_up]), *closed, *kept, Test("interrupted end", interrupted_end, (3 * times,))]
