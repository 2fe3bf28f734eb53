"""The desk beside the program: undo beside a replay, the names that a change reaches, several writers, and the terminal beside a page."""

from __future__ import annotations

import os
import pty
import random
import re
import select
import subprocess
import sys
import threading
import time
from typing import Any, Dict, List, Tuple

from sheet.program import Program
from sheet.session import Session
from sheet.terminal import PROMPT
from sheet.view.desk import Desk
from sheet.view.looks import Look
from sheet.view.whatifs import copy_of

from .benches import Bench
from .browser import SECONDS
from .sheets import ADDRESS, PLAN, TOP, Test

FORMS = [")DATA D←{a} {b} {c}", ")DATA D←D,{a}", "D[{i}]←{a}", ")ROW D {a}", "T←+/D", "T←D×{a}", "U←T+{b}", ")ERASE T", ")ERASE D", ")DATA M←2 2⍴⍳{i}"]
FORMS += ["M[{i};2]←{a}", "D[2]←{c}", ")DATA BIG←20 20⍴{a} {b}", "BIG[{i};1{c}]←{a}", ")DATA D←{a} {b},T"]
FORMS += [")ROW M {a} {b}", "M[{i};1]←{c}", ")DATA W←2 3⍴'ab''cde'", "W[{i};2]←'x'", ")ROW W 'k''⍝'", "D[1]←{a}", "T←{a}÷{b}", ")DATA T←D", "]undo", "]redo"]
WINDOW = [[0, 24], [0, 20]]


def desk_of(program: str) -> Desk:
    """Returns a desk with an empty sheet."""
    session = Session(Program([program]), print, print)
    session.program.environment["APLSHEET_TOLD"] = "1"
    session.program.start()
    return Desk(session)


def shown(program: Program, names: List[str]) -> List[Tuple[str, ...]]:
    """Returns shape, kind and value of names."""
    printed = program.ask_all([line for name in names for line in (f"⍴{name}", f"0=1↑0⍴{name}", name)])
    return [tuple(map(str, printed[at : at + 3])) for at in range(0, len(printed), 3)]


def page_beside_replay(bench: Bench) -> None:
    """After each of 200 random changes, the looks of a page are those of a new program that gets the lines of the journal.

    The page keeps the answers to its looks, and gets new ones only for those that the desk says were reached.
    """
    source, desk, other = random.Random(7), desk_of(bench.program), Program([bench.program])
    other.environment["APLSHEET_TOLD"] = "1"
    held: Dict[str, Any] = {}
    changes = 0
    while changes < 200:
        line = source.choice(FORMS).format(a=source.randint(0, 99), b=source.randint(0, 9), c=source.randint(0, 9), i=source.randint(1, 3))
        names = [*desk.session.journal.bindings]
        looks = [Look(name, WINDOW, tag=held.get(name, {}).get("tag", 0)) for name in names]
        outcome = desk.take(line, looks)
        if "reached" not in outcome:
            continue
        changes += 1
        keep(held, names, outcome["looks"])
        added = [name for name in desk.session.journal.bindings if name not in names]
        keep(held, added, desk.look([Look(name, WINDOW) for name in added])["looks"])
        names = [*desk.session.journal.bindings]
        if changes % 8 == 0:
            compare(desk, other, held, names, line)
        if changes % 20 == 0:
            compare_copy(desk, names)
    desk.end()
    desk.session.program.stop()
    other.stop()


def keep(held: Dict[str, Any], names: List[str], told: List[Any]) -> None:
    """Keeps the answers of looks that are new."""
    for name, answer in zip(names, told):
        if answer and len(answer) > 1:
            held[name] = answer


def compare(desk: Desk, other: Program, held: Dict[str, Any], names: List[str], line: str) -> None:
    """Compares the page and the program with a new program that gets the lines of the journal."""
    other.stop()
    other.start()
    other.ask_all(desk.session.journal.lines)
    assert other.ask(")NAMES") == desk.session.program.ask(")NAMES") == names, line
    assert shown(other, names) == shown(desk.session.program, names), f"{line}: the journal makes another sheet"
    for name, value in zip(names, other.ask_all(names)):
        told = held[name].get("lines", [held[name].get("error")])
        assert told == [value[0].partition(" IN ")[0]] if "error" in held[name] else told == value, (line, name, told, value)


def compare_copy(desk: Desk, names: List[str]) -> None:
    """Compares a what-if with the sheet of which it is a copy."""
    copy = copy_of(desk)
    assert copy.session.program.ask(")NAMES") == names, copy.session.journal.lines
    assert shown(copy.session.program, names) == shown(desk.session.program, names), copy.session.journal.lines
    copy.end()
    copy.session.program.stop()


def several_writers(bench: Bench) -> None:
    """Lines that come at once are each made once, and versions go up by one."""
    outcomes: List[Any] = []

    def write(number: int) -> None:
        for place in range(10):
            outcomes.append(bench.sheet.line(f"DEMAND[{number % 3 + 1};{place % 5 + 1}]←{number * 100 + place}"))
            bench.sheet.see("TOTAL")

    threads = [threading.Thread(target=write, args=(number,)) for number in range(6)]
    for thread in threads:
        thread.start()
    for thread in threads:
        thread.join()
    assert sorted(outcome["version"] for outcome in outcomes) == [*range(1, 61)]


def terminal_beside_page(bench: Bench) -> None:
    """After ]view, lines at the terminal show in the page, and changes in the page hold at the terminal."""
    main, side = pty.openpty()
    words = [sys.executable, str(TOP / "bin/sheet"), "--program", bench.program, str(bench.sheet.file), "-"]
    variables = {**bench.sheet.environment, "TERM": "dumb", "LC_ALL": "C.UTF-8", "INPUTRC": "/dev/null", "DISPLAY": "", "WAYLAND_DISPLAY": "", "BROWSER": ""}
    terminal = subprocess.Popen(words, stdin=side, stdout=side, stderr=side, env=variables, start_new_session=True)
    os.close(side)
    try:
        until(main, "Ctrl-D ends")
        os.write(main, b"]view\n")
        address = ADDRESS.search(until(main, "http://", "\n"))
        assert address
        page = bench.page()
        page.browser.go(address[0])
        page.wait("return window.aplsheet?.isBegun")
        page.until("TOTAL", [["395", "150", "390"]])
        os.write(main, "DEMAND[2;3]←50\n".encode())
        page.until("TOTAL", [["395", "155", "390"]])
        page.press("Control+k", "NEW`[ALL+1", "Enter")
        page.until_value("NEW", "941")
        os.write(main, b"NEW-1\n")
        until(main, "940", PROMPT)  # before the prompt, the terminal takes Ctrl-D for the end of a line
        bench.allows_an_end()
        os.write(main, b"\x04")
        until(main, "the sheet was not saved")
        terminal.wait(SECONDS)
        page.until_text("#link", "not connected")
    finally:
        terminal.kill()
        terminal.wait()
        os.close(main)


def until(terminal: int, *texts: str) -> str:
    """Reads from a terminal until it has printed a text, and then the others."""
    read, at, end = "", 0, time.monotonic() + SECONDS
    for text in texts:
        while text not in read[at:]:
            if not select.select([terminal], [], [], max(end - time.monotonic(), 0))[0]:
                raise AssertionError(f"{text} did not come: {read}")
            read += re.sub("\x1b\\[[^a-zA-Z]*[a-zA-Z]", "", os.read(terminal, 65536).decode("utf-8", "replace"))
        at = read.index(text, at) + len(text)
    return read


def tests() -> List[Test]:
    return [Test(page_beside_replay, None, False), Test(several_writers, PLAN, False), Test(terminal_beside_page, PLAN)]
