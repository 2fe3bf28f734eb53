"""Ends: of the server, of the program before, between and within answers, of memory, and of a slow line."""

from __future__ import annotations

import os
import sys
from pathlib import Path
from typing import List

from .benches import Bench
from .browser import SECONDS
from .sheets import DEMAND, PLAN, Sheet, Test

# Stands between the front end and a program. With a file `die` the next line about CRASH ends both in the midst of its answer; with a file
# `full`, lines about CRASH get NO MEMORY.
BETWEEN = """#!{python}
import os, subprocess, sys, time
child = subprocess.Popen([{program!r}, *sys.argv[1:]], stdin=subprocess.PIPE)
for line in sys.stdin.buffer:
    if b"CRASH" in line and os.path.exists({folder!r} + "/die"):
        time.sleep(0.3)
        os.unlink({folder!r} + "/die")
        os.write(1, b"12 3")
        child.kill()
        os._exit(3)
    if b"CRASH" in line and b"'" not in line and os.path.exists({folder!r} + "/full"):
        time.sleep(0.3)
        os.write(1, b"NO MEMORY\\n")
        continue
    child.stdin.write(line)
    child.stdin.flush()
child.stdin.close()
sys.exit(child.wait())
"""


def between(bench: Bench) -> Sheet:
    """Returns a sheet whose program can be made to die, or to have no memory."""
    path = bench.sheet.folder / "between"
    path.write_text(BETWEEN.format(python=sys.executable, program=bench.program, folder=str(bench.sheet.folder)))
    path.chmod(0o755)
    return Sheet(str(path), PLAN)


def child_of(sheet: Sheet) -> int:
    """Returns the number of the program's process."""
    children = Path(f"/proc/{sheet.process.pid}/task/{sheet.process.pid}/children").read_text().split()
    return int(children[-1])


def server_ends(bench: Bench) -> None:
    """A page whose server has ended says so, and so does a line that is entered then."""
    page = bench.page()
    bench.allows_an_end()
    page.until("TOTAL", [["395", "150", "390"]])
    bench.sheet.process.terminate()
    assert bench.sheet.process.wait(SECONDS) == 143
    page.until_text("#link", "not connected")
    page.enter("Q←1")
    page.until_text("#message", "NOT CONNECTED")
    assert not list((bench.sheet.folder / "aplsheet").glob("session-*"))  # nothing was changed


def program_dies(bench: Bench) -> None:
    """A program that was killed begins again with the sheet; the next edit goes on."""
    page = bench.page()
    page.click(page.cell("DEMAND", 2, 3))
    page.press("5", "0", "Enter")
    page.until("TOTAL", [["395", "155", "390"]])
    os.kill(child_of(bench.sheet), 9)
    bench.sheet.answer("look", desk=0, looks=[{"of": "ALL+0"}])  # the end is noticed here; the first line behind it would get a message
    page.press("51", "Enter")
    page.until("DEMAND", [DEMAND[0], ["30", "30", "50", "20", "25"], ["75", "60", "51", "90", "105"]])
    page.until("TOTAL", [["395", "155", "381"]])


def program_dies_within_an_answer(bench: Bench) -> None:
    """A line whose answer breaks off gets a message; the sheet is the one before it, and the next line is answered."""
    bench.allows_an_end()
    with between(bench) as sheet:
        page = bench.page(sheet)
        page.enter("DEMAND[1;1]←121")
        (bench.sheet.folder / "die").touch()
        page.enter("CRASH←1")
        page.until_text("#message", "PROGRAM FAILED")
        assert page.text("#history li") == "DEMAND[1;1]←121"
        page.enter("AFTER←ALL+1")
        page.until_value("AFTER", "937")


def no_memory(bench: Bench) -> None:
    """A line that is refused memory changes nothing, and the message says so; a panel in the same state shows it as its error."""
    bench.allows_an_end()
    with between(bench) as sheet:
        page = bench.page(sheet)
        page.enter("CRASH←1")
        page.until_value("CRASH", "1")
        (bench.sheet.folder / "full").touch()
        page.enter("CRASH[1]←2")
        page.until_text("#message", "NO MEMORY")
        (bench.sheet.folder / "full").unlink()
        page.enter("AFTER←CRASH+1")
        page.until_value("AFTER", "2")


def slow_line(bench: Bench) -> None:
    """A long line shows its progress and is stopped; the sheet is the one before it."""
    page = bench.page()
    page.enter(")DATA B←300000⍴9000000000000000000 ¯8999999999999999989 7777777777777777777")
    page.run("document.getElementById('line').value = arguments[0]; document.getElementById('line').focus()", "S←+/|\\B")
    page.press("Enter")
    page.wait("return !document.getElementById('progress').hidden")
    page.click("#stop")
    page.until_text("#message", "STOPPED")
    assert bench.sheet.see("S") == "VALUE ERROR" and bench.sheet.see("ALL") == ["935"]
    page.enter("S←5")
    page.until_value("S", "5")


def tests() -> List[Test]:
    return [Test(call, PLAN) for call in (server_ends, program_dies, program_dies_within_an_answer, no_memory, slow_line)]
