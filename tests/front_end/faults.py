"""Closed and full streams, invalid paths, bugs of the front end, and programs that hang: no traceback, and an end."""

from __future__ import annotations

import itertools
import os
import re
import signal
import subprocess
from pathlib import Path

from .rooms import SECONDS, Outcome, Room, Test, named_tests
from .screens import Screen

BUG = """
import sys
from pathlib import Path
sys.path.insert(0, {share!r})
from sheet import session

def fail(*words):
    raise {fault}

session.Session.undo = fail
"""
SHARE = str(Path(__file__).resolve().parents[2] / "share")


def closed_streams(room: Room, closing: str) -> Outcome:
    """With closed streams the lines are answered, and each open stream gets its part."""
    room.put("a.apl", "1+1\nQ\n]save kept.apl --replace\n")
    words = " ".join(map(str, room.words("a.apl", "-")))
    ran = room.run(f"{words} {closing}")
    said = "a.apl:2: VALUE ERROR\n  Q\n  ∧\n  Q is not there\n0 names saved in kept.apl\n"
    wanted = 1, "2\n" * (">&-" not in re.findall(r"(?<!2)>&-", closing)), said * ("2>&-" not in closing)
    return (ran.returncode, ran.stdout, ran.stderr), wanted


def full_output(room: Room) -> Outcome:
    """A full standard output gets a message; after a full standard error the answers go on."""
    words = " ".join(map(str, room.words()))
    ran = [room.run(f"{words} {to}", "1\nQ\n2\n") for to in ("> /dev/full", "2> /dev/full", "> /dev/full 2> /dev/full")]
    came = [(call.returncode, call.stdout, call.stderr) for call in ran]
    return came, [(1, "", "sheet: standard output: No space left on device\n"), (1, "1\n2\n", ""), (1, "", "")]


def output_at_a_terminal(room: Room, more: str, ends: bool) -> Outcome:
    """At a terminal, prompt and keys work with any standard output; if that fails, a message names the log."""
    screen = Screen(room, more=more)
    typed = screen.keys("A`[5\n")
    screen.keys(")DATA D`[100 1`r`i100\n")
    if not ends:
        screen.keys("A\n")
        screen.keys("D\n")
    shown = screen.end("A\nD\n" if ends else "\x04")[1]
    is_kept = "]recover goes on with it, from " in shown and "Traceback" not in screen.shown
    answers = (room.folder / "log").read_text().split() if "log" in more else []
    wanted = ["5", *map(str, range(1, 101))] if "log" in more else []
    return (typed, is_kept, room.kept(), answers), ("A←5\n", True, ["A←5\n)DATA D←100 1⍴⍳100\n"], wanted)


def paths_that_are_none(room: Room) -> Outcome:
    """Each command refuses a path with NUL."""
    lines = [f"]{word} 'a\0b'{rest}\n" for word, rest in (("load", ""), ("save", ""), ("save", " --replace"))]
    status, _, messages = room.call(lines="A←1\n" + "".join(lines) + "A\n")
    return (status, messages.count("cannot be"), messages.count("no file has such a name"), "FAULT" in messages), (1, 3, 3, False)


def lost_folder(room: Room) -> Outcome:
    """After the removal of the current folder, files are found by their absolute paths."""
    folder = room.folder / "gone"
    folder.mkdir()
    room.put("a.apl", "A←1\n")
    outside = Room(room.program, str(room.folder))
    outside.folder = folder
    screen = Screen(outside, "../a.apl", "-")
    screen.keys("B`[2\n")
    folder.rmdir()
    messages = [screen.keys(line) for line in ("]save b.apl\n", "]load b.apl\n", "]save\n", "B`[3\n")]
    screen.break_off(signal.SIGKILL)
    folder.mkdir()
    begun = Screen(outside)
    folder.rmdir()
    messages += [begun.keys("]recover\n"), begun.keys("]save\n"), begun.end()[1]]
    return (["FAULT" in text or "Traceback" in text for text in messages], (room.folder / "a.apl").read_text()), ([False] * 7, "A←1\nB←3\n")


def bug_in_a_command(room: Room, fault: str) -> Outcome:
    """A fault of the front end itself gets a message with its place; the sheet stays unchanged, and the session goes on."""
    room.customize(BUG.format(share=SHARE, fault=fault))
    status, printed, messages = room.call(lines="A←1\n]undo\nB←A+1\nB\n)NAMES\n")
    kind = fault.partition("(")[0]
    place = re.search(rf"^line 2: FAULT OF THE FRONT END: {kind}: .*\(sitecustomize.py:8\)\n  ", messages, re.MULTILINE)
    return (status, printed, bool(place), messages.count("FAULT")), (1, "2\nA\nB\n", True, 1)


def end_in_a_file(room: Room) -> Outcome:
    """]off in a file that is loaded ends that file alone, and a file that loads itself in each line comes to an end."""
    room.put("a.apl", "A←1\n]off\nA←2\n")
    room.put("self.apl", "]load self.apl\n]load ./self.apl\nS←1\n")
    os.link(room.folder / "self.apl", room.folder / "same.apl")
    os.symlink("self.apl", room.folder / "link.apl")
    room.put("pairs.apl", "]load same.apl\n]load link.apl\nP←1\n")
    status, printed, messages = room.call(lines="]load a.apl\nA\n]load self.apl\n]load pairs.apl\n)NAMES\n")
    return (status, printed, messages.count("it is being loaded already")), (1, "1\nA\nS\nP\n", 6)


def pipe_that_is_loaded(room: Room) -> Outcome:
    """A pipe is no ordinary file; nobody is waited for who writes into it."""
    os.mkfifo(room.folder / "pipe")
    messages = room.messages("]load pipe", "]save pipe", "]save pipe --replace", "]load /dev/null", "]save /dev/null --replace")
    return messages.count("it is no ordinary file"), 5


def hanging_program(room: Room, is_typed: bool) -> Outcome:
    """Ctrl-C ends the wait for a program that never answers, and the program too."""
    program = room.put("hangs", "#!/bin/sh\necho $$ > begun\nmv begun number\nexec sleep 100\n")
    (room.folder / program).chmod(0o755)
    words, pipe = room.words(program=str(room.folder / program)), subprocess.PIPE
    call = subprocess.Popen(words, cwd=room.folder, env=room.environment, stdin=pipe, stdout=pipe, stderr=pipe)
    room.wait_for("number")
    call.send_signal(signal.SIGINT if is_typed else signal.SIGTERM)
    printed = call.communicate(timeout=SECONDS)
    is_there = Path("/proc", (room.folder / "number").read_text().strip()).exists()
    return (call.returncode, printed, is_there), (130 if is_typed else 143, (b"", b""), False)


def program_that_closes_its_output(room: Room) -> Outcome:
    """A program that closes its output at the start gets a message, and ends the front end."""
    closes = room.folder / "closes"
    closes.write_text("#!/bin/sh\nexec sleep 100 > /dev/null\n")
    closes.chmod(0o755)
    return room.call(lines="1\n", program=str(closes)), (1, "", f"sheet: {closes} has closed its output\n")


def reader_that_dies(room: Room) -> Outcome:
    """After the death of the thread that reads the output, a new program goes on."""
    code = BUG.partition("def fail")[0] + """
import threading
from sheet import program
threading.excepthook = lambda _: None
decode = program.pass_lines

def fail_once(output, lines):
    program.pass_lines = decode
    decode((line if b"F0" not in line else 1 // 0 for line in output), lines)

program.pass_lines = fail_once
"""
    room.customize(code.format(share=SHARE))
    status, printed, messages = room.call(lines="A←5\n'F0'\nA\n")
    return (status, printed, "line 2: PROGRAM FAILED: " in messages), (1, "5\n", True)


def pager(room: Room, more: str) -> Outcome:
    """A value that is beyond the screen goes by the pager at a terminal, and stands in the file where standard output is one."""
    room.environment.update(TERM="xterm", PAGER="tee paged")
    screen = Screen(room, more=more)
    for line in (")DATA D`[60 1`r`i60\n", "D\n", "]watch T\n", "T`[D[7;1]+1\n", "]watch T\n", "D[7;1]`[9\n"):
        shown = screen.keys(line)
    screen.end()
    paged = (room.folder / "paged").read_text().split() if (room.folder / "paged").exists() else []
    rows = [str(number) for number in range(1, 61)]
    if not more:
        return (paged, "T  \x1b[1m10\x1b[0m\n" in shown), (rows, True)
    return (paged, (room.folder / "log").read_text().split()), ([], [*rows, "T", "8", "T", "10"])


LESS = """#!/bin/sh
if [ "$1" = --version ]; then echo "less {version} (POSIX regular expressions)"; exit; fi
echo "$LESS" > options
cat > paged
"""


def frozen_titles(room: Room, version: str, options: str) -> Outcome:
    """]print gives a table wider than the screen to less, which keeps titles and labels in sight from version 600 on."""
    room.put("less", LESS.format(version=version))
    (room.folder / "less").chmod(0o755)
    room.environment.update(TERM="xterm", PAGER="less", PATH=f"{room.folder}:{room.environment['PATH']}")
    room.environment.pop("LESS", None)
    screen = Screen(room)
    for line in (")DATA P`[2 60`r1000000\n", ")DATA L`[2 5`r'bolt frame'\n", ")DATA Y`[`i60\n", "]print P --rows L --titles Y\n"):
        screen.keys(line)
    screen.end()
    pages = [(room.folder / name).read_text() for name in ("options", "paged") if (room.folder / name).exists()]
    return (pages[:1], [line[:16] for line in "".join(pages[1:]).splitlines()]), ([f"{options}\n"], [" " * 13 + "1  ", "bolt   1000000  ", "frame  1000000  "])


def tests(_times: int) -> list[Test]:
    streams = ["<&-", ">&-", "2>&-"]
    closings = [" ".join(some) for number in (1, 2, 3) for some in itertools.combinations(streams, number)]
    closed = [Test(f"closed streams: {closing}", closed_streams, (closing,)) for closing in closings]
    outputs = {"| true": True, "> /dev/full": True, "| tee log > /dev/null": False, "< /dev/tty > log": False}
    output = [Test(f"output at a terminal: {more}", output_at_a_terminal, (more, ends)) for more, ends in outputs.items()]
    errors = ["KeyError(1)", "MemoryError()", "OSError(5)", "RecursionError()"]
    bugs = [Test(f"bug in a command: {fault}", bug_in_a_command, (fault,)) for fault in errors]
    hanging = [Test(f"hanging program: {is_typed}", hanging_program, (is_typed,)) for is_typed in (True, False)]
    pages = [Test(f"pager {more}", pager, (more,)) for more in ("", "> log")]
    versions = {"608": "-S --header=1,7", "590": "-S", "v": "-S"}
    pages += [Test(f"frozen titles by less {version}", frozen_titles, (version, options)) for version, options in versions.items()]
    calls = [full_output, paths_that_are_none, lost_folder, end_in_a_file, pipe_that_is_loaded, program_that_closes_its_output]
    return [*closed, *output, *bugs, *hanging, *pages, *named_tests([*calls, reader_that_dies])]
