"""The session and the calls of docs/SHEET.md."""

from __future__ import annotations

import importlib.util
import re
import shlex
import subprocess

from sheet.places import MARK

from .rooms import SECONDS, TOP, Outcome, Room, Test, named_tests
from .screens import PROMPT, Screen


def transcript(room: Room) -> Outcome:
    """The blocks of docs/SHEET.md that ```text opens: lines that are typed stand behind the prompt, and shown ones below them."""
    page = (TOP / "docs/SHEET.md").read_text()
    for file in (TOP / "examples/tutorial").iterdir():
        room.put(file.name, file.read_bytes())
    wanted = "".join(re.findall("^```text\n(.*?)^```$", page, re.MULTILINE | re.DOTALL))
    screen, shown = Screen(room), ""
    for line in wanted.splitlines():
        if line.startswith(PROMPT) and not line[len(PROMPT) :].startswith((" ", MARK)):
            shown += PROMPT + screen.keys(line[len(PROMPT) :] + "\n")
    return (shown, screen.end()[0], bool(wanted)), (wanted, 0, True)


def printed_by(room: Room, line: str) -> str:
    """Returns all that a line of the shell prints, in the folder of the project."""
    ran = subprocess.run(
        line, shell=True, cwd=TOP, env=room.environment, stdout=subprocess.PIPE, stderr=subprocess.STDOUT, text=True, timeout=SECONDS
    )
    return ran.stdout


def commands_of_manual(room: Room) -> Outcome:
    """The calls of docs/SHEET.md: the lines of the blocks that ```console opens. Those about workbooks need openpyxl."""
    blocks = "".join(re.findall("^```console\n(.*?)^```$", (TOP / "docs/SHEET.md").read_text(), re.MULTILINE | re.DOTALL))
    calls = re.findall(r"^\$ (.*)\n((?:(?!\$ ).*\n)*)", blocks, re.MULTILINE)
    if not importlib.util.find_spec("openpyxl"):
        calls = [call for call in calls if ".xlsx" not in call[0]]
    begin = " ".join(map(shlex.quote, room.words()))
    came = [printed_by(room, line.replace("bin/sheet", begin)) for line, _ in calls]
    return (came, bool(calls)), ([wanted for _, wanted in calls], True)


def tests(_times: int) -> list[Test]:
    return named_tests([transcript, commands_of_manual])
