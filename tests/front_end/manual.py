"""The manual's own text, which ]help shows."""

from __future__ import annotations

import re
import shutil
import subprocess

from .rooms import SECONDS, TOP, Outcome, Room, Test, named_tests

PAGE = (TOP / "docs/LANGUAGE.md").read_text("utf-8")

# Words behind ]help, and lines that are shown, in their order.
SHOWN = {
    "⍴": ["⍴", "  With one argument: shape", "  With two: reshape", "⍴B", "  Name: shape"],
    "/": ["/", "A/B  A⌿B", "  Name: replicate", "f/B  f⌿B", "  Name: reduction"],
    "|": ["|", "  With two: residue", "A|B", "  Name: residue"],
    "∣": ["|", "A|B"],
    "+.×": ["+", ".", "A f.gB", "  Name: inner product", "×"],
    "⍝": ["⍝", "  What it is: begins a comment"],
    "'": ["'", "  What it is: around a text"],
    "[": ["[ ]"],
    "LENGTH ERROR": ["LENGTH ERROR", "  What is wrong: lengths do not fit", 'In "Structural functions":', 'In "Refusals":'],
    "length": ["LENGTH ERROR", "  What is wrong: lengths do not fit"],
    "NOT DATA": ["NOT DATA", 'In "Refusals":'],
    "cycle": ["CYCLE", 'In "Lines":', "  2. NAME←EXPR: CYCLE, then SHEET FULL (a new name where 1,024 are present)."],
    ")ERASE": [")ERASE NAME", "  What it does: removes the name; the names after it move up", 'In "Refusals":', "  6. )ERASE: NOT FOUND."],
    "row": [")ROW NAME LITERAL"],
    "reshape": ["A⍴B", "  Name: reshape"],
    "index generator": ["⍳N"],
    "]save": ["]save [FILE] [--replace]"],
    "undo": ["]undo"],
    "": ["]help [WORD..]"],
}

# Words without a text, and the message about them.
ABSENT = {
    "reshap": "the manual has no entry of reshap; is reshape",
    "LENGHT ERROR": "is LENGTH ERROR",
    "⍋": "the manual has no entry of ⍋",
    "--replace": "the manual has no entry of --replace",
    '"': 'the manual has no entry of "',
}


def shown(room: Room, words: str, wanted: list[str]) -> Outcome:
    """The lines that are wanted come in this order, and no mark of markdown."""
    lines = room.answers(f"]help {words}").splitlines()
    return (list(dict.fromkeys(line for line in lines if line in wanted)), "**" in "".join(lines)), (wanted, False)


def absent(room: Room, words: str, message: str) -> Outcome:
    messages = room.messages(f"]help {words}")
    return (message in messages or messages), True


def section(title: str) -> str:
    return PAGE.partition(f"\n## {title}\n")[2].partition("\n## ")[0]


def all_terms(room: Room) -> Outcome:
    """Each symbol, error, refusal and command of the manual has an entry, whose lines no terminal of 100 columns wraps."""
    rows = re.findall(r"^\| (`.*?) \|", section("Each symbol").replace("\\|", "∣"), re.MULTILINE)
    terms = [symbol for row in rows for term in re.findall("`(.+?)`", row) for symbol in term.split()]
    terms += re.findall(r"^\| `([A-Z ]+)` \|", section("Errors"), re.MULTILINE)
    terms += re.findall("`([A-Z][A-Z ]+)`", section("Refusals"))
    terms += [f"){word}" for word in re.findall(r"`\)([A-Z]+)", section("Lines"))]
    lines = [line for term in dict.fromkeys(terms) for line in (f"]help {term}", "'end of entry'")]
    status, printed, _ = room.call(lines="\n".join(lines))
    entries = printed.split("end of entry\n")
    short = [line for line, entry in zip(lines[::2], entries) if entry.count("\n") < 2]
    wide = [line for line in printed.splitlines() if len(line) > 100]
    return (status, len(entries) > 75, short, wide), (0, True, [], [])


def no_page(room: Room) -> Outcome:
    """Without the documents, a message names the missing page."""
    shutil.copytree(TOP / "share/sheet", room.folder / "share/aplsheet/sheet")
    (room.folder / "bin").mkdir()
    shutil.copy(TOP / "bin/sheet", room.folder / "bin/sheet")
    python, _, *words = room.words()
    call = [python, str(room.folder / "bin/sheet"), *words]
    ran = subprocess.run(call, input="]help ⍴\n]help ]save\n", capture_output=True, text=True, timeout=SECONDS, env=room.environment)
    page = room.folder.resolve() / "share/doc/aplsheet/docs/LANGUAGE.md"
    return ran.stderr, f"line 1: the manual, {page}, cannot be read: No such file or directory\n  ]help ⍴\n"


def narrow(room: Room) -> Outcome:
    """At a narrow terminal no line is longer than it is wide."""
    room.environment["COLUMNS"] = "40"
    lines = room.answers("]help LENGTH ERROR").splitlines()
    return (max(map(len, lines)) <= 40, len(lines) > 10), (True, True)


def tests(_times: int) -> list[Test]:
    entries = [Test(f"help {words}", shown, (words, wanted)) for words, wanted in SHOWN.items()]
    nothing = [Test(f"no help {words}", absent, (words, message)) for words, message in ABSENT.items()]
    return entries + nothing + named_tests([all_terms, no_page, narrow])
