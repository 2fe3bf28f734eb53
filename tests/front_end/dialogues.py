"""Lines over pipes, their output and their messages."""

from __future__ import annotations

import re

from .rooms import Outcome, Room, Test

# Lines over pipes, their output and their messages.
DIALOGUES = {
    "values": (")DATA D←1 2 3\nT←D×2\nD[2]←10\nT\n\n⍝ a comment\n", "2 20 6\n", ""),
    "a value that reads like an error": (
        "'SYNTAX ERROR'\nT←'LENGTH ERROR IN Q'\nT\n1 8⍴'NO SLOT '\n",
        "SYNTAX ERROR\nLENGTH ERROR IN Q\nNO SLOT \n",
        "",
    ),
    "an error with the same text": (
        "T←'VALUE ERROR IN U'\nU←Q\nT\nU\n",
        "VALUE ERROR IN U\n",
        "line 4: VALUE ERROR IN U\n  U\n  U←Q\n    ∧\n  Q is not there\n",
    ),
    "empty results": ("''\n0 3⍴0\n2 0⍴0\n⍴⍳0\n", "\n\n\n0\n", ""),
    "signs that fences are made of": (
        "'\U0010fffd1'\n2 2⍴'\U0010fffd\U0010fffc'\nQ\n1\n",
        "\U0010fffd1\n\U0010fffd\U0010fffc\n\U0010fffd\U0010fffc\n1\n",
        "line 3: VALUE ERROR\n  Q\n  ∧\n  Q is not there\n",
    ),
    "records": (")DATA M←2 2⍴1 ¯2 3 4\n)CSV M\n)CSV 'a'\n", "1,-2\n3,4\n", "line 3: SYNTAX ERROR\n  )CSV 'a'\n"),
    "planes": ("2 2 2⍴⍳8\n", "1 2\n3 4\n\n5 6\n7 8\n", ""),
    "names that are refusals": ("CYCLE←1\nSTALE←2\n)NAMES\n", "CYCLE\nSTALE\n", ""),
    "a long line": ("⍝" + "a" * 5000 + "\n1\n", "1\n", "LINE TOO LONG"),
    "bytes that are no text": (b"caf\xe9\n1\n", "1\n", "line 1: NOT TEXT"),
    "a byte order mark and CR": ("\ufeffA←1\r\nA\r\n]show A\r\n", "1\nA←1\n", ""),
    "a last line without an end": ("A←1\nA", "1\n", ""),
    "no line": ("", "", ""),
    "changes in slots": (
        ")DATA D←1 2\nT←D×2\n)OPEN 1 D[1]←5\n)STEP 1\n)COMMIT 1\nT\n]undo\nT\n",
        "1\n0\n10 4\n2 4\n",
        "taken back: D[1]←5\n",
    ),
    "a change that is given up": ("A←1\n)OPEN 2 A←2\n)DROP 2\n]undo\n)NAMES\n", "0\n", "taken back: A←1\n"),
    "a stale change": ("A←1\n)OPEN 2 A←2\nB←1\n)COMMIT 2\n", "0\n", "another change was made since this one was opened"),
    "an end in between": ("1\n]off\n2\n", "1\n", ""),
    "a wrong command": ("]nmes\n]show\n]save a b c\n]show 'a\n", "", "is ]names meant?"),
    "a form": ("]table D\n", "", "the form is ]table NAME FILE [--header] [--columns 2-7] [--separator ;]"),
    "names": (
        ")DATA D←2 3⍴⍳6\n)DATA C←'ab'\nS←5\nT←+/D\nU←Q+1\n]names\n",
        "D  data     numbers 2 3\nC  data     characters 2\nS  formula  numbers scalar    5\nT  formula  numbers 2         +/D\n"
        "U  formula  VALUE ERROR IN U  Q+1\n",
        "",
    ),
    "no names": ("]names\n", "", ""),
    "show": (
        " T ← 1+Q ⍝ why\n)DATA D←2 3⍴⍳6\n]show T\n]show D\nD[1;2]←9\n]show D\n",
        "T ← 1+Q ⍝ why\n)DATA D←2 3⍴⍳6\n)DATA D←2 3⍴1 9 3 4 5 6\n",
        "",
    ),
    "show of much": (")DATA D←⍳5000\nD[1]←2\n]show D\n", "⍝ D is data: numbers, 5000\n", ""),
    "clear": ("A←1\nB←A\n]clear\n)NAMES\n]undo\nB\n", "1\n", "taken back: ]clear\n"),
    "nothing to take back": ("]undo\n", "", "there is no change to take back"),
}


def dialogue(room: Room, lines: str | bytes, output: str, said: str) -> Outcome:
    """Compares output, messages and status. Wanted messages that end with a newline are the whole, others a part."""
    status, printed, messages = room.call(lines=lines)
    is_told = messages == said if said == "" or said.endswith("\n") else said in messages
    return (printed, is_told or messages, status), (output, True, int(bool(re.search("^line [0-9]+: ", messages, re.MULTILINE))))


def tests(_times: int) -> list[Test]:
    return [Test(name, dialogue, row) for name, row in DIALOGUES.items()]
