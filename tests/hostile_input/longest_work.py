"""The lines that work longest, with the time that one may take: scans of a million items, look-ups, and edits under them.

Products of two matrices of a thousand rows and columns work longer, and are left out.
"""

from __future__ import annotations

from typing import Iterator

from .program_calls import Call, needs
from .vocabulary import SCALAR

MOST_SECONDS = 10  # of processor time for any one line
MOST_HELD = 200000  # kB that the whole call may hold

# Arrays whose scans take long: none of their beginnings has an error by most functions, or numbers come to many places.
LONG_SCANS = {
    "B": "1048576⍴0 1", "Y": "1048576⍴1", "J": "1048576⍴1 ¯1", "N": "1048576⍴9223372036854775807 ¯1 4611686018427387904", "I": "⍳1048576",
    "D": "⌽⍳1048576", "P": "4294967296×1048573|7919×⍳1048576", "Q": "-4294967296×1048573|7919×⍳1048576", "S": "1024 1024⍴0 1 1",
}  # fmt: skip

# Edits under a scan of B: of the first item, of others, and some by which some scans have an error, which goes by the next.
LONG_EDITS = ["B[1]←1", "B[2]←0", "B[2]←5", "B[500000]←1"]

# Edits under digits of many items.
DIGITS = [")DATA A←524288⍴1", ")DATA G←5 7", "T←A⊤G", "G[2]←9", "A[524288]←2", "A[3]←¯1", "A[400000]←0", "G[1]←3"]

# Edits under scans with an error at the last place.
LAST_PLACE = [")DATA X←(524287⍴1),9223372036854251520", "T←+\\X", "X[2]←2", "X[2]←1", "T←+⍀X∘.+0 0", "X[2]←2"]

# Edits under look-ups and a replication.
LOOK_UPS = [")DATA K←⍳1048576", ")DATA L←⌽⍳1048576", ")DATA H←1048576⍴1", "T←L⍳K+⌽K", "K[1]←5", "T←L⍳K", "L[7]←2"]
LOOK_UPS += ["T←(K+⌽K)∊L", "K[2]←5", "L[9]←4", "T←H/K+⌽K", "K[3]←7"]


def edits_under_scan(function: str) -> list[str]:
    """Returns a formula for a scan of a vector and one of a table, each with edits."""
    return [f"T←{function}\\B", *LONG_EDITS, f"T←{function}⍀S", "S[2;3]←0", "S[2;3]←1"]


def edits_under_scan_of_formula(function: str) -> list[str]:
    """Returns a formula for a scan of one table and of another, both of them formulas, each with edits."""
    return [f"T←{function}⍀V∘.⌈0 1", "V[2]←1", "V[3]←0", f"T←{function}\\C∘.⌈E", "E[3]←0", "E[2]←1"]


def longest_lines() -> Iterator[str]:
    """Yields the lines in their order."""
    yield from (f"⍴{function}{fold}{name}" for function in SCALAR for name in LONG_SCANS for fold in ("\\⍀" if name == "S" else "\\"))
    yield from (line for function in SCALAR for line in edits_under_scan(function))
    yield from (f")ERASE {name}" for name in LONG_SCANS)
    yield from [")DATA V←524288⍴1 0 1", ")DATA C←1024⍴0 1", ")DATA E←1024⍴1 0 1"]
    yield from (line for function in SCALAR for line in edits_under_scan_of_formula(function))
    yield from [*DIGITS, *LAST_PLACE, *LOOK_UPS]


def try_worst_lines(program: str) -> str:
    """Tries each of these lines. None works for long."""
    longest = (0.0, "")
    with Call(program) as call:
        call.answers([f")DATA {name}←{text}\n".encode() for name, text in LONG_SCANS.items()])
        for count, line in enumerate(longest_lines(), 1):
            seconds = call.seconds_for(f"{line}\n".encode())
            needs(seconds <= MOST_SECONDS, f"{line} takes {seconds:.1f} s")
            longest = max(longest, (seconds, line))
        held = call.held()
    needs(held <= MOST_HELD, f"{held} kB")
    return f"{count} lines, the longest is {longest[1]} with {longest[0]:.1f} s, at most {held} kB"
