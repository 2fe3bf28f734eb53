"""The keys of the symbols, from the file of share/ for readline."""

from __future__ import annotations

import re
from pathlib import Path
from typing import List

FILE = Path(__file__).resolve().parent.parent / "aplsheet.inputrc"
KEY = re.compile(r'"`(.)": "([^\\"])"')
ROW = 10  # symbols on a line


def table() -> List[str]:
    """Returns lines with the symbols, each after its key."""
    pairs = KEY.findall(FILE.read_text("utf-8"))
    rows = [pairs[at : at + ROW] for at in range(0, len(pairs), ROW)]
    return ["A backquote, then:", *["  ".join(f"{key} {symbol}" for key, symbol in row) for row in rows], "` `"]
