"""A pager for values beyond the screen."""

from __future__ import annotations

import contextlib
import os
import re
import shutil
import subprocess
from typing import NamedTuple, Sequence

HEADER_VERSION = 600  # the first version of less that keeps titles in sight


class Frozen(NamedTuple):
    """The lines and columns at the head of a table that stay in sight."""

    lines: int = 0
    columns: int = 0


def is_wanted(lines: Sequence[str], is_text: bool) -> bool:
    """Returns whether the terminal can page, and there are more lines than rows, or lines of a table wider than the screen."""
    if os.environ.get("TERM", "dumb") == "dumb":
        return False
    size = shutil.get_terminal_size()
    rows = sum(1 + max(0, len(line) - 1) // size.columns for line in lines)
    return rows >= size.lines or len(lines) > 1 and not is_text and max(map(len, lines)) > size.columns


def show(lines: Sequence[str], frozen: Frozen = Frozen()) -> None:
    """Shows a value in the pager, which cuts lines at the edge of the screen and moves them by the arrow keys."""
    import pydoc  # loaded only when a page is shown

    own = os.environ.get("LESS", "-S")
    has_header = any(frozen) and less_version() >= HEADER_VERSION
    os.environ["LESS"] = f"{own} --header={frozen.lines},{frozen.columns}" if has_header else own
    try:
        with contextlib.suppress(OSError):
            pydoc.pager("".join(f"{line}\n" for line in lines))
    finally:
        os.environ["LESS"] = own


def less_version() -> int:
    """Returns the version of less, or 0 if there is none."""
    try:
        ran = subprocess.run(["less", "--version"], stdin=subprocess.DEVNULL, capture_output=True, text=True, timeout=1)
    except (OSError, ValueError, subprocess.SubprocessError):
        return 0
    found = re.match("less ([0-9]+)", ran.stdout)
    return int(found[1]) if found else 0
