"""Opening the page in a browser. The token goes through a file that only its owner can read: other accounts see argument lists."""

from __future__ import annotations

import contextlib
import os
import tempfile
import webbrowser
from pathlib import Path
from typing import Optional

from ..recovery import state_folder

PAGE = """<!doctype html>
<meta charset="utf-8">
<title>aplsheet</title>
<meta http-equiv="refresh" content="0; url={address}">
<p><a href="{address}">The sheet</a></p>
"""


def way_in(address: str) -> Path:
    """Writes a file that leads to the address, readable to its owner alone, and returns its path."""
    file, path = tempfile.mkstemp(prefix="open-", suffix=".html", dir=state_folder())  # of mode 0600
    with open(file, "w", encoding="utf-8") as written:
        written.write(PAGE.format(address=address))
    return Path(path)


def open_browser(address: str) -> Optional[Path]:
    """Opens the address in the browser of the person; returns the file that leads there, or None if there is no browser."""
    if not (os.environ.get("DISPLAY") or os.environ.get("WAYLAND_DISPLAY") or os.environ.get("BROWSER")):
        return None
    path = None
    with contextlib.suppress(OSError, webbrowser.Error):
        path = way_in(address)
        if webbrowser.open(path.as_uri()):
            return path
    if path:
        path.unlink()
    return None
