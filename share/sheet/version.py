"""The version of aplsheet. Only this file states it for programs; tests/documents compares CHANGELOG.md and the manual pages with it."""

from __future__ import annotations

VERSION = "1.0.0"


def version_line() -> str:
    """Returns the line that --version prints."""
    return f"aplsheet {VERSION}"
