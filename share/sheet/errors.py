"""Exceptions that end a command, a script or the session."""

from __future__ import annotations


class Mistake(Exception):
    """A request that fails: one sentence, and perhaps lines with a remedy."""


class Stopped(Exception):
    """Ctrl-C has stopped a script."""


class End(Exception):
    """The user has ended the session, or a loading file has ended itself."""


class Lost(Exception):
    """The program cannot be restarted, so the session ends: one sentence, with the place of the kept sheet."""


class OutputFailed(Exception):
    """A write to standard output failed: the reason, empty if the reader has closed it."""
