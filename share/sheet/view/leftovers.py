"""Unsaved sessions: a page offers them, continues one, or deletes it. A page names a log; no path comes from a page."""

from __future__ import annotations

from functools import partial
from typing import List

from .. import recovery
from ..errors import Mistake
from ..file_commands import describe, forget_log, go_on_with
from ..session import Session
from .looks import Told


def left() -> List[Told]:
    """Returns the name and a description of each session that was not saved, the last one first."""
    return [{"name": session.path.name, "told": describe(session)} for session in recovery.unended()]


def chosen(name: str) -> recovery.Unended:
    """Returns the session whose log has that name; a Mistake if there is none."""
    for session in recovery.unended():
        if session.path.name == name:
            return session
    raise Mistake("this session is gone: another one continues it, or it was deleted")


def go_on(session: Session, name: str) -> None:
    """Goes on with a session in place of this sheet; a Mistake if this sheet has changes that are not saved."""
    if not session.journal.is_saved:
        raise Mistake("this sheet has changes that are not saved; save it first, or take them back")
    found = chosen(name)
    session.remake(found.journal, partial(go_on_with, session, found))


def forget(name: str) -> None:
    forget_log(chosen(name))
