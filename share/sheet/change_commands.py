"""The commands about changes: ]undo and ]redo."""

from __future__ import annotations

from typing import TYPE_CHECKING

from .commands import command

if TYPE_CHECKING:
    from .session import Session


@command("]undo", "takes the last change back; a table or a file that was loaded is one change, and one that is open is given up")
def undo(session: Session) -> None:
    session.tell(session.undo())


@command("]redo", "makes the change again that was taken back last")
def redo(session: Session) -> None:
    session.tell(session.redo())
