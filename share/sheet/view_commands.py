"""The command about the browser: ]view."""

from __future__ import annotations

from typing import TYPE_CHECKING, Optional

from .commands import command
from .errors import Mistake

if TYPE_CHECKING:
    from .session import Session

HIGHEST_PORT = 65535


@command("]view [--port 8000]", "shows the sheet in a browser too; lines that are typed here and changes made there are of one sheet")
def view(session: Session, port: Optional[str]) -> None:
    from .view import running  # its modules would slow each start

    if not session.is_typed:
        raise Mistake("]view is for a terminal; sheet --web FILE shows a sheet without one")
    if port and not (port.isdecimal() and int(port) <= HIGHEST_PORT):
        raise Mistake(f"--port is followed by a number up to {HIGHEST_PORT}")
    if session.server:
        running.show(session, session.server, True)
        return
    file = session.home.path if session.home else None
    session.server = running.begin(session, file, int(port or 0), True)
    session.server.start()
