"""A server in use: `sheet --web` and ]view begin it, and it ends with the session."""

from __future__ import annotations

import contextlib
import subprocess
from functools import partial
from pathlib import Path
from typing import Optional

from ..errors import Mistake
from ..files import reason
from ..session import Session
from .opening import open_browser
from .serving import Server

ELF = b"\x7fELF"
BUILDS = {0: "the proved program", 1: "a build with checks, not proved"}


def build_of(program: str, top: Path) -> str:
    """Says which program answers: the proved one, another build of the repository, or the file of a person's choice."""
    path = Path(program)
    if path.resolve() != (top / "bin/aplsheet").resolve():
        return f"another program: {path.name}"
    with contextlib.suppress(OSError):
        if path.read_bytes()[:4] == ELF:
            return "the installed program"
        return BUILDS[min(subprocess.run([top / "bin/prove", "--is-current"]).returncode, 1)]
    return "an unknown program"


def begin(session: Session, file: Optional[str], port: int, opens: bool) -> Server:
    """Begins a server, opens its page, and prints the address; the session ends it. A Mistake if the port is taken."""
    try:
        server = Server(port, session, file, build_of(session.program.words[0], session.top))
    except (OSError, OverflowError) as error:
        raise Mistake(f"the port {port} cannot be used: {reason(error) if isinstance(error, OSError) else error}") from None
    session.at_end.callback(server.end)
    show(session, server, opens)
    return server


def show(session: Session, server: Server, opens: bool) -> None:
    """Opens the page in a browser, and prints its address."""
    way = open_browser(server.address) if opens else None
    if way:
        session.at_end.callback(partial(way.unlink, missing_ok=True))
    session.tell(f"the sheet is at {server.address}")
