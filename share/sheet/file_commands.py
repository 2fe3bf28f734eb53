"""The commands about sheets in files: ]save, ]load and ]recover."""

from __future__ import annotations

import contextlib
import os
import stat
from functools import partial
from typing import TYPE_CHECKING, BinaryIO, Iterator, Optional, Tuple

from . import files, recovery
from .commands import command, counted
from .errors import End, Mistake
from .interrupts import signals
from .scripts import script_of_sheet

if TYPE_CHECKING:
    from .session import Session

DEEPEST = 16  # depth of files that load files


@command("]save [FILE] [--replace]", "writes the sheet to a file, or to the one that it comes from; --replace where another one is there")
def save(session: Session, file: Optional[str], replace: bool) -> None:
    if session.is_check:
        return
    if file is None and session.home is None:
        raise Mistake("the sheet comes from no file; ]save FILE writes one")
    file = file or files.as_seen(session.home.path if session.home else "")
    script = script_of_sheet(session.program, session.journal, session.home)
    with signals.held():
        path, digest = files.save(file, script.raw, session.home, replace)
        session.come_home(script._replace(path=path, digest=digest))
    session.tell(f"{counted(len(session.journal.bindings), 'name')} saved in {file}")
    if session.journal.slots:
        session.tell(f"  the changes that are open are not in it: {', '.join(session.journal.slots)}")


@command("]load FILE", "answers the lines of a file, on top of the sheet as it is")
def load(session: Session, file: str) -> None:
    first, is_first = len(session.journal.changes), not session.journal.bindings
    with files.opened(file) as source:
        status = os.fstat(source.fileno())
        if not stat.S_ISREG(status.st_mode):
            raise Mistake(f"{file} cannot be read: it is no ordinary file")
        if (status.st_dev, status.st_ino) in session.loading:
            raise Mistake(f"{file} is not loaded: it is being loaded already")
        if len(session.loading) == DEEPEST:
            raise Mistake(f"{file} is not loaded: {DEEPEST} files are being loaded already")
        load_lines(session, file, source, (status.st_dev, status.st_ino))
    if is_first and not session.loading:
        session.come_home(files.home_of(file, session.journal, first), session.journal.last)


def load_lines(session: Session, file: str, source: BinaryIO, identity: Tuple[int, int]) -> None:
    """Answers the lines of an open file; their changes become one change."""
    first, outer = len(session.journal.changes), session.loading
    try:
        session.loading = [*outer, identity]
        session.run(file, source)
    except End:  # a line of the file ends the file
        pass
    finally:
        session.loading = outer
        session.join(first, f"]load {file}")


@command("]recover [NUMBER] [--forget]", "goes on with a session that was not saved, the last one as a rule; --forget removes its log")
def recover(session: Session, number: Optional[str], forget: bool) -> None:
    sessions = [*recovery.unended()]
    number = number or "1"
    if not number.isdecimal() or not 0 < int(number[:9]) <= len(sessions):
        raise Mistake("\n  ".join([f"there is no session {number} to be recovered", *offers(sessions)]))
    chosen = sessions[int(number) - 1]
    if forget:
        forget_log(chosen)
    elif not session.journal.is_saved:
        raise Mistake("this sheet has changes that are not saved; ]save or ]clear comes first")
    else:
        session.remake(chosen.journal, partial(go_on_with, session, chosen))
    session.tell(f"{'forgotten' if forget else 'recovered'}: {describe(chosen)}")


def forget_log(chosen: recovery.Unended) -> None:
    try:
        chosen.path.unlink()
    except OSError as error:
        raise Mistake(f"{chosen.path} cannot be removed: {files.reason(error)}") from None


def go_on_with(session: Session, chosen: recovery.Unended) -> None:
    """Takes over the home of a recovered session, and logs it. The old log stays until a file has all changes."""
    session.home = chosen.home_as_it_is()
    session.settle([])
    if session.log and session.log.begin_anew(session.journal, session.home):
        with contextlib.suppress(OSError):
            chosen.path.unlink()


def offers(sessions: list[recovery.Unended]) -> Iterator[str]:
    """Yields a line about each session that can be recovered."""
    for number, session in enumerate(sessions, 1):
        yield f"]recover {number}: {describe(session)}"


def describe(session: recovery.Unended) -> str:
    """Returns a session in words."""
    changes = session.journal.unsaved
    file = f" since {files.as_seen(session.home[1])} was saved" if session.home else ""
    return f"the session of {session.begun}, {counted(len(changes), 'change')}{file}"
