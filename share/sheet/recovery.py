"""The log of a session: each accepted change is appended to a file, so that an interrupted session can be continued.

The file is a text: a line with the time, then a line for each change. Other events are comments:

  ⍝ lines N: TITLE      the next N lines are one change
  ⍝ joined N: TITLE     the last N changes are one
  ⍝ undo 1: TITLE       the last change is undone
  ⍝ redo 1: TITLE       that change is redone
  ⍝ saved DIGEST: PATH  the sheet equals that file; the path is a string of JSON

A session holds a lock on its log while it runs, so that others see whether it does.
"""

from __future__ import annotations

import contextlib
import errno
import fcntl
import json
import os
import re
import stat
import tempfile
import threading
import time
from itertools import islice
from pathlib import Path
from typing import Callable, Iterator, List, NamedTuple, Optional, Sequence, Tuple

from .files import Home, home_of, raw_of, reason
from .journal import Change, Journal, change_of
from .lines import Line

HEAD = "⍝ aplsheet session of "
LOG_NAME = re.compile(r"session-[0-9]{8}-[0-9]{6}-\w+\.apl")
EVENT = re.compile("⍝ (lines|joined|undo|redo|saved) ([0-9a-f]+): (.*)", re.DOTALL)
DELAY = 0.5  # seconds until an append is flushed to the disk


def state_folder() -> Path:
    """Returns the folder of the history and of the logs, and makes it if it is missing."""
    base = os.environ.get("XDG_STATE_HOME") or os.path.join(os.path.expanduser("~"), ".local", "state")
    if not os.path.isabs(base):
        raise FileNotFoundError(errno.ENOENT, "there is no home folder")
    folder = Path(base, "aplsheet")
    folder.mkdir(parents=True, exist_ok=True)
    return folder


PLACES: List[Callable[[], Path]] = [state_folder, Path.cwd, lambda: Path(tempfile.gettempdir())]


class Log:
    """The log of a running session.

    path       its file; None if none could be written so far
    is_whole   whether the file has all changes except `pending`; it has none before the first unsaved change
    pending    bytes missing in the file, because the system refused them
    is_behind  whether the user knows that changes are missing in the file
    """

    def __init__(self, tell: Callable[[str], None]) -> None:
        self.tell, self.pending, self.is_whole, self.is_behind = tell, b"", False, False
        self.path: Optional[Path] = None
        self.file, self.length = -1, 0
        self.changed = threading.Event()
        threading.Thread(target=self.flush_regularly, daemon=True).start()

    def begin(self, journal: Journal, home: Optional[Home]) -> None:
        """Writes a log of the present sheet to a new file in the first possible folder; prints a note if there is none."""
        is_whole = not journal.is_saved
        events = events_of(journal, home) if is_whole else saved(home) if home else []
        raw = raw_of([HEAD + time.strftime("%Y-%m-%d %H:%M:%S"), *events])
        reasons = []
        for place in PLACES:
            try:
                self.open_in(place(), raw)
            except OSError as error:
                reasons.append(reason(error))
                continue
            self.is_whole = is_whole
            self.catch_up()
            return
        self.fall_behind(reasons[0])

    def begin_anew(self, journal: Journal, home: Optional[Home]) -> bool:
        """Writes a log of another sheet than before; returns whether a file has it."""
        self.is_whole, self.pending = False, b""
        self.begin(journal, home)
        return self.is_whole and self.is_there

    def open_in(self, folder: Path, raw: bytes) -> None:
        """Begins a new file in a folder, and removes the one before it."""
        name = time.strftime("session-%Y%m%d-%H%M%S-")
        file, path = tempfile.mkstemp(prefix=name, suffix=".apl", dir=folder)
        try:
            with contextlib.suppress(OSError):  # a file system without locks
                fcntl.flock(file, fcntl.LOCK_EX)
            write_all(file, raw)
        except OSError:
            os.close(file)
            os.unlink(path)
            raise
        self.close()
        self.file, self.path, self.length, self.pending = file, Path(path), len(raw), b""
        self.changed.set()

    def close(self) -> None:
        """Removes and closes the file."""
        if self.path and self.is_there:
            with contextlib.suppress(OSError):
                self.path.unlink()
        if self.file >= 0:
            os.close(self.file)
        self.file, self.path = -1, None

    @property
    def is_there(self) -> bool:
        """True if the open file is the one at its path."""
        try:
            return self.path is not None and os.path.samestat(os.stat(self.path), os.fstat(self.file))
        except OSError:
            return False

    def append(self, lines: Sequence[str], journal: Journal, home: Optional[Home]) -> None:
        """Appends the lines of the last change. If the file is full or gone, begins a new one."""
        if not self.is_whole:
            self.begin(journal, home)
            return
        self.pending += raw_of(lines)
        try:
            if not self.is_there:
                raise FileNotFoundError
            write_all(self.file, self.pending)
        except OSError:
            self.cut_off()
            self.begin(journal, home)
            return
        self.length += len(self.pending)
        self.pending = b""
        self.changed.set()
        self.catch_up()

    def cut_off(self) -> None:
        """Removes a partly written line."""
        with contextlib.suppress(OSError):
            os.ftruncate(self.file, self.length)
            os.lseek(self.file, self.length, os.SEEK_SET)

    def fall_behind(self, why: str) -> None:
        if not self.is_behind:
            self.is_behind = True
            self.tell(f"  this session is not logged: {why}; a crash would lose the changes from here on")

    def catch_up(self) -> None:
        if self.is_behind:
            self.is_behind = False
            self.tell("  this session is logged again")

    def flush_regularly(self) -> None:
        """Flushes the file to the disk, a while after each append."""
        while self.changed.wait():
            time.sleep(DELAY)
            self.changed.clear()
            with contextlib.suppress(OSError, ValueError):
                os.fsync(self.file)

    def is_written(self, journal: Journal, home: Optional[Home]) -> bool:
        """Flushes the log to the disk; returns whether it has all changes."""
        if self.pending or not self.is_whole or not self.is_there:
            self.begin(journal, home)
        with contextlib.suppress(OSError):
            os.fsync(self.file)
        return self.is_whole and not self.pending and self.is_there

    def end(self, journal: Journal, home: Optional[Home]) -> Optional[Path]:
        """Ends the log: removes it if the sheet is saved, else returns its path, or None if it cannot be written."""
        if journal.is_saved:
            self.close()
            return None
        return self.path if self.is_written(journal, home) else None


def write_all(file: int, raw: bytes) -> None:
    """Writes bytes to a file, all of them."""
    view = memoryview(raw)
    while view:
        view = view[os.write(file, view) :]


def events_of(journal: Journal, home: Optional[Home]) -> List[str]:
    """Returns the lines that log the present sheet."""
    lines = saved(home) if home and journal.saved not in journal.changes else []
    for change in journal.changes:
        lines += event_of(change)
        if change is journal.saved and home:
            lines += saved(home)
    return lines


def event_of(change: Change) -> List[str]:
    """Returns the lines that log a change."""
    is_plain = [change.title] == [line.strip(" \t\r") for line in change.lines]
    return change.lines if is_plain else [f"⍝ lines {len(change.lines)}: {change.title}", *change.lines]


def saved(home: Home) -> List[str]:
    return [f"⍝ saved {home.digest}: {json.dumps(home.path, ensure_ascii=False)}"]


def joined_to(number: int, title: str) -> List[str]:
    return [f"⍝ joined {number}: {title}"]


def undone(change: Change) -> List[str]:
    return [f"⍝ undo 1: {change.title}"]


def redone(change: Change) -> List[str]:
    return [f"⍝ redo 1: {change.title}"]


class Unended(NamedTuple):
    """The log of an interrupted session.

    path     its file
    begun    the time of its start
    journal  the changes that it logs completely
    home     the digest and the path of the file that the sheet was loaded from or saved to, or None
    """

    path: Path
    begun: str
    journal: Journal
    home: Optional[Tuple[str, str]]

    def home_as_it_is(self) -> Optional[Home]:
        """Returns the home of the sheet, with its lines if the file was not changed since."""
        if not self.home:
            return None
        digest, path = self.home
        there = home_of(path, Journal())
        return there._replace(parts=None) if there and there.digest == digest else Home(path, digest)


class Replay:
    """The events of a log, applied one after the other.

    journal  the changes
    home     the digest and the path of the file that the sheet was loaded from or saved to, or None
    arrival  the change that loaded that file, if one did
    event    the event before
    """

    def __init__(self) -> None:
        self.journal, self.event = Journal(), ""
        self.home: Optional[Tuple[str, str]] = None
        self.arrival: Optional[Change] = None

    def read(self, line: str, waiting: Iterator[str]) -> None:
        """Reads a line, and the rest of its group from `waiting`; ValueError or LookupError for a line that is not of a log."""
        event = EVENT.fullmatch(line)
        if event and event[1] == "lines":
            group = [*islice(waiting, int(event[2]))]
            if len(group) == int(event[2]):
                self.add(group, event[3])
        elif event:
            self.take(event[1], event[2], event[3])
        else:
            self.add([line])

    def take(self, event: str, count: str, text: str) -> None:
        """Applies an event that is no change."""
        if event == "saved":
            self.home = count, json.loads(text)
            self.arrival = self.journal.last if self.event == "joined" else None
            self.journal.mark_saved()
        elif event == "joined":
            first = len(self.journal.changes) - int(count)
            if first < 0:
                raise ValueError("there are fewer changes than are joined")
            self.journal.join(first, text)
        elif event == "redo":
            self.journal.make_again()
        elif self.journal.take_back() is self.arrival:
            self.home = None
        self.event = event

    def add(self, lines: Sequence[str], title: Optional[str] = None) -> None:
        """Adds a change: a line, or several lines with their title."""
        first, parsed = len(self.journal.changes), [Line(line) for line in lines]
        if not all(line.is_change for line in parsed):
            raise ValueError("a line of a log makes no change")
        for line in parsed:
            self.journal.add(change_of(line))
        if title is not None:
            self.journal.join(first, title)
        self.event = ""


def read(path: Path) -> Unended:
    """Reads a log; a ValueError if the file is none.

    Ignores an incomplete last line, and a part damaged by a crash of the machine with all lines after it.
    """
    lines = path.read_bytes().decode("utf-8", "surrogateescape").split("\n")[:-1]
    if not lines or not lines[0].startswith(HEAD):
        raise ValueError(f"{path} is no log")
    replay, waiting = Replay(), iter(lines[1:])
    with contextlib.suppress(ValueError, LookupError):
        for line in waiting:
            replay.read(line, waiting)
    return Unended(path, lines[0][len(HEAD) :], replay.journal, replay.home)


def logs() -> List[Path]:
    """Returns the logs of this user, the last one first."""
    paths: List[Path] = []
    for place in PLACES:
        with contextlib.suppress(OSError):
            paths += filter(is_own, place().glob("session-*.apl"))
    return sorted({*paths}, key=lambda path: path.name, reverse=True)


def is_own(path: Path) -> bool:
    """Returns whether a file has the name of a log, is regular, and belongs to this user."""
    try:
        status = path.lstat()
    except OSError:
        return False
    return bool(LOG_NAME.fullmatch(path.name)) and stat.S_ISREG(status.st_mode) and status.st_uid == os.getuid()


def unended() -> Iterator[Unended]:
    """Yields the interrupted sessions with unsaved changes, the last one first, and removes the logs of others."""
    for path in logs():
        with contextlib.suppress(OSError, ValueError, LookupError):
            if is_locked(path):
                continue
            session = read(path)
            if not session.journal.is_saved:
                yield session
            else:
                path.unlink()


def is_open_elsewhere(home: Home, own: Optional[Path]) -> bool:
    """Returns whether another running session has the same home."""
    for path in logs():
        with contextlib.suppress(OSError, ValueError, LookupError):
            there = read(path).home if path != own and is_locked(path) else None
            if there and there[1] == home.path:
                return True
    return False


def is_locked(path: Path) -> bool:
    """Returns whether the session of a log runs."""
    try:
        with open(path, "rb") as log:
            fcntl.flock(log, fcntl.LOCK_SH | fcntl.LOCK_NB)
    except OSError:
        return True
    return False
