"""Files as the front end reads and writes them: a write replaces a file whole or not at all."""

from __future__ import annotations

import contextlib
import errno
import hashlib
import os
import shutil
import stat
import tempfile
from functools import partial
from pathlib import Path
from typing import BinaryIO, Callable, Iterable, Iterator, List, Mapping, NamedTuple, Optional, Sequence, Tuple

from .errors import Mistake
from .journal import Binding, Change, Journal, Source

MARK = b"\xef\xbb\xbf"  # the byte order mark


class Part(NamedTuple):
    """The lines of a script that made a name: their numbers, 0 for a line of another file, and the table files that they read."""

    numbers: List[int]
    sources: List[Source]


class Home(NamedTuple):
    """The script that a sheet was loaded from, or saved to.

    path    its path, from the root
    digest  the digest of the content that was read or written
    lines   its lines
    parts   the lines of each name that they made; None if that is unknown
    makes   the bindings that they make, in their order
    mark    its byte order mark, if it has one
    end     the end of its last line, if it has one
    """

    path: str
    digest: str
    lines: Sequence[str] = ()
    parts: Optional[Mapping[str, Part]] = None
    makes: Mapping[str, Binding] = {}
    mark: str = ""
    end: str = "\n"

    @property
    def raw(self) -> bytes:
        """Its content."""
        return (self.mark + "\n".join(self.lines) + self.end * bool(self.lines)).encode("utf-8", "surrogateescape")


def opened(file: str) -> BinaryIO:
    """Opens a file for reading, without a wait for the writer of a pipe; a Mistake if that is not possible."""
    try:
        return open(file, "rb", opener=lambda path, flags: os.open(path, flags | os.O_NONBLOCK))
    except (OSError, ValueError) as error:
        raise Mistake(f"{file} cannot be read: {reason(error)}") from None


def reason(error: Exception) -> str:
    """Returns the reason of a failed call of the system; Python itself refuses a path with NUL in it."""
    if isinstance(error, ValueError):
        return "no file has such a name"
    return (error.strerror if isinstance(error, OSError) else None) or str(error)


def as_seen(path: str) -> str:
    """Returns a path relative to the folder of the start, if that folder is still there."""
    try:
        return os.path.relpath(path)
    except OSError:
        return path


def digest_of(raw: bytes) -> str:
    return hashlib.sha256(raw).hexdigest()[:32]


def raw_of(lines: Iterable[str]) -> bytes:
    """Returns lines as the bytes of a file."""
    return "".join(f"{line}\n" for line in lines).encode("utf-8", "surrogateescape")


def lines_of(source: Iterable[bytes]) -> Iterator[str]:
    """Yields the lines of a script: they end with LF, and one byte order mark at the start is skipped."""
    for number, raw in enumerate(source):
        line = raw[:-1] if raw.endswith(b"\n") else raw
        yield line[len(MARK) if number == 0 and line.startswith(MARK) else 0 :].decode("utf-8", "surrogateescape")


def home_of(file: str, journal: Journal, first: int = 0) -> Home | None:
    """Returns the home of the sheet that a script has made by the changes from number `first` on; None if it cannot be read again."""
    try:
        raw = Path(file).read_bytes() if os.path.isfile(file) else None
    except (OSError, ValueError):
        raw = None
    if raw is None:
        return None
    mark, lines = "\ufeff" * raw.startswith(MARK), [*lines_of(raw.split(b"\n"))]
    is_ended = lines[-1] == ""
    parts, end = parts_of(file, journal.changes[first:]), "\n" * is_ended
    return Home(os.path.realpath(file), digest_of(raw), lines[:-1] if is_ended else lines, parts, dict(journal.bindings), mark, end)


def parts_of(file: str, changes: Iterable[Change]) -> dict[str, Part]:
    """Returns the lines of a script that made each name."""
    parts: dict[str, Part] = {}
    for change in changes_of_lines(changes):
        place = change.places[0] if change.places else None
        number = place.number if place and place.file == file else 0
        for name, binding in change.bound.items():
            if binding or change.before.get(name):
                part = parts.setdefault(name, Part([], []))
                part.numbers.append(number)
                part.sources.extend([binding.source] if binding and binding.source else [])
    return parts


def changes_of_lines(changes: Iterable[Change]) -> Iterator[Change]:
    """Yields the changes of single lines, of which changes consist."""
    for change in changes:
        if len({*change.places}) > 1:
            yield from changes_of_lines(change.parts)
        else:
            yield change


def save(file: str, raw: bytes, home: Home | None, may_replace: bool) -> Tuple[str, str]:
    """Writes a script to a file, and returns its path and its digest. The old file is kept as FILE~.

    Raises a Mistake and writes nothing if the file is not the home, or someone else changed it, unless `may_replace`; if the file is not
    regular; or if the system refuses.
    """
    path = put(file, raw, there_already(file), partial(check_home, file, home), may_replace)
    return str(path), digest_of(raw)


def export(file: str, raw: bytes, may_replace: bool) -> None:
    """Writes an exported file. An existing file is a Mistake, or is kept as FILE~ if `may_replace`."""
    there = f"{file} is there already; --replace puts the new one in its place and keeps that file as {file}~"
    put(file, raw, there, lambda target: refuse(there), may_replace)


def refuse(mistake: str) -> None:
    raise Mistake(mistake)


def put(file: str, raw: bytes, there: str, check: Callable[[Path], None], may_replace: bool) -> Path:
    """Writes a file and returns its path. An existing file is passed to `check` unless `may_replace`, and is kept as FILE~.

    Raises a Mistake and writes nothing if another process creates the file meanwhile (`there`), or the system refuses.
    """
    try:
        target = Path(os.path.realpath(file))
        if target.exists():
            check_writable(file, target)
            if not may_replace:
                check(target)
            keep_old(target)
        write(target, raw, target.exists())
    except FileExistsError:
        raise Mistake(there) from None
    except (OSError, ValueError) as error:
        raise Mistake(f"{file} cannot be written: {reason(error)}") from None
    return target


def check_writable(file: str, target: Path) -> None:
    """Raises a Mistake, or the error of the system, if an existing file cannot be replaced."""
    if not target.is_file():
        raise Mistake(f"{file} cannot be written: it is no ordinary file")
    if not os.access(target, os.W_OK):
        raise PermissionError(errno.EACCES, os.strerror(errno.EACCES))


def check_home(file: str, home: Home | None, target: Path) -> None:
    """Raises a Mistake if an existing file is not the home, or someone else changed it."""
    if not home or home.path != str(target):
        raise Mistake(there_already(file))
    if digest_of(target.read_bytes()) != home.digest:
        advice = f"]save {file} --replace puts the sheet in its place and keeps that file as {file}~"
        raise Mistake(f"{file} was changed by someone else since it was loaded; {advice}")


def there_already(file: str) -> str:
    return f"{file} is there already; ]save {file} --replace puts the sheet in its place and keeps that file as {file}~"


def keep_old(target: Path) -> None:
    """Copies a file to FILE~."""
    with beside(target) as copy:
        shutil.copy2(target, copy)
        os.replace(copy, f"{target}~")


def write(target: Path, raw: bytes, may_replace: bool) -> None:
    """Writes a file beside its place, and gives it its name once it is complete; FileExistsError if there is one already."""
    with beside(target) as new:
        new.write_bytes(raw)
        with open(new, "rb") as written:
            os.fsync(written.fileno())
        take_rights(new, target)
        if may_replace:
            os.replace(new, target)
            return
        try:
            os.link(new, target)
        except FileExistsError:
            raise
        except OSError:  # a file system without second names
            os.close(os.open(target, os.O_CREAT | os.O_EXCL))
            os.replace(new, target)


@contextlib.contextmanager
def beside(target: Path) -> Iterator[Path]:
    """Makes an empty file beside another one for a block, and removes it at the end, if it still exists."""
    number, path = tempfile.mkstemp(prefix=f".{target.name}-", dir=target.parent)
    os.close(number)
    try:
        yield Path(path)
    finally:
        with contextlib.suppress(OSError):
            os.unlink(path)


def take_rights(new: Path, target: Path) -> None:
    """Gives a file the mode of the file that it replaces, and the owner if that is allowed. A new file gets the usual mode."""
    if not target.exists():
        mask = os.umask(0)
        os.umask(mask)
        os.chmod(new, 0o666 & ~mask)
        return
    there = target.stat()
    for owner in (there.st_uid, -1):  # a file of another user becomes ours, and keeps its group
        with contextlib.suppress(OSError):
            os.chown(new, owner, there.st_gid)
            break
    os.chmod(new, stat.S_IMODE(there.st_mode))
