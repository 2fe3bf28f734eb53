"""Saved files: an existing file stays, unless it is the home or --replace is given, and keeps its mode."""

from __future__ import annotations

import os
import shutil

from .rooms import Outcome, Room, Test, named_tests
from .screens import Screen

# Root may write any file, so it drops that capability.
AS_A_USER = ["setpriv", "--bounding-set", "-dac_override,-dac_read_search", "--inh-caps", "-dac_override,-dac_read_search"]


def two_sessions(room: Room) -> Outcome:
    """The second session of a file gets a message; the last to save it is refused without --replace."""
    path = room.folder / room.put("a.apl", "A←1\n")
    first, second = Screen(room, "a.apl", "-"), Screen(room)
    messages = ["another session has this file too" in first.shown, "another session has this file too" in second.keys("]load a.apl\n")]
    second.keys("B`[2\n")
    first.keys("C`[3\n")
    messages += ["2 names saved in a.apl\n" in second.keys("]save\n"), "was changed by someone else" in first.keys("]save\n")]
    messages += ["was changed by someone else" in first.keys("]save a.apl\n"), path.read_text() == "A←1\nB←2\n"]
    messages += ["2 names saved in a.apl\n" in first.keys("]save a.apl --replace\n")]
    messages += ["was changed by someone else" in second.keys("]save\n")]
    ends = first.end()[0], second.end()[0], len(room.logs())
    texts = path.read_text(), (room.folder / "a.apl~").read_text()
    return (messages, ends, texts), ([False, *[True] * 7], (0, 0, 0), ("A←1\nC←3\n", "A←1\nB←2\n"))


def changed_by_an_editor(room: Room) -> Outcome:
    """A file that was changed, removed or made again meanwhile is written if that loses nothing."""
    path = room.folder / room.put("a.apl", "A←1\n")
    screen = Screen(room, "a.apl", "-")
    screen.keys("B`[2\n")
    path.write_text("A←7\n")
    messages = ["was changed by someone else" in screen.keys("]save\n")]
    path.unlink()
    messages += ["2 names saved in a.apl\n" in screen.keys("]save\n"), path.read_text() == "A←1\nB←2\n"]
    path.unlink()
    path.write_text("A←1\nB←2\n")
    screen.keys("C`[3\n")
    messages.append("3 names saved in a.apl\n" in screen.keys("]save\n"))
    return (messages, screen.end()[0]), ([True] * 4, 0)


def save_without_file(room: Room) -> Outcome:
    """]save without FILE writes the home of the sheet in any folder; without a home it is refused."""
    (room.folder / "plans").mkdir()
    room.put("plans/a.apl", "A←1\n")
    refused = room.call(lines="A←1\n]save\n")[2]
    messages = room.messages("]load plans/a.apl", "B←2", "]save", "]save b.apl", "C←3", "]save")
    wanted = "".join(f"{number} names saved in {file}\n" for number, file in ((2, "plans/a.apl"), (2, "b.apl"), (3, "b.apl")))
    texts = [(room.folder / file).read_text() for file in ("plans/a.apl", "b.apl")]
    return (refused[:40], messages, texts), ("line 2: the sheet comes from no file; ]s", wanted, ["A←1\nB←2\n", "A←1\nB←2\nC←3\n"])


def links(room: Room) -> Outcome:
    """A symbolic link stays one: its file gets the sheet, and is made if it is missing."""
    (room.folder / "plans").mkdir()
    room.put("plans/a.apl", "A←1\n")
    os.symlink("plans/a.apl", room.folder / "link.apl")
    os.symlink("plans/b.apl", room.folder / "new.apl")
    os.symlink("loop.apl", room.folder / "loop.apl")
    messages = room.messages("]load link.apl", "B←2", "]save", "]save new.apl", "]save loop.apl", "]save loop.apl --replace")
    texts = [(room.folder / file).read_text() for file in ("plans/a.apl", "plans/b.apl", "plans/a.apl~")]
    is_link = [(room.folder / file).is_symlink() for file in ("link.apl", "new.apl", "loop.apl")]
    return (messages.count("2 names saved"), "FAULT" in messages, texts, is_link), (2, False, ["A←1\nB←2\n"] * 2 + ["A←1\n"], [True] * 3)


def refused_writes(room: Room) -> Outcome:
    """A file or folder without write permission stays unchanged, and nothing is left beside it."""
    room.put("a.apl", "A←1\n")
    (room.folder / "a.apl").chmod(0o444)
    for folder in ("shut", "b.apl~"):
        (room.folder / folder).mkdir()
    (room.folder / "shut").chmod(0o555)
    room.put("b.apl", "A←1\n")
    lines = "]load a.apl\nB←2\n]save\n]save a.apl --replace\n]save shut/c.apl\n]save b.apl --replace\n"
    begin = AS_A_USER if os.getuid() == 0 else []
    messages = room.run([*begin, *room.words()], lines).stderr
    texts = [(room.folder / file).read_text() for file in ("a.apl", "b.apl")]
    left = sorted(name for _, folders, files in os.walk(room.folder) for name in [*folders, *files] if name not in ("state", "aplsheet"))
    reasons = messages.count("cannot be written: Permission denied\n"), messages.count("b.apl cannot be written: Is a directory\n")
    return (reasons, texts, left), ((3, 1), ["A←1\n"] * 2, ["a.apl", "b.apl", "b.apl~", "shut"])


def kept_rights(room: Room) -> Outcome:
    """A replaced file keeps its rights, group and owner; a new one has the usual rights."""
    path = room.folder / room.put("a.apl", "A←1\n")
    owner = (1234, 5678) if os.getuid() == 0 else (os.getuid(), os.getgroups()[-1] if os.getgroups() else os.getgid())
    os.chown(path, *owner)
    path.chmod(0o640)
    room.put(".a.apl-abcdefgh", "a foreign file")
    room.call(lines="]load a.apl\nB←2\n]save\n]save new.apl\n")
    (room.folder / "other").touch()
    there, new, other = (os.stat(room.folder / name) for name in ("a.apl", "new.apl", "other"))
    names = sorted(name for name in os.listdir(room.folder) if name != "state")
    kept = there.st_mode & 0o777, (there.st_uid, there.st_gid), new.st_mode == other.st_mode, (room.folder / ".a.apl-abcdefgh").read_text()
    return (kept, names), ((0o640, owner, True, "a foreign file"), [".a.apl-abcdefgh", "a.apl", "a.apl~", "new.apl", "other"])


def tests(_times: int) -> list[Test]:
    can_refuse = os.getuid() != 0 or shutil.which("setpriv")
    return named_tests([two_sessions, changed_by_an_editor, save_without_file, links, kept_rights, *[refused_writes] * bool(can_refuse)])
