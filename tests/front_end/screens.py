"""Pseudoterminals in which the front end runs."""

from __future__ import annotations

import codecs
import contextlib
import fcntl
import os
import pty
import re
import select
import shlex
import signal
import struct
import subprocess
import termios
import time
from typing import Callable, Optional, Tuple

from .rooms import SECONDS, Room

PROMPT = " " * 6


class Screen:
    """A terminal with the front end, or with a shell that runs it: its output, and keys for it.

    `more` is the rest of the line of the shell after the call of the front end.
    """

    def __init__(self, room: Room, *words: str, program: Optional[str] = None, shell: Optional[str] = None, more: str = "") -> None:
        self.master, slave = pty.openpty()
        fcntl.ioctl(slave, termios.TIOCSWINSZ, struct.pack("HHHH", 50, 200, 0, 0))
        call = room.words(*words, program=program)
        begun = ["setsid", "--ctty", *([shell, "-i"] if shell else ["sh", "-c", f"{shlex.join(call)} {more}"] if more else call)]
        self.process = subprocess.Popen(begun, stdin=slave, stdout=slave, stderr=slave, cwd=room.folder, env=room.environment)
        room.leaders.append(self.process)
        os.close(slave)
        self.shown, self.decoder, self.pipe = "", codecs.getincrementaldecoder("utf-8")("replace"), -1
        if shell:
            self.pipe, opening = room.watch()
            os.write(self.master, f"{opening}{shlex.join(call)}\n".encode())
        self.read(lambda: self.shown.endswith(PROMPT))

    def read(self, is_enough: Callable[[], bool]) -> None:
        """Reads the output until it is enough, or the front end ends."""
        begun = time.monotonic()
        while not is_enough():
            if time.monotonic() - begun > SECONDS:
                raise TimeoutError(self.shown)
            if select.select([self.master], [], [], 0.01)[0]:
                try:
                    self.shown += self.decoder.decode(os.read(self.master, 65536)).replace("\r", "").replace("\a", "")
                except OSError:  # the other end is closed
                    return

    def keys(self, keys: str, is_enough: Optional[str] = None) -> str:
        """Types keys. Returns the output up to the next prompt, or up to a text."""
        before = len(self.shown)
        os.write(self.master, keys.encode())
        self.read(lambda: self.shown[before:].endswith("\n" + PROMPT) if is_enough is None else is_enough in self.shown[before:])
        return re.sub(f"{PROMPT}$", "", self.shown[before:])

    def end(self, keys: str = "\x04") -> Tuple[int, str]:
        """Types the keys that end the session. Returns the status and the output."""
        before = len(self.shown)
        with contextlib.suppress(OSError):  # the process has ended
            os.write(self.master, keys.encode())
        self.read(lambda: False)
        os.close(self.master)
        return self.process.wait(SECONDS), self.shown[before:]

    def break_off(self, sign: Optional[signal.Signals]) -> None:
        """Ends the front end by a signal, or without one by closing the terminal. Waits until it has ended."""
        if sign:
            self.process.send_signal(sign)
            self.read(lambda: False)
        os.close(self.master)
        self.process.wait(SECONDS)

    def close(self) -> None:
        """Closes the terminal as a window does, and waits until the shell and the front end have ended."""
        os.close(self.master)
        wait_for_end(self.pipe)
        self.process.wait(SECONDS)


def wait_for_end(pipe: int) -> None:
    """Waits until nothing has the other end of a pipe open."""
    if not select.select([pipe], [], [], SECONDS)[0]:
        raise TimeoutError("a process goes on")
    os.close(pipe)
