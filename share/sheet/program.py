"""The program over pipes. A fence with a known answer follows each line; the output before that answer belongs to the line."""

from __future__ import annotations

import contextlib
import os
import queue
import re
import signal
import subprocess
import threading
from typing import IO, Callable, Iterator, List, NoReturn, Optional, Sequence, Set

from .interrupts import signals
from .progress import awaited

NO_MEMORY = "NO MEMORY"
SECONDS = 1  # the wait for a second fence, if the first one may have been refused memory
LARGE_PAGES = {"GLIBC_TUNABLES": "glibc.malloc.hugetlb=1"}  # glibc then asks the system for large pages for large arrays
HIGHEST = 0x10FFFD  # fences have a character of this last plane of Unicode, which begins with F4 in UTF-8
OF_PLANE = re.compile(rb"\xf4[\x80-\x8f][\x80-\xbf][\x80-\xbf]")


class ProgramFailed(Exception):
    """The program cannot be started, has ended, or does not answer as aplsheet does: one sentence."""


class Program:
    """A running program.

    A fence is a text, which the program prints unchanged. Its first character was in no line sent to this program, and no function of the
    language makes new characters, so no other answer has it. Fences are numbered, so each is recognized even if an earlier one was refused
    memory.

    words       the command that starts it
    is_in_step  whether every answer was read whole; False after Ctrl-C and after a failure
    is_awaited  returns whether a long wait for an answer may be shown at the terminal
    """

    process: subprocess.Popen[bytes]
    printed: queue.SimpleQueue[Optional[str]]
    reader: threading.Thread

    def __init__(self, words: Sequence[str]) -> None:
        self.words, self.environment = list(words), {**LARGE_PAGES, **os.environ}
        self.fence, self.number, self.is_started, self.is_in_step = "", 0, False, False
        self.characters: Set[str] = set()  # used ones of the plane of fences
        self.is_awaited: Callable[[], bool] = lambda: False

    def start(self) -> None:
        """Starts it, and waits until it answers."""
        with signals.delayed():
            self.start_process()
        self.write([])
        if self.next_line() != self.fence:
            self.stop()
            raise ProgramFailed(f"{self.words[0]} does not answer as aplsheet does")
        self.is_in_step = True
        self.environment["APLSHEET_TOLD"] = "1"  # bin/aplsheet tells once which build it is

    def start_process(self) -> None:
        """Starts the process, and a thread that reads its output."""
        pipe = subprocess.PIPE
        try:
            self.process = subprocess.Popen(self.words, stdin=pipe, stdout=pipe, start_new_session=True, env=self.environment)
        except (OSError, ValueError) as error:
            raise ProgramFailed(f"{self.words[0]} does not start: {getattr(error, 'strerror', error)}") from None
        self.is_started, self.printed, self.characters = True, queue.SimpleQueue(), set()
        self.reader = threading.Thread(target=pass_lines, args=(self.process.stdout, self.printed), daemon=True)
        self.reader.start()

    def another(self) -> Program:
        """Returns an unstarted program with the same words."""
        other = Program(self.words)
        other.environment, other.is_awaited = self.environment, self.is_awaited
        return other

    @property
    def is_ready(self) -> bool:
        """True if it runs, and every answer was read whole."""
        return self.is_started and self.is_in_step and self.reader.is_alive()

    def signal(self, number: int) -> None:
        """Sends a signal to the program and its children; any thread may call this."""
        with contextlib.suppress(ProcessLookupError):
            os.killpg(self.process.pid, number)

    def interrupt(self) -> None:
        """Ends it in any state; the thread that waits for an answer gets ProgramFailed. Any thread may call this."""
        self.signal(signal.SIGTERM)

    def stop(self) -> None:
        """Ends it in any state, and waits for the end."""
        self.is_in_step = False
        if self.is_started:
            self.interrupt()
            if self.status(SECONDS) is None:
                self.signal(signal.SIGKILL)
                self.status(None)
            self.close_input()

    def status(self, seconds: Optional[float]) -> Optional[int]:
        """Waits for the end of the process. Returns its status, or None after these seconds.

        Signals are held: one that raises within Popen.wait can leave a lock on which the next call waits for ever.
        """
        with signals.held(), contextlib.suppress(subprocess.TimeoutExpired):
            self.process.wait(seconds)
        return self.process.returncode

    def close_input(self) -> None:
        if self.process.stdin:
            with contextlib.suppress(OSError):  # unsent bytes
                self.process.stdin.close()

    def ask(self, line: str) -> List[str]:
        """Returns the output lines for a line. A fence that is refused memory prints one line, and is sent again."""
        self.write([line])
        fences = [self.fence]
        lines: List[str] = []
        while True:
            printed = self.next_line(SECONDS if lines and lines[-1] == NO_MEMORY else None)
            if printed == fences[-1]:
                break
            if printed is None:
                self.write([])
                fences.append(self.fence)
            else:
                lines.append(printed)
        end = next((place for place, text in enumerate(lines) if text in fences), len(lines))
        refused = fences.index(lines[end]) if end < len(lines) else len(fences) - 1
        self.is_in_step = True
        return lines[: end - refused]

    def ask_all(self, lines: Sequence[str]) -> List[List[str]]:
        """Returns the output lines for each of many lines, which are sent without a wait for answers."""
        return [*self.answers(lines)]

    def answers(self, lines: Sequence[str]) -> Iterator[List[str]]:
        """Yields the output of each of many lines as it arrives."""
        if not lines:
            return
        first = self.number + 1
        self.write(lines)
        for place in range(len(lines)):
            yield self.until(first + place)
        self.is_in_step = True

    def until(self, number: int) -> List[str]:
        """Returns the output lines before the fence of that number."""
        lines: List[str] = []
        fence = f"{self.fence[0]}{number}"
        while True:
            printed = self.next_line()
            if printed == fence:
                return lines
            if printed is None or self.fence[0] in printed:
                raise ProgramFailed(f"{self.words[0]} has no memory left")
            lines.append(printed)

    def write(self, lines: Sequence[str]) -> None:
        """Sends each line, followed by a fence; only a fence if there is no line."""
        self.is_in_step = False
        raw = [f"{line}\n".encode("utf-8", "surrogateescape") for line in lines] or [b""]
        for line in raw:
            if b"\xf4" in line:
                self.characters |= {character.decode("utf-8", "replace") for character in OF_PLANE.findall(line)}
        sign = next(character for character in map(chr, range(HIGHEST, 0x100000, -1)) if character not in self.characters)
        fenced = []
        for line in raw:
            self.number += 1
            self.fence = f"{sign}{self.number}"
            fenced += [line, f"'{self.fence}'\n".encode()]
        self.send(b"".join(fenced))

    def send(self, raw: bytes) -> None:
        """Writes bytes to its standard input."""
        assert self.process.stdin
        try:
            self.process.stdin.write(raw)
            self.process.stdin.flush()
        except OSError:
            self.fail()

    def next_line(self, seconds: Optional[float] = None) -> Optional[str]:
        """Returns the next output line, or None if none comes in time."""
        try:
            line = self.printed.get(timeout=seconds) if seconds else awaited(self.printed, self.is_awaited)
        except queue.Empty:
            return None
        return self.fail() if line is None else line

    def fail(self) -> NoReturn:
        """Raises ProgramFailed: the program has ended, or has closed its output."""
        status = self.status(SECONDS)
        self.stop()
        if status is None:
            raise ProgramFailed(f"{self.words[0]} has closed its output")
        how = f"was stopped by signal {-status}" if status < 0 else f"ended with status {status}"
        raise ProgramFailed(f"{self.words[0]} {how}")


def pass_lines(output: IO[bytes], lines: queue.SimpleQueue[Optional[str]]) -> None:
    """Puts the lines of the output into a queue one by one, and None at the end, also after an exception."""
    try:
        for line in output:
            lines.put(line.decode("utf-8", "surrogateescape").rstrip("\n"))
    finally:
        lines.put(None)
