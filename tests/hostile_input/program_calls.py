"""Calls of the program: their status and output, the memory and the time that they take, and the answers between marks."""

from __future__ import annotations

import os
import re
import resource
import select
import subprocess
import threading
from contextlib import suppress
from functools import partial
from pathlib import Path
from random import Random
from typing import Callable, Iterable

TOP = Path(__file__).resolve().parent.parent.parent
SECONDS = 120  # the most that one call may take
END = b"<the end of the answers>\n"


def called(program: str, lines: bytes, *words: str, prepare: Callable[[], None] | None = None) -> tuple[int, bytes, bytes]:
    """Returns the status, the output and the standard error of a call. Its process calls `prepare` before the program starts."""
    call = subprocess.run([program, *words], input=lines, capture_output=True, timeout=SECONDS, preexec_fn=prepare)
    return call.returncode, call.stdout, call.stderr


def limiting(kind: int, most: int) -> Callable[[], None]:
    """Returns a function that limits a resource of the process that calls it."""
    return partial(resource.setrlimit, kind, (most, most))


def needs(holds: object, failure: str) -> None:
    """Fails the test, with this text, unless the condition holds."""
    if not holds:
        raise AssertionError(failure)


class Call:
    """A call that is asked for answers, and looked at before it ends."""

    def __init__(self, program: str) -> None:
        self.process = subprocess.Popen([program], bufsize=0, stdin=subprocess.PIPE, stdout=subprocess.PIPE)
        assert self.process.stdin and self.process.stdout
        self.input, self.output = self.process.stdin, self.process.stdout
        self.feeder: threading.Thread | None = None

    def __enter__(self) -> Call:
        return self

    def __exit__(self, fault: type[BaseException] | None, *_: object) -> None:
        if fault:
            self.process.kill()
        if self.feeder:
            self.feeder.join()
        self.input.close()
        self.output.close()
        status = self.process.wait(SECONDS)
        needs(fault or status == 0, f"status {status}")

    def answers(self, chunks: Iterable[bytes]) -> bytes:
        """Returns the answers to chunks of whole lines."""
        self.feeder = threading.Thread(target=self.feed, args=(chunks,))
        self.feeder.start()
        answers = bytearray()
        while not answers.endswith(END):
            ready, _, _ = select.select([self.output], [], [], SECONDS)
            needs(ready, f"nothing for {SECONDS} seconds after {bytes(answers[-300:])!r}")
            more = os.read(self.output.fileno(), 1 << 20)
            needs(more, f"the program ends after {bytes(answers[-300:])!r}")
            answers += more
        return bytes(answers[: -len(END)])

    def feed(self, chunks: Iterable[bytes]) -> None:
        """Writes the chunks to the program, and behind them the line whose answer is END."""
        with suppress(BrokenPipeError), open(self.input.fileno(), "wb", closefd=False) as pipe:
            for chunk in chunks:
                pipe.write(chunk)
            pipe.write(b"'" + END[:-1] + b"'\n")

    def held(self) -> int:
        """Returns the most kB that the program held in memory."""
        return int(re.findall(r"VmHWM:\s+(\d+) kB", Path(f"/proc/{self.process.pid}/status").read_text())[0])

    def seconds(self) -> float:
        """Returns the processor time that the program took."""
        return int(Path(f"/proc/{self.process.pid}/schedstat").read_text().split()[0]) / 1e9

    def seconds_for(self, *chunks: bytes) -> float:
        """Returns the processor time that the program takes for the answers to chunks."""
        before = self.seconds()
        self.answers(chunks)
        return self.seconds() - before


def watched(program: str, chunks: Iterable[bytes]) -> tuple[bytes, int, float]:
    """Returns the answers to chunks of whole lines, the most kB that the program held in memory, and its processor time in seconds."""
    with Call(program) as call:
        return call.answers(chunks), call.held(), call.seconds()


def random_mark(chance: Random) -> bytes:
    """Returns the text with which the marks of a call begin. No other answer holds it."""
    return b"#%x#" % chance.getrandbits(64)


def answers_between_marks(program: str, chunks: list[bytes], mark: bytes) -> list[bytes]:
    """Returns the answers to each chunk of lines. A text that marks its end is put behind each."""
    marks = [b"%s%d" % (mark, number) for number in range(len(chunks))]
    status, output, errors = called(program, b"".join(b"%s\n'%s'\n" % pair for pair in zip(chunks, marks)))
    needs((status, errors) == (0, b""), f"status {status}, {errors!r}")
    answers: list[bytes] = []
    begin = 0
    for chunk, text in zip(chunks, marks):
        end = output.find(text + b"\n", begin)
        needs(end >= 0, f"the mark after {chunk[-300:]!r} is lost")
        answers.append(output[begin:end])
        begin = end + len(text) + 1
    needs(begin == len(output), f"{output[begin:][:300]!r} after the last mark")
    return answers
