"""Input that fails after each of its bytes, and output that fails after each of its: cut off, closed, or to a full device."""

from __future__ import annotations

import os
import pty
import resource
import signal
import subprocess
import tempfile
import tty
from pathlib import Path

from .program_calls import SECONDS, TOP, called, limiting, needs

# The rows whose input and output fail at each of their bytes.
CUT = ["first_run", "totals_of_rows", "index_error_in_a_formula"]


def row_input(name: str) -> bytes:
    return (TOP / f"tests/rows/{name}.in").read_bytes()


def row_output(name: str) -> bytes:
    return (TOP / f"tests/rows/{name}.out").read_bytes()


def broken_off(program: str, text: bytes) -> tuple[int, bytes, bytes]:
    """Returns status, output and standard error of a call whose input gives this text and then fails.

    The input is a terminal of which the other side is closed.
    """
    ours, theirs = pty.openpty()
    tty.setraw(theirs)
    os.write(theirs, text)
    os.close(theirs)
    try:
        call = subprocess.run([program], stdin=ours, capture_output=True, timeout=SECONDS)
    finally:
        os.close(ours)
    return call.returncode, call.stdout, call.stderr


def try_broken_input(program: str) -> str:
    """Tries input that fails after each of its bytes. Exactly the lines that were whole are answered."""
    texts = [b"1+1\n2", *map(row_input, CUT)]
    beginnings = [text[:length] for text in texts for length in range(len(text) + 1)]
    for beginning in beginnings:
        whole_lines = beginning[: beginning.rfind(b"\n") + 1]
        result, answers = broken_off(program, beginning), called(program, whole_lines)[1]
        needs(result == (1, answers, b"READ FAULT\n"), f"{beginning!r} and then a fault give {result}, and not {answers!r}")
    return f"{len(beginnings)} inputs that break off"


def cut_off(program: str, text: bytes, length: int, path: Path) -> tuple[int, bytes, bytes]:
    """Returns status, output and standard error of a call whose output is a file that takes at most this number of bytes."""
    limit = limiting(resource.RLIMIT_FSIZE, length)
    with path.open("wb") as output:
        call = subprocess.run(
            [program], input=text, stdout=output, stderr=subprocess.PIPE, timeout=SECONDS, restore_signals=False, preexec_fn=limit
        )
    return call.returncode, path.read_bytes(), call.stderr


def try_cut_output(program: str) -> str:
    """Tries output that fails after each of its bytes. A beginning of the answers is written, as long as the output took."""
    signal.signal(signal.SIGXFSZ, signal.SIG_IGN)
    cases = [(name, length) for name in CUT for length in range(len(row_output(name)) + 1)]
    with tempfile.TemporaryDirectory(prefix="hostile-") as folder:
        for name, length in cases:
            answers = row_output(name)
            result = cut_off(program, row_input(name), length, Path(folder, "output"))
            due = (0, answers, b"") if length == len(answers) else (1, answers[:length], b"WRITE FAULT\n")
            needs(result == due, f"{name} into {length} bytes gives {result}")
    return f"{len(cases)} outputs that break off"


def try_closed_output(program: str) -> str:
    """Tries output that is closed once the first answer has come."""
    lines = row_input("first_run").splitlines(keepends=True)
    with subprocess.Popen([program], bufsize=0, stdin=subprocess.PIPE, stdout=subprocess.PIPE, stderr=subprocess.PIPE) as call:
        assert call.stdin and call.stdout and call.stderr
        call.stdin.write(b"".join(lines[:4]))
        needs(call.stdout.readline() == b"3 6 9\n", "another answer")
        call.stdout.close()
        call.stdin.write(b"".join(lines[4:]))
        call.stdin.close()
        errors, status = call.stderr.read(), call.wait(SECONDS)
    needs((status, errors) == (1, b"WRITE FAULT\n"), f"status {status}, {errors!r}")
    return "a pipe that is closed after an answer"


def try_full_device(program: str) -> str:
    """Tries output to a device that is full."""
    with open("/dev/full", "wb") as full:
        for name in CUT:
            call = subprocess.run([program], input=row_input(name), stdout=full, stderr=subprocess.PIPE, timeout=SECONDS)
            needs((call.returncode, call.stderr) == (1, b"WRITE FAULT\n"), f"{name}: status {call.returncode}, {call.stderr!r}")
    return "rows into a device that is full"
