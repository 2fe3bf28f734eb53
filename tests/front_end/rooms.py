"""Folders in which a test runs the front end, and a program that only seems to be one."""

from __future__ import annotations

import os
import signal
import subprocess
import sys
import time
from pathlib import Path
from typing import Callable, NamedTuple, Optional, Sequence, Tuple, Union

SECONDS = 60  # the most that one call or one answer may take
TOP = Path(__file__).resolve().parents[2]
SHEET = [sys.executable, str(TOP / "bin/sheet")]

# A program with the answers of aplsheet where these need no computing. Words in capitals are commands to it. A line with SLOW in it
# waits while the file `wait` is there, and makes the file `waits`.
FAKE = """#!{python}
import os, sys, time
is_refused = False
for line in sys.stdin.buffer:
    line = line.decode("utf-8", "replace").rstrip("\\n")
    while "SLOW" in line and os.path.exists("wait"):
        open("waits", "w").close()
        time.sleep(0.01)
    if is_refused or line == "REFUSE":
        print("NO MEMORY")
        is_refused = line == "REFUSE"
    elif line == "DIE":
        sys.exit(3)
    elif line == "KILL":
        os.kill(os.getpid(), 9)
    elif line == "VANISH":
        os.remove(sys.argv[0])
        sys.exit(4)
    elif "UNKNOWN←" in line or line == ")COMMIT 7":
        print("DEPTH ERROR\\nAT SIGN 1")
    elif "EMPTY←" in line:
        print()
    elif line.startswith(")ERASE"):
        pass
    elif line.startswith(")OPEN"):
        print(0)
    elif line.startswith("'"):
        print(line[1:-1])
    elif "←" not in line:
        print("VALUE " + line)
    sys.stdout.flush()
"""


class Room:
    """A folder of its own for one test, with the files that the test needs, in which the front end keeps its history too."""

    def __init__(self, program: str, folder: str) -> None:
        self.program, self.folder = program, Path(folder)
        own = {"XDG_STATE_HOME": str(self.folder / "state"), "TERM": "dumb", "LC_ALL": "C.UTF-8", "INPUTRC": "/dev/null"}
        own["TMPDIR"] = folder
        self.environment = {**os.environ, **own, "HOME": folder}
        self.leaders: list[subprocess.Popen[bytes]] = []  # a process for each terminal, the leader of its group

    def put(self, name: str, text: Union[str, bytes]) -> str:
        """Makes a file, and returns its name."""
        path = self.folder / name
        path.write_bytes(text if isinstance(text, bytes) else text.encode())
        return name

    def fake(self) -> str:
        """Makes the program that only seems to be one, and returns its path."""
        path = self.folder / "fake"
        path.write_text(FAKE.format(python=sys.executable))
        path.chmod(0o755)
        return str(path)

    def wait_for(self, name: str) -> None:
        """Waits until a file of that name is there."""
        begun = time.monotonic()
        while not (self.folder / name).exists():
            if time.monotonic() - begun > SECONDS:
                raise TimeoutError(f"{name} is not there")
            time.sleep(0.01)

    def customize(self, code: str) -> None:
        """Makes each Python that starts in this room run this code first."""
        (self.folder / "site").mkdir()
        (self.folder / "site/sitecustomize.py").write_text(code)
        self.environment["PYTHONPATH"] = str(self.folder / "site")

    def words(self, *words: str, program: Optional[str] = None) -> list[str]:
        return [*SHEET, "--program", program or self.program, *words]

    def watch(self) -> Tuple[int, str]:
        """Makes a pipe, which a shell opens by the words that are returned too; its child processes have it open until they end."""
        pipe = self.folder / f"pipe{len(os.listdir(self.folder))}"
        os.mkfifo(pipe)
        return os.open(pipe, os.O_RDONLY | os.O_NONBLOCK), f"exec 9> {pipe}; "

    def stop(self) -> None:
        """Kills the front ends that the test left on terminals: one that lost its terminal would write its log after the folder is gone."""
        for leader in self.leaders:
            if leader.poll() is None:
                os.killpg(leader.pid, signal.SIGKILL)
                leader.wait()

    def logs(self) -> list[Path]:
        """Returns the logs of sessions."""
        return sorted((self.folder / "state/aplsheet").glob("session-*"))

    def kept(self) -> list[str]:
        """Returns the lines that the logs of sessions have, without those about the session."""
        texts = [path.read_text() for path in self.logs()]
        return ["".join(line for line in text.splitlines(True) if not line.startswith("⍝")) for text in texts]

    def run(self, command: Union[str, Sequence[str]], lines: str = "") -> subprocess.CompletedProcess[str]:
        """Runs a command in the folder, with these lines on its standard input; a command that is a text is run by a shell."""
        return subprocess.run(
            command,
            shell=isinstance(command, str),
            input=lines,
            cwd=self.folder,
            env=self.environment,
            capture_output=True,
            text=True,
            timeout=SECONDS,
        )

    def call(self, *words: str, lines: Union[str, bytes] = "", program: Optional[str] = None) -> Tuple[int, str, str]:
        """Returns the status, standard output and standard error of a call."""
        typed = lines if isinstance(lines, bytes) else lines.encode()
        command = self.words(*words, program=program)
        ran = subprocess.run(command, input=typed, capture_output=True, timeout=SECONDS, cwd=self.folder, env=self.environment)
        return ran.returncode, ran.stdout.decode(), ran.stderr.decode("utf-8", "replace")

    def answers(self, *lines: str) -> str:
        """Returns the standard output for these lines."""
        return self.call(lines="\n".join(lines))[1]

    def messages(self, *lines: str) -> str:
        """Returns the standard error for these lines."""
        return self.call(lines="\n".join(lines))[2]


Outcome = Tuple[object, object]  # the result, and the wanted one


class Test(NamedTuple):
    """A test: its name, and the call that makes its outcome in a room of its own, with further arguments."""

    name: str
    call: Callable[..., Outcome]
    arguments: Tuple[object, ...] = ()


def named_tests(calls: Sequence[Callable[..., Outcome]]) -> list[Test]:
    """Returns tests that are named for their functions."""
    return [Test(call.__name__, call) for call in calls]
