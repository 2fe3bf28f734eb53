"""The options of --web and of ]view: wrong ones get a message. tests/web tests the page."""

from __future__ import annotations

import socket
import subprocess

from .rooms import SECONDS, Outcome, Room, Test, named_tests


def wrong_words(room: Room) -> Outcome:
    """Words that do not go together, and bad ports, get a message, and no server begins."""
    calls = [room.call(*words) for words in (["--web", "-"], ["--web", "--check", "a.apl"], ["--web", "--port", "99999"], ["--web", "--port", "x"])]
    told = [(status, printed, messages.strip().split("\n")[-1]) for status, printed, messages in calls]
    wanted = ["sheet: --web does not go together with lines from standard input", "sheet: --web does not go together with --check"]
    ports = [f"sheet: error: argument --port: {word} is no port; ports are numbers up to 65535" for word in ("99999", "x")]
    return told, [*((1, "", text) for text in wanted), *((2, "", text) for text in ports)]


def taken_port(room: Room) -> Outcome:
    """A port of another program gets a message and ends the call."""
    with socket.socket() as other:
        other.bind(("127.0.0.1", 0))
        other.listen()
        port = other.getsockname()[1]
        return room.call("--web", "--headless", "--port", str(port)), (1, "", f"sheet: the port {port} cannot be used: Address already in use\n")


def files_that_are_none(room: Room) -> Outcome:
    """A folder is no script, and several scripts have to be there."""
    room.put("a.apl", "A←1\n")
    calls = [room.call("--web", "--headless", str(room.folder)), room.call("--web", "--headless", "a.apl", "absent.apl")]
    said = [f"sheet: {room.folder} cannot be read: Is a directory\n", "sheet: absent.apl cannot be read: No such file or directory\n"]
    return calls, [(1, "", text) for text in said]


def view_over_pipes(room: Room) -> Outcome:
    """]view needs a terminal, and a port that is one."""
    said = "line 1: ]view is for a terminal; sheet --web FILE shows a sheet without one\n  ]view\n"
    said += "line 2: a word is missing behind --port; the form is ]view [--port 8000]\n  ]view --port\n"
    return room.messages("]view", "]view --port"), said


def ends_by_signals(room: Room) -> Outcome:
    """Ctrl-C ends a server with status 0, and SIGTERM with 143; its address is printed."""
    came = []
    for signal in (2, 15):
        words = room.words("--web", "--headless", "new.apl")
        with subprocess.Popen(words, cwd=room.folder, env=room.environment, stdout=subprocess.PIPE, stderr=subprocess.PIPE, text=True) as server:
            assert server.stderr
            lines = [server.stderr.readline() for _ in range(2)]
            server.send_signal(signal)
            came.append((server.wait(SECONDS), lines[0].startswith("the sheet is at http://127.0.0.1:"), lines[1], server.stderr.read()))
    return came, [(0, True, "Ctrl-C ends\n", ""), (143, True, "Ctrl-C ends\n", "")]


def tests(_times: int) -> list[Test]:
    return named_tests([wrong_words, taken_port, files_that_are_none, view_over_pipes, ends_by_signals])
