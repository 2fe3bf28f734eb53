"""Progress of long tasks, shown at a terminal."""

from __future__ import annotations

import contextlib
import queue
import sys
import time
from typing import Callable, Iterable, Iterator, TypeVar

Item = TypeVar("Item")
PATIENCE = 1.0  # seconds until the progress of a task is shown, and between two times
LONG = 2.0  # seconds until an answer is shown to be under way


class StatusLine:
    """A text on the current line of the terminal, which a later text replaces."""

    def __init__(self) -> None:
        self.width = 0

    def write(self, text: str) -> None:
        """Writes a text in place of the last one."""
        print("\r" + text.ljust(self.width) + "\r" * (not text), end="", file=sys.stderr, flush=True)
        self.width = len(text)

    def clear(self) -> None:
        """Deletes the text, if there is one."""
        if self.width:
            self.write("")


class Progress:
    """Shows the progress of a task on its own line, which disappears at the end of the task.

    task      its name
    total     the number of its steps
    is_shown  whether there is a terminal to show it
    """

    def __init__(self, task: str, total: int, is_shown: bool) -> None:
        self.task, self.total, self.is_shown = task, total, is_shown
        self.due, self.line = time.monotonic() + PATIENCE, StatusLine()

    def over(self, steps: Iterable[Item]) -> Iterator[Item]:
        """Yields the steps of the task."""
        try:
            for number, step in enumerate(steps):
                if self.is_shown and time.monotonic() > self.due:
                    self.due = time.monotonic() + PATIENCE
                    self.line.write(f"{self.task}: {100 * number // self.total} %")
                yield step
        finally:
            self.line.clear()


def awaited(answers: queue.SimpleQueue[Item], is_shown: Callable[[], bool]) -> Item:
    """Returns the next item of a queue. From two seconds on, a line of the terminal shows how long it takes, if `is_shown` allows it."""
    begun, pause, line = time.monotonic(), LONG, StatusLine()
    try:
        while True:
            with contextlib.suppress(queue.Empty):
                return answers.get(timeout=pause)
            pause = PATIENCE
            if is_shown():
                line.write(f"computing for {time.monotonic() - begun:.0f} s; Ctrl-C stops it")
    finally:
        line.clear()
