"""Signals: Ctrl-C stops the current line; a request to end, or the end of the terminal, ends the session."""

from __future__ import annotations

import contextlib
import os
import signal
import threading
import time
from types import FrameType
from typing import Iterator, Optional

ENDING = (signal.SIGTERM, signal.SIGHUP)
WAKING = signal.SIGURG  # sent to the main thread, to end a wait; ignored where it has no handler
DELAY = 0.1  # seconds from a signal to the end of a wait that has missed it


class Signals:
    """The handler of all signals: each raises an exception in the main thread, unless signals are held.

    Other threads get no signals, so holding and releasing does nothing there. A signal that raises holds later ones until the session
    continues, so a second one does not interrupt the work that the first one began. While signals are held, Ctrl-C does nothing, and a signal
    of ENDING is only recorded.

    are_held        whether no signal raises
    is_interrupted  whether Ctrl-C came since a block of `delayed` began
    is_reading      whether the main thread reads a line, with signals released before
    ending          the first one of ENDING that came, or None
    """

    def __init__(self) -> None:
        self.are_held = self.is_interrupted = self.is_reading = False
        self.ending: Optional[int] = None

    def install(self) -> None:
        """Installs handlers, except for signals that the caller of the front end ignores."""
        for number in (signal.SIGINT, *ENDING):
            if signal.getsignal(number) != signal.SIG_IGN:
                signal.signal(number, self.take)
        signal.signal(WAKING, self.take_waking)
        wake_behind_signals()

    def take(self, number: int, _frame: Optional[FrameType]) -> None:
        """Handles a signal."""
        if number in ENDING:
            self.ending = self.ending or number
        else:
            self.is_interrupted = True
        if not self.are_held:
            self.act()

    def take_waking(self, _number: int, _frame: Optional[FrameType]) -> None:
        """Handles WAKING: if readline has dropped an exception, it is raised again."""
        if self.is_dropped:
            self.act()

    @property
    def is_dropped(self) -> bool:
        """True if a signal has raised, and the line is read on: readline drops the exceptions of its hooks and of completions."""
        return self.is_reading and self.are_held

    def act(self) -> None:
        """Raises SystemExit if one of ENDING has come, else KeyboardInterrupt."""
        self.are_held = True
        if self.ending:
            raise SystemExit(self.status)
        raise KeyboardInterrupt

    def hold(self) -> None:
        """Holds signals from now on."""
        self.is_reading = False
        self.are_held = True

    def release(self) -> None:
        """Releases signals. A signal of ENDING that came meanwhile raises here."""
        self.are_held = False
        if self.ending:
            self.act()

    @contextlib.contextmanager
    def held(self) -> Iterator[None]:
        """Holds signals in a block, and releases them after it unless they were held before."""
        if not is_main_thread():
            yield
            return
        were_held, self.are_held = self.are_held, True
        try:
            yield
        finally:
            if not were_held:
                self.release()

    @contextlib.contextmanager
    def delayed(self) -> Iterator[None]:
        """Holds signals in a block. After it a held Ctrl-C raises too, unless signals were held before."""
        if not is_main_thread():
            yield
            return
        self.is_interrupted = False
        with self.held():
            yield
        if self.is_interrupted and not self.are_held:
            self.act()

    @contextlib.contextmanager
    def without_interrupts(self) -> Iterator[None]:
        """Ignores Ctrl-C in a block; the signals of ENDING still raise."""
        if not is_main_thread():
            yield
            return
        kept = signal.signal(signal.SIGINT, signal.SIG_IGN)
        try:
            yield
        finally:
            signal.signal(signal.SIGINT, kept)

    @property
    def status(self) -> int:
        """The exit status of a session that a signal has ended; 0 if none has."""
        return 128 + self.ending if self.ending else 0


def is_main_thread() -> bool:
    return threading.current_thread() is threading.main_thread()


def wake_behind_signals() -> None:
    """Ends a wait of the main thread shortly after each signal, since readline misses a signal just before it waits for a key."""
    numbers, pipe = os.pipe()
    os.set_blocking(pipe, False)
    signal.set_wakeup_fd(pipe, warn_on_full_buffer=False)
    threading.Thread(target=wake, args=(numbers, threading.get_ident()), daemon=True).start()


def wake(numbers: int, thread: int) -> None:
    """Reads the numbers of incoming signals, and sends WAKING to a thread after each other signal, until none is dropped."""
    while read := os.read(numbers, 512):
        is_waiting = {*read} != {WAKING}
        while is_waiting:
            time.sleep(DELAY)
            signal.pthread_kill(thread, WAKING)
            is_waiting = signals.is_dropped


signals = Signals()
