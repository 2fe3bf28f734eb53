"""A terminal: line editing, the keys of the symbols, history and completion, by readline."""

from __future__ import annotations

import contextlib
import locale
import os
import re
from types import ModuleType
from typing import List, Optional

from . import commands, keys, recovery
from .errors import End
from .interrupts import signals
from .lines import COMMAND_WORDS, NAME
from .session import Session

PROMPT = " " * 6  # answers begin at the left edge, and stand out
TAKES_FILE = re.compile(r"\s*\](?:save|load|csv|export|(?:table|labels|pivot)\s+\S+)\s+(?P<path>(?:\\.|[^\s\\])*)$")


class Terminal:
    """Reads typed lines, and gives them to a session.

    readline     the module, if this Python has it
    history      the file with the lines of earlier sessions; None if there is none
    completions  the completions of the current word
    """

    def __init__(self, session: Session) -> None:
        self.session, self.history, self.completions = session, "", [""]
        self.readline: Optional[ModuleType] = None
        if locale.nl_langinfo(locale.CODESET) != "UTF-8":
            os.environ["LC_ALL"] = "C.UTF-8"  # readline then knows the symbols
        with contextlib.suppress(ImportError):  # without it, lines are read without editing
            import readline

            self.readline = readline
            self.set_up(readline)

    def set_up(self, readline: ModuleType) -> None:
        """Sets the keys, completion and history of readline."""
        if keys.FILE.exists():
            readline.read_init_file(str(keys.FILE))
        readline.parse_and_bind("tab: complete")
        readline.set_completer_delims(" \t")
        readline.set_completer(lambda text, number: self.complete(readline.get_line_buffer()[: readline.get_endidx()], text, number))
        readline.set_startup_hook(self.put_draft)
        readline.set_history_length(10000)
        try:
            history = recovery.state_folder() / "history"
            history.touch(0o600)
            readline.read_history_file(str(history))
            self.history = str(history)
        except OSError as error:
            self.session.tell(f"there is no history of earlier sessions: {error.strerror}")

    def put_draft(self) -> None:
        """Puts the line of ]edit at the prompt."""
        if self.readline and self.session.draft:
            self.readline.insert_text(self.session.draft)
        self.session.draft = ""

    def read(self) -> str:
        """Reads a line, and keeps it in the history."""
        known = self.readline.get_current_history_length() if self.readline else 0
        typed = read_line()
        if self.readline and self.history and self.readline.get_current_history_length() > known:
            try:
                self.readline.append_history_file(1, self.history)
            except OSError as error:
                self.session.tell(f"  lines are not kept for later sessions: {error.strerror}")
                self.history = ""
        return typed

    def complete(self, line: str, text: str, number: int) -> Optional[str]:
        """Returns the completion of this number for `text`, the last word of the line."""
        if number == 0:
            self.completions = self.completions_of(line, text)
        return self.completions[number] if number < len(self.completions) else None

    def completions_of(self, line: str, text: str) -> List[str]:
        """Returns the completions of a word: commands at the start of a line, files where a command takes one, and names."""
        if line.strip() == text and text[:1] in (")", "]"):
            words = [f"){word}" for word in COMMAND_WORDS] if text[0] == ")" else [f"]{word}" for word in commands.COMMANDS]
            return [f"{word} " for word in words if word.upper().startswith(text.upper())]
        if path := TAKES_FILE.match(line):
            typed = path["path"]
            return [quoted(name)[len(typed) - len(text) :] for name in files_that_begin(re.sub(r"\\(.)", r"\1", typed))]
        begun = re.search(f"{NAME}$", text)
        names = self.session.journal.bindings if begun else ()
        return [text[: begun.start()] + name for name in names if begun and name.startswith(begun[0])]

    def run(self) -> None:
        """Answers lines until Ctrl-D or ]off. Ctrl-C drops the typed line."""
        while True:
            try:
                signals.release()
                typed = self.read()
                self.session.on_screen = PROMPT + typed
                for line in typed.split("\n"):
                    self.session.take(line)
            except KeyboardInterrupt:
                self.session.tell("")
            except EOFError:
                with contextlib.suppress(OSError):  # the terminal may be gone
                    self.session.tell("")
                return
            except End:
                return


def read_line() -> str:
    """Reads a line. If a second signal follows at once, readline hides the exception of the first in a SystemError."""
    signals.is_reading = True
    try:
        return input(PROMPT)
    except SystemError as error:
        raise error.__cause__ or error
    finally:
        signals.is_reading = False


def quoted(path: str) -> str:
    """Returns a path as a word of a command, with a backslash before each character that would end the word."""
    return re.sub(r"""([\s'"\\])""", r"\\\1", path)


def files_that_begin(text: str) -> List[str]:
    """Returns the files and folders whose path begins with the text; hidden ones only if the text has their dot."""
    folder, begin = os.path.split(text)
    try:
        names = sorted(os.listdir(os.path.expanduser(folder) or "."))
    except OSError:
        return []
    paths = [os.path.join(folder, name) for name in names if name.startswith(begin) and name.startswith(".") <= begin.startswith(".")]
    return [path + "/" * os.path.isdir(os.path.expanduser(path)) for path in paths]
