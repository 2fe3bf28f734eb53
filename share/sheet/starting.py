"""The command line of bin/sheet."""

from __future__ import annotations

import argparse
import contextlib
import os
import signal
import sys
from functools import partial
from pathlib import Path
from typing import Callable, NoReturn, Sequence, TextIO

from . import file_commands, files, recovery
from .errors import End, Lost, Mistake, OutputFailed, Stopped
from .interrupts import signals
from .program import Program, ProgramFailed
from .recovery import Log
from .session import Session, told_of
from .terminal import Terminal
from .version import version_line
from .view_commands import HIGHEST_PORT

WORDS = """A sheet of APL formulas at the terminal. docs/SHEET.md tells of it, docs/LANGUAGE.md of the language.

Without SCRIPT, lines are read from the terminal or from standard input. The lines of each SCRIPT are answered in their order, and - stands
for standard input: so `sheet plan.apl -` loads plan.apl and goes on with what is typed. Values go to standard output. Errors and refusals
go to standard error, each with the line of the script where it stands; then the status is 1.
"""


def words() -> argparse.ArgumentParser:
    """Returns the options of the front end."""
    parser = argparse.ArgumentParser(prog="sheet", description=WORDS, formatter_class=argparse.RawDescriptionHelpFormatter)
    parser.add_argument("scripts", nargs="*", metavar="SCRIPT", help="a file of lines, or - for standard input")
    check = "tell of errors and refusals alone, also of names that show an error, and write no file"
    parser.add_argument("--check", action="store_true", help=check)
    parser.add_argument("--web", action="store_true", help="show the sheet in a browser; Save there writes SCRIPT, if one is named")
    parser.add_argument("--port", type=port_of, default=0, metavar="PORT", help="the port of --web; as a rule a free one")
    parser.add_argument("--headless", action="store_true", help="open no browser for --web, and tell the address alone")
    parser.add_argument("--program", metavar="PROGRAM", help="the program that answers; as a rule the one beside this one")
    parser.add_argument("--version", action="version", version=version_line(), help="print the version, and nothing else")
    return parser


def port_of(text: str) -> int:
    """Returns the number of a port; argparse reports a ValueError."""
    if not text.isdecimal() or int(text) > HIGHEST_PORT:
        raise argparse.ArgumentTypeError(f"{text} is no port; ports are numbers up to {HIGHEST_PORT}")
    return int(text)


class Output:
    """The output: answers go to standard output, everything else to standard error, after the answers so far.

    answers     standard output
    has_screen  whether the answers go to a terminal
    """

    def __init__(self) -> None:
        self.answers = sys.stdout
        self.has_screen = self.answers.isatty()

    def part(self) -> None:
        """Keeps standard output for the answers if it is no terminal. Lines are then edited at the terminal of standard input."""
        if not self.has_screen:
            self.answers = open(os.dup(1), "w", encoding="utf-8", errors="surrogateescape", buffering=1)
            os.dup2(0, 1)
            with contextlib.suppress(OSError):  # standard input may be open only for reading
                redirect(sys.stdout, os.ttyname(0))

    def show(self, line: str) -> None:
        """Writes a line of an answer."""
        try:
            print(line, file=self.answers)
        except OSError as error:
            self.fail(error)

    def flush(self) -> None:
        """Writes the answers so far."""
        try:
            self.answers.flush()
        except OSError as error:
            self.fail(error)

    def fail(self, error: OSError) -> NoReturn:
        """Raises OutputFailed. Drops all answers that are not written."""
        redirect(self.answers, os.devnull)
        raise OutputFailed("" if isinstance(error, BrokenPipeError) else error.strerror) from None

    def tell(self, line: str) -> None:
        """Writes a line that is no answer; drops it if standard error fails."""
        try:
            self.flush()
        finally:
            try:
                print(line, file=sys.stderr, flush=True)
            except OSError:
                redirect(sys.stderr, os.devnull)


def redirect(stream: TextIO, path: str) -> None:
    """Makes a stream write to another file."""
    file = os.open(path, os.O_WRONLY | os.O_NOCTTY)
    os.dup2(file, stream.fileno())
    os.close(file)


def main(top: Path) -> int:
    """Runs the front end whose program is in bin/ of this folder. Returns the status."""
    options = words().parse_args()
    open_streams()
    signals.install()
    output, program = Output(), Program([options.program or str(Path(top, "bin", "aplsheet"))])
    session = Session(program, output.show, output.tell, options.check)
    session.has_screen, session.top = output.has_screen, top
    try:
        program.start()
        answering: Answering = answer
        if options.web:
            answering = partial(answer_pages, port=options.port, opens=not options.headless)
        answer_and_keep(session, options.scripts or ["-"] * (not options.web), output, answering)
        output.flush()
    except (ProgramFailed, Lost, Mistake) as failure:
        sys.exit(f"sheet: {failure}")
    except (KeyboardInterrupt, Stopped):
        return 128 + signal.SIGINT
    except OutputFailed as failure:
        sys.exit(f"sheet: standard output: {failure}" if str(failure) else 1)
    except Exception as fault:
        sys.exit(f"sheet: FAULT OF THE FRONT END: {told_of(fault)}")
    finally:
        session.program.stop()
    return signals.status or int(session.faults > 0)


def open_streams() -> None:
    """Opens the three streams if they are closed, and makes them UTF-8."""
    for number, name, mode in ((0, "stdin", "r"), (1, "stdout", "w"), (2, "stderr", "w")):
        if getattr(sys, name) is None:
            with contextlib.suppress(OSError):
                os.dup2(os.open(os.devnull, os.O_RDWR), number)
            setattr(sys, name, open(os.devnull, mode))
        getattr(sys, name).reconfigure(encoding="utf-8", errors="surrogateescape", line_buffering=True)


Answering = Callable[[Session, Sequence[str], Output], None]


def answer_and_keep(session: Session, scripts: Sequence[str], output: Output, answering: Answering) -> None:
    """Answers the lines of each script, and ends the session and its log after any exception; no signal interrupts that.

    A signal that raises holds the others. So they are held below even if one raises just before the call that holds them.
    """
    try:
        try:
            answering(session, scripts, output)
        finally:
            signals.hold()
    finally:
        session.at_end.close()
        if session.log:
            end(session, session.log)


def end(session: Session, log: Log) -> None:
    """Ends the log of a session, and prints how to continue with an unsaved sheet."""
    path = log.end(session.journal, session.home)
    if not session.journal.is_saved:
        with contextlib.suppress(OSError, OutputFailed):  # the terminal may be gone
            older = f"; {log.path} has the changes before, and ]recover goes on with them" if log.path else ""
            lost = f"the last changes are lost: no file can be written{older}"
            session.tell(f"the sheet was not saved; ]recover goes on with it, from {path}" if path else lost)


def answer(session: Session, scripts: Sequence[str], output: Output) -> None:
    """Answers the lines of each script."""
    try:
        for script in scripts:
            if script != "-":
                run_script(session, script, scripts)
            elif sys.stdin.isatty():
                answer_typed(session, output)
            else:
                session.run(None, sys.stdin.buffer)
    except End:
        pass
    if session.is_check:
        session.check_names()


def answer_pages(session: Session, scripts: Sequence[str], output: Output, port: int, opens: bool) -> None:
    """Answers the lines of each script, and then the lines of pages in a browser, until Ctrl-C. A single absent script is a new one."""
    from .view import running  # its modules would slow each start at a terminal

    if "-" in scripts or session.is_check:
        sys.exit(f"sheet: --web does not go together with {'--check' if session.is_check else 'lines from standard input'}")
    is_new = len(scripts) == 1 and not os.path.lexists(scripts[0])
    for script in [] if is_new else scripts:
        run_script(session, script, scripts)
    begin_log(session, output)
    server = running.begin(session, scripts[0] if len(scripts) == 1 else None, port, opens)
    with contextlib.suppress(KeyboardInterrupt):
        output.tell("Ctrl-C ends")
        server.serve_forever(0.2)
    session.faults = 0
    if server.lost:
        raise server.lost


def begin_log(session: Session, output: Output) -> Log:
    """Begins the log of a session, offers the interrupted ones, and returns the log."""
    log = session.log = Log(output.tell)
    log.begin(session.journal, session.home)
    session.tell_of_others()
    for offer in file_commands.offers([*recovery.unended()]):
        output.tell(f"not saved: {offer}")
    return log


def run_script(session: Session, script: str, scripts: Sequence[str]) -> None:
    """Answers the lines of a script. A single script is the home of the sheet."""
    is_alone = not session.journal.bindings and [script] == [name for name in scripts if name != "-"]
    try:
        with open(script, "rb") as source:
            session.run(script, source)
    except (OSError, ValueError) as error:
        sys.exit(f"sheet: {script} cannot be read: {files.reason(error)}")
    session.come_home(files.home_of(script, session.journal) if is_alone else None)


def answer_typed(session: Session, output: Output) -> None:
    """Answers lines typed at a terminal, and logs the session. It ends at once only if the sheet is kept."""
    output.part()
    log = begin_log(session, output)
    output.tell("aplsheet: ]help tells of the commands, ]keys of the keys of the symbols; Ctrl-D ends")
    typed, is_warned = Terminal(session), False
    typed.run()
    while not (is_warned or session.journal.is_saved or log.is_written(session.journal, session.home)):
        is_warned = True
        output.tell("the sheet is not saved, and no file can be written; ]save FILE elsewhere, or end once more and lose it")
        typed.run()
    session.faults = 0
