"""Programs that die, or are none, and pipes."""

from __future__ import annotations

import select
import shlex
import subprocess

from .rooms import SECONDS, Outcome, Room, Test, named_tests


def wrong_programs(room: Room) -> Outcome:
    """Files that are no program, and programs that end at once or answer wrongly."""
    words = room.put("junk", "")
    calls = [room.call(program=path) for path in ("/absent/program", "/bin/true", "/bin/cat", str(room.folder / words))]
    says = ["does not start: No such file or directory", "ended with status 0", "does not answer as aplsheet does"]
    says.append("does not start: Permission denied")
    outcomes = [(status, printed, text.startswith("sheet: /") and say in text) for (status, printed, text), say in zip(calls, says)]
    return outcomes, [(1, "", True)] * 4


def programs_that_die(room: Room) -> Outcome:
    """The session goes on with the sheet before the line."""
    fake = room.fake()
    messages = f"line 2: PROGRAM FAILED: {fake} ended with status 3\n  DIE\n"
    messages += f"line 4: PROGRAM FAILED: {fake} was stopped by signal 9\n  KILL\n"
    return room.call(lines="A←1\nDIE\n1\nKILL\n2\n", program=fake), (1, "VALUE 1\nVALUE 2\n", messages)


def program_that_vanishes(room: Room) -> Outcome:
    """If the program cannot start again, the lines are kept in a file."""
    status, printed, messages = room.call(lines="A←1\nVANISH\nB←2\n", program=room.fake())
    (log,) = room.logs()
    offer = f"the sheet was not saved; ]recover goes on with it, from {log}\n" in messages
    return (status, printed, offer, room.kept(), room.call(lines="]recover\nA\n")[1]), (1, "", True, ["A←1\n"], "1\n")


def unknown_answers(room: Room) -> Outcome:
    """Any output for a change or a commit is shown, and counts as a refusal."""
    room.put("t.csv", "1,2\n")
    lines = ["A←1", "UNKNOWN←2", "]table UNKNOWN t.csv", ")OPEN 7 B←3", ")COMMIT 7", "EMPTY←4", "]table EMPTY t.csv", "VANISH"]
    _, printed, messages = room.call(lines="\n".join(lines), program=room.fake())
    note = "\n  no such answer is known, so the line counts as refused\n"
    wanted = [f"line 2: DEPTH ERROR\nAT SIGN 1\n  UNKNOWN←2{note}", f"line 5: DEPTH ERROR\nAT SIGN 1\n  )COMMIT 7{note}"]
    wanted += ["line 3: DEPTH ERROR\nAT SIGN 1: 1 record of 2 are not taken in\n"]
    wanted += [f"line 6: \n  EMPTY←4{note}", "line 7: : 1 record of 2 are"]
    return (printed, room.kept(), [part for part in wanted if part not in messages]), ("0\n", ["A←1\n"], [])


def no_memory(room: Room) -> Outcome:
    """A fence that is refused memory is sent again, and the answer is the same."""
    fake = room.fake()
    came = room.call(lines="A\nREFUSE\nB\n", program=fake)
    return came, (1, "VALUE A\nVALUE B\n", "line 2: NO MEMORY\n  REFUSE\n")


def line_by_line(room: Room) -> Outcome:
    """Over pipes too, each line is answered before the next one is there."""
    answers = []
    with subprocess.Popen(room.words(), bufsize=0, env=room.environment, stdin=subprocess.PIPE, stdout=subprocess.PIPE) as call:
        assert call.stdin and call.stdout
        for line in ["1+1\n", "A←5\nA\n"]:
            call.stdin.write(line.encode())
            answers.append(select.select([call.stdout], [], [], SECONDS)[0] and call.stdout.readline())
        call.stdin.close()
    return answers, [b"2\n", b"5\n"]


def closed_pipe(room: Room) -> Outcome:
    """A closed pipe ends the front end without a message."""
    line = " ".join(map(shlex.quote, room.words())) + " | head -n 1"
    ran = room.run(line, "1\n" * 20000)
    return (ran.stdout, ran.stderr), ("1\n", "")


def tests(_times: int) -> list[Test]:
    pipes = [line_by_line, closed_pipe]
    return named_tests([wrong_programs, programs_that_die, program_that_vanishes, unknown_answers, no_memory, *pipes])
