"""The front end beside the program alone."""

from __future__ import annotations

import random
import re
import subprocess
from pathlib import Path

from sheet import program as over_pipes, scripts, session

from .rooms import SECONDS, TOP, Outcome, Room, Test

PARTS = ["A", "B", "1", "2 3", "¯5", "'SYNTAX ERROR'", "'VALUE ERROR IN B'", "'CYCLE'", "'NO MEMORY'", "''", "'it''s'", "1 8⍴'NO SLOT '"]
PARTS += ["0 3⍴0", "2 0⍴''", "2 2⍴'abcd'", "⍳3", "+/", *"⍴×=←/()[]; ⍝é\"'", "\U0010fffd", "'\U0010fffd12'"]
FORMS = ["A←{}", "B←{}", "CYCLE←{}", ")DATA A←{}", ")DATA D←{}", "D[1]←{}", ")ROW D {}", ")ERASE A", ")NAMES", ")COST", ")CSV D", ")CSV A"]
FORMS += [")OPEN 1 A←{}", ")OPEN 2 )DATA D←{}", ")STEP 1", ")STEP 2", ")COMMIT 1", ")COMMIT 2", ")DROP 1", ")FOO", "⍝{}"]
FORMS += ["({}"] * 2 + ["{} "] * 4


class Printing(session.Session):
    """A session with the output of the program alone: values, errors and refusals without remarks."""

    def __init__(self, program: over_pipes.Program) -> None:
        self.printed: list[str] = []
        super().__init__(program, self.printed.append, lambda _: None)

    def complain(self, _text: str, what: str, *_remarks: object) -> None:
        self.printed.append(what)


def random_lines(room: Room, seed: int) -> Outcome:
    """Random lines get the answers of the program alone; the journal and the saved script make the same sheet."""
    chosen = random.Random(seed)
    lines = [chosen.choice(FORMS).format("".join(chosen.choices(PARTS, k=chosen.randint(1, 4)))) for _ in range(500)]
    lines = [line for line in lines if not line.startswith("]")]
    wanted = subprocess.run([room.program], input="\n".join(lines).encode(), capture_output=True, timeout=SECONDS).stdout.decode()
    sheet = Printing(over_pipes.Program([room.program]))
    sheet.program.start()
    for line in lines:
        sheet.take(line)
    names = [*sheet.journal.bindings]
    asked = [question.format(name) for name in names for question in ("⍴{}", "0=1↑0⍴{}", "{}")]
    shown, saved = sheet.program.ask_all([")NAMES", *asked]), scripts.script_of_sheet(sheet.program, sheet.journal).lines
    loaded = []
    for kept in (sheet.journal.lines, saved):
        sheet.program.stop()
        sheet.program.start()
        answers = sheet.program.ask_all([*kept, ")NAMES", *asked])
        loaded.append((answers[: len(kept)] == [[]] * len(kept), answers[len(kept) :]))
    sheet.program.stop()
    is_same = "".join(f"{line}\n" for line in sheet.printed) == wanted
    return (is_same, shown[0], loaded), (True, names, [(True, shown)] * 2)


def same_as_the_program(room: Room, script: Path) -> Outcome:
    """A sheet of examples/ gives the output of the program alone, except errors, which go to standard error."""
    errors = re.compile("^([A-Z]+ ERROR( IN .*)?|CYCLE|STALE|[NS][A-Z]+ [A-Z ]+)\n", re.MULTILINE)
    return room.call(str(script))[1], errors.sub("", script.with_suffix(".out").read_text())


def tests(_times: int) -> list[Test]:
    sheets = [sheet for sheet in sorted(TOP.glob("examples/*.apl")) if not sheet.read_text().startswith("⍝ aplsheet ")]
    examples = [Test(sheet.name, same_as_the_program, (sheet,)) for sheet in sheets]
    return examples + [Test(f"random lines {seed}", random_lines, (seed,)) for seed in range(4)]
