"""Sheets that are saved to their script."""

from __future__ import annotations

from pathlib import Path
from typing import Iterator

from sheet import starting
from sheet.files import home_of, raw_of
from sheet.journal import Binding, Journal
from sheet.lines import Line
from sheet.program import Program

from .rooms import Outcome, Room, Test, named_tests
from .sessions import Chance, Sheet, program_of

CASES = 25  # of each test with random lines

PLAN = """⍝ The plan of a week.

⍝ Hours of each day
)DATA HOURS←8 6 8 4 7 ⍝ from the clock
TOTAL ← +/HOURS   ⍝ of all days
⍝ Euros an hour
)DATA RATE←30
PAY←TOTAL×RATE
TOTAL
"""
EXAMPLES = {  # a script, lines typed behind it, and the saved script
    "no change": (PLAN, "TOTAL\n", PLAN),
    "an edited item": (PLAN, "HOURS[4]←5\n", PLAN.replace("8 4 7", "8 5 7")),
    "data typed again": (PLAN, ")DATA HOURS←1 2\n", PLAN.replace("8 6 8 4 7", "1 2")),
    "data typed again with a comment": (PLAN, ")DATA HOURS←1 2 ⍝ new\n", PLAN.replace("8 6 8 4 7 ⍝ from the clock", "1 2 ⍝ new")),
    "another formula": (PLAN, "PAY←RATE×TOTAL\n", PLAN.replace("TOTAL×RATE", "RATE×TOTAL")),
    "a new name": (PLAN, "TAX←PAY|7\n", PLAN + "TAX←PAY|7\n"),
    "a name that goes": (PLAN, ")ERASE PAY\n", PLAN.replace("PAY←TOTAL×RATE\n", "")),
    "a name that goes and comes": (PLAN, ")ERASE RATE\nRATE←31\n", PLAN.replace(")DATA RATE←30\n", "") + "RATE←31\n"),
    "a change that is taken back": (PLAN, "HOURS[4]←5\n]undo\n", PLAN),
    "the sign of a byte order mark": ("\ufeff" + PLAN, "RATE←31\n", "\ufeff" + PLAN.replace(")DATA RATE←30", "RATE←31")),
    "a mark and no change": ("\ufeff" + PLAN, "", "\ufeff" + PLAN),
    "no last line end": ("A←1\nB←2", "A←3\n", "A←3\nB←2"),
    "no last line end, and a name more": ("A←1\nB←2", "C←3\n", "A←1\nB←2\nC←3\n"),
    "CR": ("A←1\r\nB←2\r\n", "A←3\nC←4\n", "A←3\r\nB←2\r\nC←4\r\n"),
    "lines that are refused": ("A←1\nA←)(\n)DATA B←ABSENT\nC←2\n", "C←3\n", "A←1\n⍝ A←)(\n⍝ )DATA B←ABSENT\nC←3\n"),
    "a refused line of a name that changes": ("A←1\nA←)(\n", "A←3\n", "A←3\n⍝ A←)(\n"),
    "a line that is no text": (raw_of(["A←1", "B←'\udcff'"]), "A←3\n", "A←3\n⍝ B←'\\xff'\n"),
    "refused lines behind a save without a change": ("A←1\nA←)(\nB←2\n", "]save other.apl\nB←3\n", "A←1\n⍝ A←)(\nB←3\n"),
    "edits and rows": (")DATA D←1 2\nD[1]←5 ⍝ mended\nT←+/D\n)ROW D 3\n", "T←⌈/D\n", ")DATA D←1 2\nD[1]←5 ⍝ mended\nT←⌈/D\n)ROW D 3\n"),
    "data made of a name that changes": (")DATA D←1 2\n)DATA E←D×2 ⍝ now\n", "D[1]←5\n", ")DATA D←5 2\n)DATA E←2 4 ⍝ now\n"),
    "data made by a former formula": ("B←1\nF←B\n)DATA A←F\nF←7\n", "B←2\n", "B←2\nF←7\n)DATA A←1\n"),
    "a former formula that would be a cycle": ("A←B\nB←1\nA←5\n", "B←A\n", "A←5\nB←A\n"),
    "a change in a slot": ("A←1\n)OPEN 1 A←2\n)COMMIT 1\nB←3\n", "B←4\n", "A←2\n⍝ )OPEN 1 A←2\nB←4\n"),
    "a name made in a slot": ("B←3\n)OPEN 1 A←2\n)STEP 1\n)COMMIT 1\n", "B←4\n", "B←4\n⍝ )OPEN 1 A←2\n⍝ )STEP 1\nA←2\n"),
    "all names removed before": ("A←1\n)DATA D←1\n]clear\nD←2\n", "C←3\n", "D←2\nC←3\n"),
    "a name that another file makes": ("A←1\n]load more.apl\nB←1\n", "B←2\n", "A←7\n⍝ ]load more.apl\nB←2\n"),
    "a renamed name": ("A←1\n⍝ the rest\nB←A\n]rename A N\n", "C←3\n", "⍝ the rest\nB←N\nN←1\nC←3\n"),
    "a table": ("]table D t.csv\nA←1\n", "A←2\n", "]table D t.csv\nA←2\n"),
}


def example(room: Room, script: str | bytes, lines: str, saved: str) -> Outcome:
    """Compares the saved script, of which the program refuses no line."""
    room.put("plan.apl", script)
    room.put("t.csv", "1,2\n")
    room.put("more.apl", "A←7\n")
    room.call("plan.apl", "-", lines=f"{lines}]save plan.apl --replace\n")
    text = (room.folder / "plan.apl").read_bytes().decode()
    return (text, room.messages("]load plan.apl")), (saved, "")


def tables_that_change(room: Room) -> Outcome:
    """If the file of a table has changed, its data is written out, and all data computed from it."""
    sheet, table, other = Sheet(program_of(room)), room.folder / "t.csv", room.folder / "u.csv"
    lines = [f"]table D {table} ⍝ here", f"]table E {table}", "E[1;1]←9", ")DATA F←E", f"]table G {other}"]
    path = room.folder / room.put("plan.apl", raw_of(lines))
    room.put("t.csv", "1,2\n")
    room.put("u.csv", "8\n")
    sheet.take(f"]load {path}")
    room.put("t.csv", "10,20\n")
    sheet.take("]save")
    sheet.program.stop()
    written = f")DATA D←1 2⍴1 2 ⍝ here\n)DATA E←1 2⍴9 2\n)DATA F←1 2⍴9 2\n]table G {other}\n"
    return (path.read_text(), sheet.refused), (written, [])


def large_data(room: Room) -> Outcome:
    """Data of several lines below a formula that reads it keeps its comment, and its lines when another name changes."""
    sheet, path = Sheet(program_of(room)), room.folder / room.put("plan.apl", "T←+/D\n)DATA D←⍳3000 ⍝ many\n)DATA E←D\nF←1\n")
    sheet.take_all(f"]load {path}", "D[7]←0", "]save")
    first = path.read_text()
    sheet.take_all("F←2", "]save")
    second = path.read_text()
    sheet.take_all("E[1]←5", "T←+/D,1", "]save")
    other, again = Sheet(sheet.program.another()), sheet.content()
    other.take(f"]load {path}")
    is_same = other.content() == again
    sheet.program.stop()
    other.program.stop()
    commented = [[line for line in text.split("\n") if line.endswith(" ⍝ many")] for text in (first, path.read_text())]
    is_kept = commented[0] == commented[1] and len(commented[0]) == 1
    return (second, is_kept, sheet.refused + other.refused, is_same), (first.replace("F←1", "F←2"), True, [], True)


def one_item(room: Room) -> Outcome:
    """An edited item changes one line of data that has many lines, a comment, and a formula above that reads it."""
    sheet, path = Sheet(program_of(room)), room.folder / room.put("plan.apl", "T←+/M\n)DATA M←60 3⍴⍳180 ⍝ of a table\nV←M[1;]\n")
    sheet.take_all(f"]load {path}", "M[20;2]←¯5", "]save")
    before = path.read_text().split("\n")
    sheet.take_all("M[33;1]←7", "]save")
    after = path.read_text().split("\n")
    sheet.program.stop()
    changed = [line for line, former in zip(after, before) if line != former]
    return (len(changed), " 7 98 99" in changed[0], len(after) > 60, len(after) - len(before)), (1, True, True, 0)


def recovered(room: Room) -> Outcome:
    """A recovered sheet keeps the comments of its file and the order of its names."""
    path = room.folder / room.put("plan.apl", "⍝ first\nA←1 ⍝ one\n\n)DATA D←1 2 ⍝ two\nD[1]←5\n⍝ last\nB←)(\n")
    sheet = Sheet(program_of(room))
    sheet.take_all("A←1 ⍝ one", ")DATA D←1 2 ⍝ two", "D[1]←7", "C←A")
    home = home_of(str(path), Journal())
    sheet.home = home and home._replace(parts=None)
    sheet.take("]save")
    sheet.program.stop()
    return path.read_text(), "⍝ first\nA←1 ⍝ one\n\n)DATA D←7 2 ⍝ two\n⍝ last\n⍝ B←)(\nC←A\n"


def script_behind_names(room: Room) -> Outcome:
    """A sheet with earlier names has no home in a loaded script."""
    sheet, path = Sheet(program_of(room)), str(room.folder / room.put("plan.apl", "A←1\n"))
    sheet.take("N←1")
    starting.run_script(sheet, path, ["-", path])
    sheet.program.stop()
    return sheet.home, None


def script_by_chance(chance: Chance) -> bytes:
    """Returns a script, some with a byte order mark, with CR, with bytes that are no text, or without a last line end."""
    lines = [line for _ in range(chance.randint(0, 20)) for line in chance.lines()]
    if chance.random() < 0.1:
        lines.insert(chance.randint(0, len(lines)), "⍝ caf\udce9")
        lines.insert(chance.randint(0, len(lines)), "A←'caf\udce9'")
    raw = raw_of(lines)
    if chance.random() < 0.2:
        raw = raw.replace(b"\n", b"\r\n")
    if chance.random() < 0.2:
        raw = raw.rstrip(b"\r\n")
    return b"\xef\xbb\xbf" * (chance.random() < 0.2) + raw


def lines_in(raw: bytes) -> list[str]:
    return raw.decode("utf-8-sig", "surrogateescape").split("\n")


def is_part(lines: list[str], of_lines: list[str]) -> bool:
    """Returns whether lines stand among others in their order."""
    others = iter(of_lines)
    return all(line in others for line in lines)


class Saving:
    """The saving of a sheet, and the faults of the file.

    raw    the content of the file that the sheet comes from
    makes  the bindings that this file makes
    """

    def __init__(self, sheet: Sheet, other: Program) -> None:
        assert sheet.home
        self.sheet, self.other = sheet, other
        self.raw, self.makes = Path(sheet.home.path).read_bytes(), sheet.home.makes

    def faults(self, path: Path) -> Iterator[str]:
        """Saves the sheet; yields each fault of the file."""
        is_as_it_was = [*self.makes.items()] == [*self.sheet.journal.bindings.items()]
        messages = len(self.sheet.messages)
        self.sheet.take(f"]save {path} --replace")
        raw = path.read_bytes()
        saying = "\n".join(self.sheet.messages[messages:])
        if f"saved in {path}" not in saying:
            yield f"]save tells {saying}"
        yield from self.faults_of_content(path, raw)
        if is_as_it_was and not self.reads_tables() and raw != self.raw:
            yield "without a change the file is another one"
        yield from self.faults_of_lines(lines_in(self.raw), lines_in(raw))

    def reads_tables(self) -> bool:
        return b"]table" in self.raw or b"]labels" in self.raw

    def faults_of_content(self, path: Path, raw: bytes) -> Iterator[str]:
        """Yields a fault if the file makes another sheet, or has refused lines."""
        loaded = Sheet(self.other)
        loaded.take(f"]load {path}")
        refused = [line for line in loaded.refused if Line(line).kind != "nothing"]
        if refused and raw != self.raw:
            yield f"refused: {refused}"
        if loaded.content() != self.sheet.content():
            yield f"it makes {loaded.content()}, and not {self.sheet.content()}"
        if max(len(line) for line in raw.split(b"\n")) > 4096:
            yield "a line is too long"

    def faults_of_lines(self, before: list[str], after: list[str]) -> Iterator[str]:
        """Yields a fault for each lost line that should stay."""
        quiet = [line for line in before if Line(line).kind in ("nothing", "show", "names", "cost", "csv")]
        if not is_part(quiet[:-1] if quiet[-1:] == [""] else quiet, after):
            yield "a comment, a blank line or a show is gone"
        names = self.sheet.journal.bindings  # their refused lines became comments
        for name in self.unchanged(names) & plain_names(before):
            if not is_part(lines_of(name, after), lines_of(name, before)):
                yield f"the lines of {name} are other ones"

    def unchanged(self, names: dict[str, Binding]) -> set[str]:
        """Returns the names that are as the file made them, if they stand in its order."""
        is_in_order = [name for name in names if name in self.makes] == [name for name in self.makes if name in names]
        return {name for name in names if is_in_order and self.makes.get(name) is names[name]}


def plain_names(script: list[str]) -> set[str]:
    """Returns the names that a script makes by lines that read nothing; none if it has ]undo lines."""
    lines = [Line(line) for line in script]
    if any(line.kind in ("erase", "open") or line.code[:3] in ("]un", "]re", "]cl", "]lo", "]ta", "]la") for line in lines):
        return set()
    kinds: dict[str, list[str]] = {}
    for line in lines:
        is_reading = line.kind == "data" and bool(line.references)
        kinds.setdefault(line.name or "", []).append("reading" if is_reading else line.kind)
    return {name for name, of_name in kinds.items() if of_name == ["definition"] or {*of_name} <= {"data", "edit", "row"}}


def lines_of(name: str, script: list[str]) -> list[str]:
    return [line for line in script if Line(line).is_change and Line(line).name == name]


def saved_by_chance(room: Room, seed: int) -> Outcome:
    """A random script with random changes is saved to its home and elsewhere; each file makes the sheet."""
    programs = [program_of(room), program_of(room)]
    faults: list[object] = []
    for case in range(CASES):
        chance = Chance(seed * 1000 + case)
        lines: list[str] = []
        for fault in faults_of_case(chance, room.folder, programs, lines):
            faults.append((case, fault, lines))
        if faults:
            break
    for program in programs:
        program.stop()
    return faults, []


def faults_of_case(chance: Chance, folder: Path, programs: list[Program], lines: list[str]) -> Iterator[str]:
    """Yields the faults of one script; appends its steps to `lines`."""
    chance.begin_in(folder)
    path = folder / "plan.apl"
    path.write_bytes(script_by_chance(chance))
    lines.append(path.read_bytes().decode("utf-8", "replace"))
    sheet = Sheet(programs[0])
    if chance.random() < 0.5:
        starting.run_script(sheet, str(path), [str(path)])
    else:
        sheet.take(f"]load {path}")
    for changes in (0, 1, chance.randint(1, 8), 0, chance.randint(1, 3)):
        for change in [chance.changes() for _ in range(changes)]:
            lines += change
            sheet.take_all(*change)
        if chance.random() < 0.1:
            lines.append("the table is changed")
            chance.change_table()
        lines.append(f"]save {folder / chance.choice(['plan.apl', 'plan.apl', 'other.apl'])}")
        yield from Saving(sheet, programs[1]).faults(Path(lines[-1][6:]))
        yield from sheet.faults_told
    programs[0] = sheet.program


def tests(_times: int) -> list[Test]:
    examples = [Test(f"saving {name}", example, row) for name, row in EXAMPLES.items()]
    by_chance = [Test(f"saving by chance {seed}", saved_by_chance, (seed,)) for seed in range(4)]
    return [*examples, *named_tests([tables_that_change, large_data, one_item, recovered, script_behind_names]), *by_chance]
