"""]undo and ]redo."""

from __future__ import annotations

from sheet.journal import Journal
from sheet.program import Program

from .files import whole_sheet
from .rooms import Outcome, Room, Test, named_tests
from .sessions import Chance, Sheet, content_of, program_of

CHANGES = 160  # of each test with random changes

UNDONE = {  # a line that changes the sheet below, and its title in the message of ]undo
    "T←1+Q": "T←1+Q",
    "N←5": "N←5",
    ")DATA D←D,9": ")DATA D←D,9",
    "D[2]←7": "D[2]←7",
    ")ROW D 7": ")ROW D 7",
    ")ERASE D": ")ERASE D",
    "]table D t.csv": "]table D t.csv",
    "]labels L t.csv 1": "]labels L t.csv 1",
    "]load t.apl": "]load t.apl",
    "]clear": "]clear",
}


def undo(room: Room, line: str, title: str) -> Outcome:
    """]undo restores the sheet, with the lines of its names."""
    room.put("t.csv", "1,2\n3,4\n")
    room.put("t.apl", "A←1\nB←2\nD[1]←3\n")
    begin = [")DATA D←1 2 3", "T←+/D", ")DATA E←'ab'", "D[1]←5"]
    before = whole_sheet(room, *begin), room.answers(*begin, ")COST")
    is_change = whole_sheet(room, *begin, line) != before[0]
    after = whole_sheet(room, *begin, line, "]undo"), room.answers(*begin, line, "]undo", ")COST")
    messages = room.messages(*begin, line, "]undo")
    return (after, messages, is_change), (before, f"taken back: {title}\n", True)


class Undoing:
    """Random changes, with ]undo and ]redo.

    lines   the typed lines
    undone  how many changes were taken back
    """

    def __init__(self, room: Room, seed: int) -> None:
        self.chance, self.sheet, self.other = Chance(seed), Sheet(program_of(room)), program_of(room)
        self.chance.begin_in(room.folder)
        self.lines: list[str] = []
        self.undone = 0

    def take(self, *lines: str) -> None:
        self.lines += lines
        self.sheet.take_all(*lines)

    def step(self, number: int) -> bool:
        """Makes a change, or undoes some. Returns whether the sheet equals the kept lines."""
        self.take(*self.chance.changes())
        if number % 4:
            return True
        for _ in range(self.chance.randint(1, 4)):
            self.take("]undo")
            self.undone += self.sheet.messages[-1].startswith("taken back")
        self.take(*["]redo"] * self.chance.randint(0, 2))
        content = self.sheet.content()
        return content == content_anew(self.other, self.sheet.journal) and content.names == [*self.sheet.journal.bindings]

    def end(self) -> None:
        self.sheet.program.stop()
        self.other.stop()


def content_anew(program: Program, journal: Journal) -> object:
    """Returns the sheet of a new program after the lines of a journal, or the lines that it refuses."""
    program.stop()
    program.start()
    refused = [line for line, printed in zip(journal.lines, program.ask_all(journal.lines)) if printed]
    return refused or content_of(program, journal)


def undone_by_chance(room: Room, seed: int) -> Outcome:
    """After ]undo and ]redo the sheet equals the kept lines; most changes have an inverse."""
    undoing = Undoing(room, seed)
    is_right = all(map(undoing.step, range(CHANGES)))
    undoing.end()
    is_mostly_inverted = undoing.sheet.remade * 2 < undoing.undone
    return (is_right or undoing.lines, is_mostly_inverted, undoing.sheet.faults_told), (True, True, [])


def open_change(room: Room) -> Outcome:
    """]undo first drops an open change, and then undoes the last change, also if that made the open one stale."""
    sheet = Sheet(program_of(room))
    sheet.take_all(")DATA D←1 2", "D[1]←3", ")OPEN 1 D[2]←9", "]undo", ")COMMIT 1", "]undo", "D")
    sheet.take_all(")OPEN 1 D[2]←9", "D[1]←5", "]undo", "D", "]undo", "]undo")
    sheet.program.stop()
    messages = ["given up: D[2]←9", "NO SLOT", "taken back: D[1]←3", "taken back: D[1]←5", "given up: D[2]←9", "taken back: )DATA D←1 2"]
    return (sheet.messages, sheet.shown, sheet.remade), (messages, ["0", "1 2", "0", "1 2"], 0)


def many_undos(room: Room) -> Outcome:
    """Edits, rows and bindings, and their undo, take a constant number of lines to the program each."""
    counts = []
    for number in (10, 40):
        sheet = Sheet(program_of(room))
        sheet.take(")DATA D←1 2 3")
        first = sheet.program.number
        for place in range(number):
            sheet.take_all(f"D[2]←{place}", f")ROW D {place}", f"T←D+{place}", f")DATA E←{place}")
        made = sheet.program.number
        sheet.take_all(*["]undo"] * 4 * number)
        counts.append(((made - first) / number, (sheet.program.number - made) / number, sheet.messages[-1], sheet.remade))
        sheet.program.stop()
    return counts[1], (counts[0][0], 4, "taken back: D[2]←0", 0)


def open_change_of_load(room: Room) -> Outcome:
    """]undo first drops a change that a file opens only if the file makes no later change."""
    messages = []
    for text in ("B←2\n)OPEN 1 A←4\nC←3\n", "B←2\nC←3\n)OPEN 1 A←4\n"):
        sheet, path = Sheet(program_of(room)), room.folder / room.put("t.apl", text)
        sheet.take_all("A←1", "N←1", f"]load {path}", "]undo")
        messages.append(sheet.messages[-1])
        sheet.program.stop()
    return messages, [f"taken back: ]load {room.folder}/t.apl", "given up: A←4"]


def undo_of_load(room: Room) -> Outcome:
    """A file that removes a name and makes it again is one change, after which that name is the last one."""
    sheet, path = Sheet(program_of(room)), room.folder / room.put("t.apl", ")ERASE A\nA←3\nB←4\n")
    sheet.take_all("A←1", "B←2", f"]load {path}", "C←1", ")ERASE B", "]undo")
    names = sheet.program.ask(")NAMES"), [*sheet.journal.bindings]
    sheet.take_all("]undo", "D←5", "E←6", "]undo", "]undo", "]undo")
    sheet.program.stop()
    messages = ["taken back: )ERASE B", "taken back: C←1", "taken back: E←6", "taken back: D←5", f"taken back: ]load {path}"]
    return (names, sheet.messages), ((["B", "A", "C"],) * 2, messages)


def tests(_times: int) -> list[Test]:
    by_chance = [Test(f"undo by chance {seed}", undone_by_chance, (seed,)) for seed in range(3)]
    examples = [Test(f"undo: {line}", undo, (line, title)) for line, title in UNDONE.items()]
    return [*examples, *by_chance, *named_tests([open_change, open_change_of_load, many_undos, undo_of_load])]
