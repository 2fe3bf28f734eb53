"""Tables in files."""

from __future__ import annotations

import json
import os
import random
import re
import subprocess
from typing import Any, NamedTuple

from .rooms import SECONDS, TOP, Outcome, Room, Test, named_tests


def table_as_the_program(room: Room, row: dict[str, Any]) -> Outcome:
    """A row of tests/tables.json: ]table accepts the tables that the program accepts, with the same answers. Otherwise both name one place."""
    room.put("t.csv", row["file"])
    status, printed, messages = room.call(lines="]table D t.csv --separator ," + " --header" * row["header"] + "\n" + row["lines"])
    if row["status"] == 0:
        return (status, printed, messages), (0, row["output"], "")
    place = [f"{word.lower()} {number}" for word, number in re.findall("(RECORD|FIELD) ([0-9]+)", row["said"])]
    return (status, [part for part in place if part not in messages], messages.startswith("line 1: ")), (1, [], True)


TABLES = {  # a file, lines, their output, and a part of their messages
    "a column of names": (
        "product,Jan,Feb\nframe,120,-5\n\"spot, red\",7,8\n",
        "]table D t.csv --header --columns 2-3\n]labels L t.csv 1 --header\nD\nL\n⍴L\n",
        "120 ¯5\n  7  8\nframe    \nspot, red\n2 9\n",
        "",
    ),
    "columns": (
        "1,2,3,4\n5,6,7,8\n",
        "]table A t.csv --columns 4,1-2\n]table B t.csv --columns 3-\nA\nB\n",
        "4 1 2\n8 5 6\n3 4\n7 8\n",
        "",
    ),
    "no such column": ("1,2\n", "]table A t.csv --columns 2-3\n", "", "'2-3' names no columns of a table of 2"),
    "no column": ("1,2\n", "]table A t.csv --columns x\n", "", "'x' names no columns"),
    "semicolons": ("1;2\n3;4\n", "]table A t.csv --separator ;\nA\n", "1 2\n3 4\n", ""),
    "tabs": ("1\t2\n3\t4\n", "]table A t.csv --separator tab\nA\n", "1 2\n3 4\n", ""),
    "another separator than told": ("1;2\n", "]table A t.csv --separator ,\n", "", "add --separator ';'"),
    "titles without the flag": ("a,b\n1,2\n", "]table A t.csv\n", "", "add --header"),
    "a decimal": ("1,2\n1,2.5\n", "]table A t.csv\n", "", "t.csv: record 2 field 2 is no whole number: '2.5'; --decimals 1 reads it"),
    "an empty cell": ("1,2\n1,\n", "]table A t.csv\n", "", "; --empty 0 reads an empty field as 0"),
    "a name": ("1,2\nx,2\n", "]table A t.csv\n", "", "--columns takes the columns of numbers alone"),
    "bytes that are no text": (b"1,2\n3,\xff\n", "]table A t.csv\n", "", "line 2 is not UTF-8"),
    "no file": ("", "]table A absent.csv\n", "", "absent.csv cannot be read: No such file or directory"),
    "no name": ("1\n", "]table 1A t.csv\n", "", "1A is no name"),
    "a number of two lines": ('"1\n2",3\n', "]table A t.csv\n", "", "t.csv: record 1 field 1 is no whole number"),
    "a great number": ("9223372036854775808\n", "]table A t.csv\n", "", "record 1 field 1 is beyond 64 bits"),
    "too many": ("1\n" * 1048577, "A←1\n]table D t.csv\nA\n)NAMES\n", "1\nA\n", "LIMIT ERROR: 1048577 records of 1 are not taken in"),
    "blanks and signs": (" +7 , ¯2 \n-3,+0\n", "]table A t.csv\nA\n", " 7 ¯2\n¯3  0\n", ""),
    "labels of plain numbers": ("1,-05\n2,3\n", "]labels L t.csv 2\nL\n", "-05\n3  \n", ""),
    "labels with quotes": ("it's\n'\né⍝\n", "]labels L t.csv 1\nL\n", "it's\n'   \né⍝  \n", ""),
    "a label of two lines": ('"a\nb"\n', "]labels L t.csv 1\n", "", "has more than one line"),
    "labels in one line": ('"a\nb"\n"c\r\nd"\n', "]labels L t.csv 1 --one-line\nL\n", "a b\nc d\n", ""),
    "a label of two lines, with CR": ('"a\rb"\n', "]labels L t.csv 1\n", "", "record 1 field 1 has more than one line"),
    "labels of no records": ("", "]labels L t.csv 1\n", "", "t.csv has no records, so it has no columns"),
    "labels of titles alone": ("a,b\n", "]labels L t.csv 1 --header\n⍴L\n", "0 0\n", ""),
    "labels without a sign": ('"",1\n"",2\n', "]labels L t.csv 1\n⍴L\n", "2 0\n", ""),
    "one long label of many": (
        "a\n" * 100000 + "b" * 100000,
        "]labels L t.csv 1\n5\n",
        "5\n",
        "LIMIT ERROR: 100001 records of 100000 are not taken in",
    ),
    "a separator that is no UTF-8": ("1;2\n", b"]table A t.csv --separator \xff\n", "", "--separator is followed by one sign"),
    "NUL as a separator": ("1;2\n", b"]table A t.csv --separator \0\n", "", "--separator is followed by one sign"),
    "columns of many digits": ("1,2\n", f"]table A t.csv --columns {'1' * 5000}\n", "", f"'{'1' * 60}…' names no columns"),
    "many zeros": (f"{'0' * 5000},-{'0' * 5000}7\n", "]table A t.csv\nA\n", "0 ¯7\n", ""),
    "many digits": (f"{'1' * 5000}\n", "]table A t.csv\n", "", f"record 1 field 1 is beyond 64 bits: {'1' * 60}…\n"),
    "a long field": (f"{'x' * 5000}\n", "]table A t.csv\n", "", f"record 1 field 1 is no whole number: '{'x' * 60}…'; if"),
    "a quote that is not closed": ('"5,6\n7,8\n9,10\n', "]table A t.csv\n", "", "record 1 field 1 is no whole number: '5,6…'; if"),
    "a field before a short record": (
        "1;2,5\n3;4\n",
        "]table A t.csv --separator ,\n",
        "",
        "record 1 field 1 is no whole number: '1;2'; if this parts",
    ),
    "a long title": (f"{'x' * 200000},b\n1,2\n", "]table A t.csv --header\nA\n", "1 2\n", ""),
    "a title that is not closed": ('a","b\n1,2\n', "]table A t.csv --header\n⍴A\n", "0 2\n", ""),
    "bytes that are no text behind a mark": (b"\xef\xbb\xbf1,2\n\xff\n", "]table A t.csv\n", "", "line 2 is not UTF-8"),
    "a folder": ("", "]table A .\n", "", ". is a folder, a pipe or a device, and no file with a table"),
    "a device": ("", "]table A /dev/zero\n", "", "/dev/zero is a folder, a pipe or a device"),
    "NUL in a path": ("", b"]table A a\0b\n", "", "cannot be read: no file has such a name"),
    "show of a table": (
        "1000000,2000000,3000000,4000000,5000000,6000000,7000000\n" * 2 + "0,0,0,0,0,0,-1\n",
        "]table A t.csv\n]show A\n",
        ")DATA A←1 7⍴1000000 2000000 3000000 4000000 5000000 6000000 7000000\n"
        ")ROW A 1000000 2000000 3000000 4000000 5000000 6000000 7000000\n)ROW A 0 0 0 0 0 0 ¯1\n",
        "",
    ),
    "a name of the program's own": ("1,2\n", "∆1←∆2\n]table A t.csv\nA\n)NAMES\n", "1 2\n∆1\nA\n", ""),
}
for sign, word in ((";", ";"), ("\t", "tab"), ("|", "'|'"), (" ", "' '"), ("€", "€")):  # the comma is then a part of a field
    for titles, flag in (("", ""), (f"Preis{sign}Menge\n", " --header")):
        said = f"t.csv: record {2 if titles else 1} field 1 is no whole number: '12,50'; --decimals 2 reads it"
        lines = f"]table A t.csv --separator {word}{flag}\n]table B t.csv --columns 2 --separator {word}{flag}\n,B\n"
        TABLES[f"decimal commas, parted by {word}{flag}"] = f"{titles}12,50{sign}100\n3,99{sign}250\n", lines, "100 250\n", said


def table(room: Room, file: str | bytes, lines: str | bytes, output: str, said: str) -> Outcome:
    room.put("t.csv", file)
    status, printed, messages = room.call(lines=lines)
    return (printed, status, said in messages or messages), (output, int(bool(said)), True)


def large_table(room: Room) -> Outcome:
    """A million numbers, and labels with a million characters, are read unchanged, also if a formula refers to the table."""
    numbers = [(place * 7919) % 20001 - 10000 for place in range(10000)]
    room.put("t.csv", "".join(",".join(map(str, numbers[at : at + 10])) + "\n" for at in range(0, 10000, 10)))
    room.put("l.csv", "".join(f"label {number}\n" for number in range(20000)))
    lines = "T←+/,D\n]table D t.csv\n]labels L l.csv 1\nT\n⍴D\nD[543;7]\nL[12345;]\n⍴L\n)NAMES\n"
    wanted = f"{sum(numbers)}\n1000 10\n{numbers[5426]}\nlabel 12344\n20000 11\nT\nD\nL\n".replace("-", "¯")
    return room.call(lines=lines), (0, wanted, "")


def pipe_without_writer(room: Room) -> Outcome:
    """A pipe is refused at once."""
    os.mkfifo(room.folder / "pipe")
    messages = "line 1: pipe is a folder, a pipe or a device, and no file with a table\n  ]table A pipe\n"
    return room.call(lines="]table A pipe\n1\n"), (1, "1\n", messages)


def great_files(room: Room) -> Outcome:
    """A file beyond the limit, or beyond the memory, is refused, and the session goes on."""
    for name, length in (("fits.csv", 250 << 20), ("great.csv", (256 << 20) + 1)):
        with open(room.folder / name, "wb") as file:
            file.truncate(length)
    words = ["sh", "-c", 'ulimit -v 240000; exec "$@"', "sh", *room.words(program=room.fake())]
    lines = b"]table A great.csv\n]table A fits.csv\n]labels A fits.csv 1\n5\n"
    ran = subprocess.run(words, input=lines, capture_output=True, timeout=SECONDS, cwd=room.folder, env=room.environment)
    messages = "line 1: great.csv is larger than 256 MiB\n  ]table A great.csv\n"
    messages += "line 2: fits.csv: there is no memory for this table\n  ]table A fits.csv\n"
    messages += "line 3: fits.csv: there is no memory for this table\n  ]labels A fits.csv 1\n"
    return (ran.returncode, ran.stdout.decode(), ran.stderr.decode()), (1, "VALUE 5\n", messages)


def full_sheet(room: Room) -> Outcome:
    """In a full sheet a table replaces a name, and the last new name may be a table."""
    room.put("t.csv", "1000000,2000000,3000000,4000000\n" * 300)
    names = [f"N{number}←1" for number in range(3, 1025)]
    questions = ["⍴N1", "⍴N2", "+/,N7", "∆1"]
    commands = [f"]table {name} t.csv" for name in ("N1", "N2", "N7", "NEW")]
    status, printed, messages = room.call(lines="\n".join([*names, *commands, *questions]))
    wanted = ["SHEET FULL: 300 records of 4 are not taken in\n  ]table NEW t.csv\n", "∆1 is not there"]
    absent = [part for part in wanted if part not in messages]
    return (status, printed, absent, messages.count("line ")), (1, "300 4\n300 4\n3000000000\n", [], 2)


GOOD = ["0", "7", "-12", "¯3", "+5", " 8", "9 ", '"4"', '"-6"', '" +2\t"', "\t1", "0" * 30 + "5", "9223372036854775807"]
GOOD += ["-9223372036854775808"]
BAD = ['""', "-", "x", "1.5", "- 1", "+-1", "9223372036854775808", '"1\n2"', '"5\n"', '"\n5"', '"5\r"', '"1\r\n2"', '"1""2"']
BAD += [' "5"', '"1,2"', ""]
TITLES = ["title", '"ti\ntle"', "7", '""']
PIECES = ['"'] * 5 + [","] * 6 + ["\n"] * 5 + ["\r\n", "\r", " ", "\t", "-", "+", "¯", "1", "23", "007", "x", "é", '""', "\ufeff"]
PIECES += ["1,2\n3,4\n"]


class Case(NamedTuple):
    """A table for the program, and one for ]table with its flags, which has further columns before those of the program."""

    text: str
    has_titles: bool
    other_text: str
    flags: str
    before: int


def records(chosen: random.Random, has_titles: bool) -> list[list[str]]:
    """Returns records of numbers. Some have a field that is no number, or another number of fields than the first."""
    width = chosen.randint(1, 4)
    bad = BAD if width > 1 else BAD[:-1]  # an empty field alone is no record
    rows = [[chosen.choice(bad if chosen.random() < 0.05 else GOOD) for _ in range(width)] for _ in range(chosen.randint(1, 5))]
    if chosen.random() < 0.1:
        rows[-1] = rows[-1][1:] if width > 2 else [*rows[-1], "1"]
    return [[chosen.choice(TITLES) for _ in range(width)], *rows] if has_titles else rows


def regular_case(chosen: random.Random) -> Case:
    """Returns a table of records; ]table is to take the last columns of a larger one, with another separator."""
    has_titles, before = chosen.random() < 0.3, chosen.choice([0, 0, 1, 2])
    rows, end = records(chosen, has_titles), chosen.choice(["\n", "\n\n", "\r\n", "\r"])
    text, other = ("".join(",".join(["item", '"a,\nb"'][:count] + row) + end for row in rows) for count in (0, before))
    return Case(text, has_titles, *with_separator(chosen, other), before)


def irregular_case(chosen: random.Random) -> Case:
    """Returns a table of any characters."""
    text = "".join(chosen.choices(PIECES, k=chosen.randint(1, 12)))
    return Case(text, chosen.random() < 0.3, *with_separator(chosen, text), 0)


def with_separator(chosen: random.Random, text: str) -> tuple[str, str]:
    """Returns a table with any separator in place of the comma, and the flag that names it."""
    sign = chosen.choice([",", ",", ";", "|", "€"])
    return text.translate({ord(","): sign, ord(sign): ","}), f" --separator '{sign}'"


def taken_by_the_program(room: Room, case: Case) -> str:
    """Returns the shape and the items of a table by the program, or the place of its fault."""
    words = [room.program, "table", "D", str(room.folder / room.put("d.csv", case.text))] + ["--header"] * case.has_titles
    ran = subprocess.run(words, input="⍴D\n,D\n".encode(), capture_output=True, timeout=SECONDS)
    return ran.stdout.decode() or re.sub("[A-Z ]+", " ", ran.stderr.decode()).strip()


def taken_by_the_front_end(room: Room, cases: list[Case]) -> list[str]:
    """Returns the same for each table by ]table, with places in the columns of the program."""
    lines = []
    for number, case in enumerate(cases):
        room.put(f"{number}.csv", case.other_text)
        columns = f" --columns {case.before + 1}-" if case.before else ""
        lines += [f"]table D{number} {number}.csv{' --header' * case.has_titles}{columns}{case.flags}"]
        lines += [f"⍴D{number}", f",D{number}", "'next table'"]
    _, printed, messages = room.call(lines="\n".join(lines))
    answers = printed.split("next table\n")[:-1]
    for number, record, field in re.findall(r" ([0-9]+)\.csv: record (\d+)(?: field (\d+))? ", messages):
        answers[int(number)] += f"{record} {int(field) - cases[int(number)].before}" if field else record
    return answers


def random_tables(room: Room, seed: int) -> Outcome:
    """]table reads any table like the program, or refuses it at the same place."""
    chosen = random.Random(seed)
    cases = [regular_case(chosen) for _ in range(100)] + [irregular_case(chosen) for _ in range(50)]
    answers = zip(cases, taken_by_the_front_end(room, cases), [taken_by_the_program(room, case) for case in cases])
    return [(case, answer, wanted) for case, answer, wanted in answers if answer != wanted], []


def tests(_times: int) -> list[Test]:
    rows = json.loads((TOP / "tests/tables.json").read_text())
    as_program = [Test(row["name"], table_as_the_program, (row,)) for row in rows if ")COST" not in row["lines"]]
    as_program += [Test(f"random tables {seed}", random_tables, (seed,)) for seed in range(2)]
    functions = [large_table, pipe_without_writer, great_files, full_sheet]
    return [*as_program, *(Test(name, table, row) for name, row in TABLES.items()), *named_tests(functions)]
