"""Formats of table files: decimals, thousands, dates, empty fields, titles, separators and encodings."""

from __future__ import annotations

import csv
import io
import random
import re
from decimal import Decimal
from typing import NamedTuple, Optional

from .rooms import Outcome, Room, Test

PRICES = "Preis;Menge\n12,50;100\n3,9;250\n-0,75;40\n"
CASES = {  # a file, lines, their output, and a part of their messages; a refusal begins with a place
    "decimals": (
        PRICES,
        "]table A t.csv --header --decimals 2\nA\n",
        "1250 10000\n 390 25000\n ¯75  4000\n",
        "A is in units of 0.01: 100 stands for 1\n",
    ),
    "too many decimals": (
        PRICES,
        "]table A t.csv --header --decimals 1\n",
        "",
        "t.csv: record 2 field 1 is no number: '12,50'; --decimals 2 reads it",
    ),
    "the other decimal sign": (PRICES, "]table A t.csv --header --decimals 2 --point\n", "", "t.csv: record 2 field 1 is no number: '12,50'"),
    "two decimal signs": (
        "1,5;2\n3;4.5\n",
        "]table A t.csv --decimals 1\n",
        "",
        "record 2 field 2 has another decimal sign than a field before it: '4.5'",
    ),
    "a number without a whole part": (".5\n-.25\n+3\n", "]table A t.csv --decimals 2\nA\n", " 50\n¯25\n300\n", "units of 0.01"),
    "a sign without decimals": ("5.\n", "]table A t.csv --decimals 2\n", "", "is no number: '5.'; if the first record"),
    "decimals beyond 64 bits": ("92233720368547758.08\n", "]table A t.csv --decimals 2\n", "", "record 1 field 1 is beyond 64 bits"),
    "the least number": ("-92233720368547758.08\n", "]table A t.csv --decimals 2\nA\n", "¯9223372036854775808\n", "units of 0.01"),
    "thousands": ("1.234;5\n1.234.567;-12\n", "]table A t.csv --thousands\nA\n", "   1234   5\n1234567 ¯12\n", "parted by ;"),
    "thousands by blanks": ("1 234|1\u00a0000\n1\u202f000|7\n", "]table A t.csv --thousands\nA\n", "1234 1000\n1000    7\n", "parted by |"),
    "thousands and decimals": ('"1,234.5","12"\n', "]table A t.csv --thousands --decimals 2\nA\n", "123450 1200\n", "units of 0.01"),
    "what could be thousands or decimals": (
        "1,234;5\n",
        "]table A t.csv --separator ; --thousands --decimals 3\n",
        "",
        "record 1 field 1 can be two numbers: '1,234'; add --comma or --point",
    ),
    "a given decimal comma": (
        "1,234;5\n",
        "]table A t.csv --separator ; --thousands --decimals 3 --comma\nA\n",
        "1234 5000\n",
        "units of 0.001",
    ),
    "a given decimal point": (
        "1,234;5\n",
        "]table A t.csv --separator ; --thousands --decimals 3 --point\nA\n",
        "1234000 5000\n",
        "units of 0.001",
    ),
    "thousands of other lengths": ("1,23,456;5\n7;8\n", "]table A t.csv --thousands\n", "", "record 1 field 1 is no whole number: '1,23,456'"),
    "thousands without the flag": ("1 234;5\n", "]table A t.csv\n", "", "is no whole number: '1 234'; --thousands reads it"),
    "either flag": ('"1,234",5\n', "]table A t.csv\n", "", "is no whole number: '1,234'; --decimals 3 or --thousands reads it"),
    "both flags": ('"1,234.5",5\n', "]table A t.csv\n", "", "is no whole number: '1,234.5'; --thousands --decimals 1 reads it"),
    "empty fields": ("1,,3\n, ,-7\n", "]table A t.csv --empty 0\nA\n", "1 0  3\n0 0 ¯7\n", ""),
    "empty fields of decimals": ("1.5,\n", "]table A t.csv --empty -1 --decimals 1\nA\n", "15 ¯10\n", "units of 0.1"),
    "a word for empty fields": ("1,\n", "]table A t.csv --empty x\n", "", "--empty is followed by the whole number"),
    "no decimals": ("1\n", "]table A t.csv --decimals 0\n", "", "--decimals is followed by a number from 1 to 18"),
    "many decimals": (
        "0.000000000000000001\n",
        "]table A t.csv --decimals 18\nA\n",
        "1\n",
        "units of 0.000000000000000001: 1000000000000000000 stands for 1",
    ),
    "both signs": ("1\n", "]table A t.csv --comma --point\n", "", "--comma and --point are two decimal signs"),
    "dates": (
        "day;n\n01.01.2026;5\n31.12.1899;-7\n3.2.2026;0\n",
        "]table A t.csv --header --dates DD.MM.YYYY\nA\n",
        "46023  5\n    1 ¯7\n46056  0\n",
        "parted by ;",
    ),
    "dates of another form": ("2026-01-01,5\n", "]table A t.csv --dates YYYY-MM-DD\nA\n", "46023 5\n", ""),
    "a date that is none": (
        "2026-02-30,5\n",
        "]table A t.csv --dates YYYY-MM-DD\n",
        "",
        "record 1 field 1 is no whole number: '2026-02-30', and no date as YYYY-MM-DD",
    ),
    "a form that is none": ("1\n", "]table A t.csv --dates YYYY-MM-MM\n", "", "--dates is followed by the form of a date"),
    "dates and decimals": ("1\n", "]table A t.csv --dates YYYY-MM-DD --decimals 2\n", "", "--dates and --decimals do not go together"),
    "columns by title": ("id,Qty,Unit price\n1,2,3\n", "]table A t.csv --header --columns 'Unit price,Qty'\nA\n", "3 2\n", ""),
    "a title with a comma": ('id,"Price, net"\n1,2\n', "]table A t.csv --header --columns 'Price, net'\nA\n", "2\n", ""),
    "a column of labels by title": ("Name,Qty\nbolt,2\n", "]labels A t.csv Name --header\nA\n", "bolt\n", ""),
    "no such title": (
        "id,Qty\n1,2\n",
        "]table A t.csv --header --columns Price\n",
        "",
        "'Price' names no columns; titles of the first record, or 3, 2-7 and 5- do",
    ),
    "a title without the flag": ("id,Qty\n1,2\n", "]table A t.csv --columns Qty\n", "", "'Qty' names no columns; 3, 2-7 and 5- do"),
    "two columns with one title": (
        "Qty,Qty\n1,2\n",
        "]table A t.csv --header --columns Qty\n",
        "",
        "2 columns have the title 'Qty'; their numbers are 1, 2",
    ),
    "years as titles": ("2024,2025\n1,2\n", "]table A t.csv --header --columns 2025\nA\n", "2\n", ""),
    "a title that is another number": (
        "2,1\n5,6\n",
        "]table A t.csv --header --columns 1\n",
        "",
        "'1' is the title of column 2, and the number of another one",
    ),
    "semicolons that are found": ("1;2\n3;4\n", "]table A t.csv\nA\n", "1 2\n3 4\n", "the fields of t.csv are parted by ;"),
    "tabs that are found": ("1\t2\n3\t4\n", "]table A t.csv\nA\n", "1 2\n3 4\n", "parted by tab"),
    "a comma that could be either": (
        "12,50\n3,99\n",
        "]table A t.csv --decimals 2\n",
        "",
        "t.csv: the comma can part fields or stand in numbers; add --separator ,",
    ),
    "thousands that could be fields": ("1,234\n5,678\n", "]table A t.csv --thousands\n", "", "t.csv: the comma can part fields or stand in numbers"),
    "a given comma": (
        "12,50\n3,99\n",
        "]table A t.csv --decimals 2 --separator ;\nA\n]table A t.csv --decimals 2 --separator ,\nA\n",
        "1250\n 399\n1200 5000\n 300 9900\n",
        "",
    ),
    "a comma that parts fields": ("12.5,50\n3,99\n", "]table A t.csv --decimals 2\nA\n", "1250 5000\n 300 9900\n", "units of 0.01"),
    "two separators": ("1,5;2\n3,5;4\n", "]table A t.csv\n", "", "t.csv: more than one sign can part the fields; add --separator ',' or ';'"),
    "UTF-16": ("1,2\n".encode("utf-16"), "]table A t.csv\nA\n", "1 2\n", ""),
    "UTF-16 without a mark": ("1,2\n".encode("utf-16-le"), "]table A t.csv --encoding utf-16-le\nA\n", "1 2\n", ""),
    "UTF-32": ("1,2\n".encode("utf-32"), "]table A t.csv\nA\n", "1 2\n", ""),
    "Latin-1": ("Müller,7\n".encode("latin-1"), "]labels A t.csv 1 --encoding latin-1\nA\n", "Müller\n", ""),
    "another encoding": ("Müller,7\n".encode("latin-1"), "]labels A t.csv 1\n", "", "t.csv: line 1 is not UTF-8; add --encoding cp1252"),
    "half a sign": (b"\xff\xfe1", "]table A t.csv\n", "", "t.csv: line 1 is not UTF-16"),
    "no encoding": ("1\n", "]table A t.csv --encoding klingon\n", "", "'klingon' is no encoding"),
    "half a sign by its number": (b"\\ud800,1\n", "]labels A t.csv 1 --encoding unicode_escape\n", "", "t.csv: line 1 is not UNICODE_ESCAPE"),
    "an encoding of bytes": ("1\n", "]table A t.csv --encoding hex\n", "", "'hex' is no encoding"),
    "a given UTF-8": (b"\xef\xbb\xbf1,2\n", "]table A t.csv --encoding utf-8\nA\n", "1 2\n", ""),
}


def table(room: Room, file: str | bytes, lines: str, output: str, said: str) -> Outcome:
    """Reads a table, or expects its refusal."""
    room.put("t.csv", file)
    status, printed, messages = room.call(lines=lines)
    return (printed, status, said in messages or messages), (output, int(not output), True)


class Options(NamedTuple):
    """Options of ]table."""

    decimals: int
    mark: str
    has_thousands: bool
    empty: Optional[int]

    @property
    def words(self) -> str:
        words = f" --decimals {self.decimals}" * bool(self.decimals) + " --thousands" * self.has_thousands
        words += {"": "", ",": " --comma", ".": " --point"}[self.mark]
        return words + (f" --empty {self.empty}" if self.empty is not None else "")


def written(chosen: random.Random, options: Options) -> str:
    """Returns a random field, mostly a number in the format of the options."""
    if chosen.random() < 0.06:
        return chosen.choice(["", " ", "-", "x", "1,2,3", "1.5", "1,5", "1.000", "1,000", "1 000", "--1", "5.", ",5", "0.5-", "99999999999999999999"])
    decimals = chosen.randint(0, options.decimals + (chosen.random() < 0.05))
    mark, gap = options.mark or chosen.choice(",."), chosen.choice(["", "other", " ", "'", "\u00a0"]) if options.has_thousands else ""
    whole = f"{chosen.choice([0, 7, 12, 999, 1000, 123456, 10**9, 9223372036854775807]):,}".replace(",", {"other": ".," [mark == "."]}.get(gap, gap))
    part = mark + "".join(chosen.choices("0123456789", k=decimals)) if decimals else ""
    return chosen.choice(["", "", "-", "¯", "+"]) + whole + part + chosen.choice(["", "", " "])


def value(field: str, mark: str, options: Options) -> Optional[int]:
    """Returns the number in a field in units of the last decimal, by Decimal; None if there is none."""
    text = field.strip(" \t") or ("" if options.empty is None else str(options.empty))
    sign, text = (text[0], text[1:]) if text[:1] in tuple("+-¯") else ("", text)
    whole, point, part = text.partition(mark)
    if point and not (part.isascii() and part.isdigit() and len(part) <= options.decimals):
        return None
    gaps = {it for it in whole if not "0" <= it <= "9"}
    if gaps:
        groups = re.split("[^0-9]", whole)
        if not options.has_thousands or len(gaps) > 1 or not gaps <= {*".,", *" \u00a0\u2009\u202f'’"} - {mark}:
            return None
        if not 1 <= len(groups[0]) <= 3 or any(len(group) != 3 for group in groups[1:]):
            return None
        whole = "".join(groups)
    if not whole and not part:
        return None
    return int(Decimal(f"{'-' * (sign in ('-', '¯'))}{whole or 0}.{part or 0}").scaleb(options.decimals))


def wanted(text: str, separator: str, options: Options) -> str:
    """Returns the expected items, or the expected place of the refusal, computed by Decimal and csv."""
    records = [record for record in csv.reader(io.StringIO(text, newline=""), delimiter=separator) if record]
    fields = [field for record in records for field in record]
    found = [[value(field, mark, options) for field in fields] for mark in options.mark or ",."]
    fits = [[it is not None and -(1 << 63) <= it < 1 << 63 for it in numbers] for numbers in found]
    well = [numbers for numbers, fit in zip(found, fits) if all(fit)]
    if not well:
        place = max(fit.index(False) for fit in fits)
    elif len(well) == 2 and well[0] != well[1]:
        place = next(at for at, pair in enumerate(zip(*well)) if pair[0] != pair[1])
    else:
        return " ".join(map(str, well[0])).replace("-", "¯")
    return f"record {place // len(records[0]) + 1} field {place % len(records[0]) + 1} "


def random_options(room: Room, seed: int) -> Outcome:
    """]table agrees with Decimal and csv on random tables and options, also about the first bad field."""
    chosen, cases, lines = random.Random(seed), [], []
    for number in range(100):
        empty = chosen.choice([None, None, 0, -3])
        options = Options(chosen.choice([0, 1, 2, 2, 3, 18]), chosen.choice(["", "", ",", "."]), chosen.random() < 0.5, empty)
        width, separator = chosen.randint(2, 4), chosen.choice([";", ",", "|", "\t"])
        rows = [[written(chosen, options) for _ in range(width)] for _ in range(chosen.randint(1, 6))]
        file = io.StringIO(newline="")
        csv.writer(file, delimiter=separator, quoting=chosen.choice([csv.QUOTE_MINIMAL, csv.QUOTE_ALL])).writerows(rows)
        room.put(f"{number}.csv", file.getvalue())
        word = "tab" if separator == "\t" else f"'{separator}'"
        lines += [f"]table T{number} {number}.csv --separator {word}{options.words}", f",T{number}", "'next'"]
        cases.append((options.words, rows, wanted(file.getvalue(), separator, options)))
    _, printed, messages = room.call(lines="\n".join(lines))
    answers = [answer.strip("\n") for answer in printed.split("next\n")]
    for number, place in re.findall(r" ([0-9]+)\.csv: (record \d+ field \d+ )", messages):
        answers[int(number)] += place
    return [(case, answer) for case, answer in zip(cases, answers) if case[2] != answer], []


def tests(_times: int) -> list[Test]:
    return [*(Test(name, table, row) for name, row in CASES.items()), *(Test(f"random options {seed}", random_options, (seed,)) for seed in range(3))]
