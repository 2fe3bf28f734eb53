"""Arrays as lines."""

from __future__ import annotations

import random
import subprocess
from functools import reduce
from operator import mul
from typing import Callable, List, NamedTuple, Sequence, Union

from sheet.arrays import lines_of_array, rows_of_array
from sheet.lines import LONGEST

from .rooms import SECONDS, Outcome, Room, Test, named_tests

Items = Union[str, List[str]]
Layout = Callable[[str, List[int], Items, str], List[str]]
LAYOUTS: Sequence[Layout] = (lines_of_array, rows_of_array)
NARROW = "0 1 2 3 44 55 66"
WIDE = "-9223372036854775808 -9223372036854775807 9223372036854775807 -1234567890123456789"
PLAIN, STRANGE = "abc ", "'⍝é \U00010348\U0001F600"
# on both sides of each threshold of rows_of_array, as far as the program takes them in quickly
SHAPES: list[list[int]] = [[], [0], [1], [2], [177], [300], [1300], [0, 3], [2, 0], [1, 1], [9, 1], [63, 1], [12, 20], [1, 900]]
SHAPES += [[2, 300], [2, 1100], [1001, 2], [1003, 1, 1], [1, 2, 200], [2, 2, 2, 20], [1, 1, 1, 1100], [3, 0, 2, 4], [64, 1, 1]]
LARGE = [[1000, 3], [1001, 89], [1001, 177], [1001, 200], [3000, 60], [30, 5000], [2, 500, 90]]


class Array(NamedTuple):
    """An array: its shape, and its items as lines_of_array takes them."""

    shape: List[int]
    items: Items


def number_of_items(shape: List[int]) -> int:
    return reduce(mul, shape, 1)


def arrays_of(shape: List[int], chosen: random.Random) -> list[Array]:
    """Returns four arrays of a shape: of narrow and of wide numbers, and of plain and of strange characters."""
    count = number_of_items(shape)
    numbers = [Array(shape, chosen.choices(pool.split(), k=count)) for pool in (NARROW, WIDE)]
    return numbers + [Array(shape, "".join(chosen.choices(pool, k=count))) for pool in (PLAIN, STRANGE)]


def small_shape(chosen: random.Random) -> list[int]:
    return [chosen.choice([0, 1, 2, 3, 4, 5]) for _ in range(chosen.randint(0, 4))]


def shown(array: Array) -> str:
    """Returns the answers that tell of an array: its shape, whether it is of numbers, and its items."""
    is_text = isinstance(array.items, str)
    items = array.items if is_text else " ".join(array.items).replace("-", "¯")
    return "{}\n{}\n{}\n".format(" ".join(map(str, array.shape)), int(not is_text), items)


def shown_by_the_program(room: Room, binding: list[list[str]]) -> list[str]:
    """Returns the answers that tell of a name A, each time that lines have bound it; all that they print, and other names, are in them."""
    questions = ["⍴A", "0=1↑0⍴A", ",A", ")NAMES", ")ERASE A", "'next array'"]
    text = "\n".join(line for lines in binding for line in [*lines, *questions])
    ran = subprocess.run([room.program], input=text.encode(), capture_output=True, timeout=SECONDS)
    return ran.stdout.decode().split("next array\n")[:-1]


def bound_by_lines(room: Room) -> Outcome:
    """The lines of both layouts bind the name to the array, and leave no other name."""
    chosen = random.Random(1)
    shapes = SHAPES + [small_shape(chosen) for _ in range(60)]
    arrays = [array for shape in shapes for array in arrays_of(shape, chosen)]
    ways: list[tuple[Layout, str]] = [(rows_of_array, "A"), (rows_of_array, "∆1"), (lines_of_array, "∆1")]
    cases = [(array, *way) for array in arrays for way in (ways if len(array.items) < 1000 else ways[:1])]
    answers = shown_by_the_program(room, [layout("A", array.shape, array.items, spare) for array, layout, spare in cases])
    wrong = [(layout, array.shape, answer) for (array, layout, _), answer in zip(cases, answers) if answer != f"{shown(array)}A\n"]
    return (len(answers), wrong), (len(cases), [])


def changed(items: Items, chosen: random.Random) -> Items:
    """Returns the items with another one in one place."""
    place = chosen.randrange(len(items))
    if isinstance(items, str):
        return items[:place] + chosen.choice([sign for sign in PLAIN + STRANGE if sign != items[place]]) + items[place + 1 :]
    numbers = [number for number in f"{NARROW} {WIDE}".split() if number != items[place]]
    return [*items[:place], chosen.choice(numbers), *items[place + 1 :]]


def changed_lines(array: Array, chosen: random.Random) -> int:
    """Returns how many lines of rows_of_array change with an item; all of them where there are more or fewer lines."""
    before, after = (rows_of_array("A", array.shape, items, "A") for items in (array.items, changed(array.items, chosen)))
    if len(before) != len(after):
        return len(before)
    return sum(line != other for line, other in zip(before, after))


def one_line_an_item(_room: Room) -> Outcome:
    """A change of one item changes one line; a matrix of one line may become several."""
    chosen = random.Random(2)
    shapes = [shape for shape in SHAPES + LARGE if number_of_items(shape)]
    arrays = [array for shape in shapes for array in arrays_of(shape, chosen) for _ in range(1 if shape in LARGE else 4)]
    return [(array.shape, lines) for array in arrays if (lines := changed_lines(array, chosen)) != 1], []


def gathered_items(lines: List[str]) -> int:
    """Returns how many items are gathered in the rows of a matrix; 0 where one line has all."""
    rows = 1 + sum(line.startswith(")ROW") for line in lines)
    return rows * int(lines[0].partition("⍴")[0].split()[-1]) if rows > 1 else 0


def short_lines(_room: Room) -> Outcome:
    """No line has more than 4,096 bytes, under the longest name too, and no line makes an array of too many items."""
    chosen, name = random.Random(3), "∆" * 21
    arrays = [array for shape in SHAPES + LARGE for array in arrays_of(shape, chosen)]
    arrays += [Array(shape, [WIDE.split()[0]] * number_of_items(shape)) for shape in ([5216, 201], [1, 1 << 20], [1 << 19, 2], [1 << 20])]
    made = [(array.shape, way(name, array.shape, array.items, name)) for array in arrays for way in LAYOUTS]
    long = [(shape, line[:80]) for shape, lines in made for line in lines if len(line.encode()) > LONGEST]
    return (long, [shape for shape, lines in made if gathered_items(lines) > 1 << 20]), ([], [])


LINES = {  # a shape, items, a spare name, and the lines of rows_of_array
    "a short matrix": ([2, 2], ["1", "-2", "3", "4"], "A", [")DATA A←2 2⍴1 ¯2 3 4"]),
    "a row a line": ([2, 80], "a" * 160, "A", [f")DATA A←1 80⍴'{'a' * 80}'", f")ROW A '{'a' * 80}'"]),
    "a spare name": ([2, 80], "a" * 160, "∆1", [f")DATA ∆1←1 80⍴'{'a' * 80}'", f")ROW ∆1 '{'a' * 80}'", ")DATA A←2 80⍴∆1", ")ERASE ∆1"]),
    "planes": ([2, 1, 80], "a" * 160, "A", [f")DATA A←1 80⍴'{'a' * 80}'", f")ROW A '{'a' * 80}'", ")DATA A←2 1 80⍴A"]),
    "many rows": (
        [1001, 80],
        "a" * 80080,
        "A",
        [f")DATA A←1 960⍴'{'a' * 960}'", *[f")ROW A '{'a' * 960}'"] * 82, f")DATA A←1001 80⍴(,A),'{'a' * 400}'"],
    ),
    "a wide row": (
        [1, 2101],
        "é" * 2101,
        "A",
        [f")DATA A←1 701⍴'{'é' * 701}'", f")ROW A '{'é' * 701}'", f")ROW A '{'é' * 699}  '", ")DATA A←1 2101↑1 2103⍴A"],
    ),
    "a long vector": (
        [400],
        ["-1000000000"] * 400,
        "A",
        [f")DATA A←1 177⍴{' '.join(['¯1000000000'] * 177)}", f")ROW A {' '.join(['¯1000000000'] * 177)}"]
        + [f")DATA A←400⍴(,A),{' '.join(['¯1000000000'] * 46)}"],
    ),
}


def lines_of_one(_room: Room, shape: List[int], items: Items, spare: str, lines: List[str]) -> Outcome:
    return rows_of_array("A", shape, items, spare), lines


def tests(_times: int) -> list[Test]:
    layouts = [Test(f"lines of an array: {name}", lines_of_one, row) for name, row in LINES.items()]
    return [*layouts, *named_tests([bound_by_lines, one_line_an_item, short_lines])]
