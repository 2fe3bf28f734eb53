"""Reductions, products, digits and functions of random lists beside their definitions."""

from __future__ import annotations

import math
from random import Random
from typing import Callable, Iterable

from .program_calls import needs, watched
from .scans import KINDS_OF_NUMBERS, OF_TWO_NUMBERS, Failed, as_literal, folded, in_range
from .vocabulary import SCALAR

OF_ONE_NUMBER: dict[str, Callable[[int], int]] = {
    "-": lambda number: in_range(-number),
    "|": lambda number: in_range(abs(number)),
    "×": lambda number: (number > 0) - (number < 0),
    "~": lambda number: OF_TWO_NUMBERS["⍲"](number, number),
    "÷": lambda number: OF_TWO_NUMBERS["÷"](1, number),
}
PERIOD = 60  # an array of more numbers repeats them, which keeps lines short


def some_numbers(chance: Random, count: int, function: str = "") -> list[int]:
    """Draws numbers of one kind, at times with one of another kind among them. They repeat after PERIOD numbers."""
    kind = "truths" if function in [*"∧∨⍲⍱"] and chance.random() < 0.8 else chance.choice([*KINDS_OF_NUMBERS])
    numbers = chance.choices(KINDS_OF_NUMBERS[kind], k=min(count, PERIOD))
    if chance.random() < 0.3:
        numbers[chance.choice([0, -1, chance.randrange(len(numbers))])] = chance.choice(KINDS_OF_NUMBERS[chance.choice([*KINDS_OF_NUMBERS])])
    return (numbers * count)[:count]


def text_of(items: Iterable[Callable[[], int]]) -> str:
    """Returns the text of a list of items, or of the error of the first that fails."""
    try:
        return as_literal([item() for item in items])
    except Failed as failed:
        return str(failed)


def array(shape: Iterable[int], numbers: list[int]) -> str:
    return f"({as_literal([*shape])}⍴{as_literal(numbers[:PERIOD])})"


def some_reduction(chance: Random) -> tuple[str, str]:
    """Returns a line that shows the ravel of a reduction of some array, and its answer."""
    function, length = chance.choice(SCALAR), chance.choice([1, 2, 3, 4, 5, 8, 17, 64, 65, 99])
    shape = chance.choice([[length], [3, length], [length, 3], [2, length, 2]])
    axis = chance.choice([place for place, places in enumerate(shape) if places == length])
    numbers, stride = some_numbers(chance, math.prod(shape), function), math.prod(shape[axis + 1 :])
    firsts = [block + place for block in range(0, len(numbers), length * stride) for place in range(stride)]
    lines = [numbers[first : first + length * stride : stride] for first in firsts]
    return f",{function}/[{axis + 1}]{array(shape, numbers)}", text_of(lambda it=it: folded(function, it) for it in lines)


def cell(fold: str, each: str, row: list[int], column: list[int]) -> int:
    """Returns the item of an inner product of a row and a column: the results of `each` from the last pair on, then their fold."""
    met = [OF_TWO_NUMBERS[each](left, right) for left, right in reversed([*zip(row, column)])]
    return folded(fold, met[::-1])


def some_product(chance: Random) -> tuple[str, str]:
    """Returns a line that shows the ravel of an inner product of two matrices, and its answer."""
    fold, each = chance.choice([(chance.choice(SCALAR), chance.choice(SCALAR)), ("+", "×"), ("∨", "∧"), ("⌈", "+"), ("⌊", "+")])
    rows, count, columns = chance.randrange(1, 5), chance.choice([1, 2, 3, 9, 65]), chance.choice([1, 2, 5, 64, 65, 70])
    left, right = some_numbers(chance, rows * count, each), some_numbers(chance, count * columns, each)
    pairs = [(left[row * count : (row + 1) * count], right[column::columns]) for row in range(rows) for column in range(columns)]
    line = f",{array([rows, count], left)}{fold}.{each}{array([count, columns], right)}"
    return line, text_of(lambda it=it: cell(fold, each, *it) for it in pairs)


def decoded(radices: list[int], digits: list[int]) -> int:
    value = 0
    for radix, digit in zip(radices, digits):
        value = in_range(in_range(value * radix) + digit)
    return value


def some_radices(chance: Random, count: int) -> list[int]:
    """Draws radices, at times one radix for all digits, or powers of two."""
    some, powers = [2, 3, 7, 10, 16, 60, 1000, 50000, 2**21, 1, 0, -1, -7], [2, 2, 2, 4, 8, 256, 1, 2**21]
    radices = chance.choice([some_numbers(chance, count), chance.choices(some, k=count), chance.choices(powers, k=count)])
    return radices[:1] * count if chance.random() < 0.3 else radices


def some_decoding(chance: Random) -> tuple[str, str]:
    """Returns a line that shows numbers from digits that stand in columns, and its answer."""
    count, columns = chance.choice([1, 2, 3, 8, 32]), chance.choice([1, 2, 9])
    radices, digits = some_radices(chance, count), some_numbers(chance, count * columns)
    line = f"({as_literal(radices)})⊥{array([count, columns], digits)}"
    return line, text_of(lambda it=it: decoded(radices, digits[it::columns]) for it in range(columns))


def digit(radices: list[int], place: int, number: int) -> int:
    """Returns the digit of a number by the radix at a place, after all later radices."""
    for radix in reversed(radices[place + 1 :]):
        number = in_range(number // radix) if radix else 0
    return OF_TWO_NUMBERS["|"](radices[place], number)


def some_encoding(chance: Random) -> tuple[str, str]:
    """Returns a line that shows the ravel of the digits of some numbers, and its answer."""
    count, columns = chance.choice([1, 2, 3, 8, 32]), chance.choice([1, 2, 9])
    radices, numbers = some_radices(chance, count), some_numbers(chance, columns)
    items = [(place, number) for place in range(count) for number in numbers]
    return f",({as_literal(radices)})⊤{array([columns], numbers)}", text_of(lambda it=it: digit(radices, *it) for it in items)


def some_list(chance: Random) -> tuple[str, str]:
    """Returns a line that shows a list of numbers by a function with one number, or with another list, and its answer."""
    function, count = chance.choice([chance.choice(SCALAR), *"÷*×+-∧∨"]), chance.choice([2, 3, 9, 70])
    left, right = some_numbers(chance, count, function), some_numbers(chance, count, function)
    one = chance.choice(["left", "right", "right", "none"])
    if one == "left":
        left = [chance.choice([left[0], 10, 0])] * count
    if one == "right":
        right = [chance.choice([right[0], 2, 7, 3])] * count
        if function == "÷" and chance.random() < 0.8:
            left = [number // right[0] * right[0] if right[0] else number for number in left]
            left = [number if -(2**63) <= number < 2**63 else 0 for number in left]
    pairs = [*zip(left, right)]
    sides = [as_literal(side[:1]) if one == name else array([count], side) for name, side in (("left", left), ("right", right))]
    return function.join(sides), text_of(lambda it=it: OF_TWO_NUMBERS[function](*it) for it in pairs)


def some_each(chance: Random) -> tuple[str, str]:
    """Returns a line that shows a function of each number of a list, and its answer."""
    function, count = chance.choice([*OF_ONE_NUMBER]), chance.choice([2, 3, 9, 70])
    numbers = some_numbers(chance, count, "∧" if function == "~" else "")
    return f"{function}{array([count], numbers)}", text_of(lambda it=it: OF_ONE_NUMBER[function](it) for it in numbers)


def some_table(chance: Random) -> tuple[str, str]:
    """Returns a line that shows the ravel of an outer product of two lists, and its answer."""
    function, rows, columns = chance.choice([chance.choice(SCALAR), *"×+-∧∨"]), chance.choice([2, 3, 9]), chance.choice([2, 3, 9, 17])
    left, right = some_numbers(chance, rows, function), some_numbers(chance, columns, function)
    pairs = [(number, other) for number in left for other in right]
    line = f",{array([rows], left)}∘.{function}{array([columns], right)}"
    return line, text_of(lambda it=it: OF_TWO_NUMBERS[function](*it) for it in pairs)


def try_results(program: str, seed: int, count: int) -> str:
    """Compares `count` results of each function below with their definitions."""
    chance = Random(seed)
    kinds = [some_reduction, some_product, some_decoding, some_encoding, some_list, some_each, some_table]
    due = [kind(chance) for kind in kinds for _ in range(count)]
    output, _, _ = watched(program, [f"{line}\n".encode() for line, _ in due])
    answers = output.decode().split("\n")
    wrong = [(line, answer[:99], wanted[:99]) for (line, wanted), answer in zip(due, answers) if answer != wanted]
    needs(len(answers) == len(due) + 1 and not wrong, f"seed {seed}: {len(answers)} answers to {len(due)} lines; {wrong[:1]}")
    return f"{len(due)} results, {sum(wanted.endswith('ERROR') for _, wanted in due)} of them errors"
