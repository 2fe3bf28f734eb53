"""Arrays as lines of the language, in two layouts: one of few lines, and one in which a change of an item changes one line."""

from __future__ import annotations

from typing import Sequence

from .lines import LONGEST

ROOM = LONGEST - 200  # bytes of a line for items; the text before them has less than 200
CHARACTERS, NUMBERS = ROOM // 4, ROOM // 22  # items that fit a line at any width
SHORT = 100  # characters of a line with a whole matrix
MANY_ROWS = 1000  # with more rows, several share a line
MOST_ITEMS = 1 << 20  # of an array


def literal(items: str | Sequence[str]) -> str:
    """Returns the items of an array as a literal: a text, or a list of texts of numbers."""
    return "'" + items.replace("'", "''") + "'" if isinstance(items, str) else " ".join(items).replace("-", "¯")


def lines_of_array(name: str, shape: Sequence[int], items: str | Sequence[str], spare: str, each: int = 1) -> list[str]:
    """Returns few lines that bind a name to an array of that shape. Its items are a text, or texts with `each` numbers each.

    Items beyond one line are gathered as rows of a matrix under the name `spare`. Each item moves a constant number of times. `spare` may be
    the name itself; another name is erased at the end.
    """
    if isinstance(items, str):
        room = ROOM // (2 if items.isascii() else 4)
    else:
        room = ROOM // (max(map(len, items), default=0) + each + 1)  # each ¯ has two bytes
    if room == 0:
        return lines_of_array(name, shape, " ".join(items).split(" "), spare)
    return [whole_line(name, shape, items)] if len(items) <= room else gathered(name, shape, items, spare, room, each)


def rows_of_array(name: str, shape: Sequence[int], items: str | Sequence[str], spare: str) -> list[str]:
    """Returns lines that bind a name to an array as lines_of_array does. A change of one item changes one line.

    A vector that fits is one line, and so is a matrix that fits a short line. Otherwise each row of a matrix is a line, but many rows share
    lines. A row too long for a line is divided evenly.
    """
    if len(items) <= LONGEST:
        line = whole_line(name, shape, items)
        if not items or len(line) <= SHORT or len(shape) < 2 and len(line.encode()) <= LONGEST:
            return [line]
    room = CHARACTERS if isinstance(items, str) else NUMBERS
    if len(shape) == 1:
        return gathered(name, shape, items, spare, room)
    width, rows = shape[-1], len(items) // shape[-1]
    if rows > MANY_ROWS and room // width > 1:
        return gathered(name, shape, items, spare, room // width * width)
    lines = gathered(name, shape, items, spare, width)
    if all(len(line.encode()) <= LONGEST for line in lines):
        return lines
    return parted_rows(name, shape, items, spare, room)


def whole_line(name: str, shape: Sequence[int], items: str | Sequence[str]) -> str:
    """Returns the line of any length that binds a name to an array."""
    is_literal = not shape or len(shape) == 1 and (len(items) > 1 or items == "")
    return (f")DATA {name}←" if is_literal else beginning(name, shape)) + (literal(items) if items or items == "" else "0")


def beginning(name: str, shape: Sequence[int]) -> str:
    """Returns the beginning of the line that gives a name an array of that shape."""
    return f")DATA {name}←{' '.join(map(str, shape))}⍴"


def gathered(name: str, shape: Sequence[int], items: str | Sequence[str], spare: str, count: int, each: int = 1) -> list[str]:
    """Returns the lines of an array with `count` items in each line, and fewer in the last one."""
    whole = len(items) // count * count
    lines = matrix_lines(spare, [literal(items[at : at + count]) for at in range(0, whole, count)], count * each)
    if whole < len(items):
        lines.append(f"{beginning(name, shape)}(,{spare}),{literal(items[whole:])}")
    elif spare != name or [*shape] != [whole // count, count * each]:
        lines.append(beginning(name, shape) + spare)
    return lines + [f")ERASE {spare}"] * (spare != name)


def parted_rows(name: str, shape: Sequence[int], items: str | Sequence[str], spare: str, room: int) -> list[str]:
    """Returns the lines of an array with several lines of equal length for each row; zeros or blanks fill the last one."""
    width, rows = shape[-1], len(items) // shape[-1]
    parts = -(-width // room)
    count = -(-width // parts)
    if rows * parts * count > MOST_ITEMS:  # there is no room to fill them
        return gathered(name, shape, items, spare, room)
    literals = [
        literal(filled(items[row + start : row + min(start + count, width)], count))
        for row in range(0, len(items), width)
        for start in range(0, parts * count, count)
    ]
    form = "" if len(shape) == 2 else " ".join(map(str, shape)) + "⍴"
    lines = matrix_lines(spare, literals, count)
    lines.append(f")DATA {name}←{form}{rows} {width}↑{rows} {parts * count}⍴{spare}")
    return lines + [f")ERASE {spare}"] * (spare != name)


def filled(items: str | Sequence[str], count: int) -> str | Sequence[str]:
    """Returns items with blanks or zeros appended up to `count`."""
    return items.ljust(count) if isinstance(items, str) else [*items, *["0"] * (count - len(items))]


def matrix_lines(name: str, literals: Sequence[str], width: int) -> list[str]:
    """Returns the lines that make a matrix, one for each row."""
    return [f")DATA {name}←1 {width}⍴{literals[0]}", *[f")ROW {name} {row}" for row in literals[1:]]]
