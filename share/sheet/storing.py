"""The array of a name, and the lines that make it."""

from __future__ import annotations

from math import prod
from typing import List, Optional, Union

from .answers import is_shape
from .arrays import lines_of_array
from .program import Program

FEW = 1000  # the most items of a question whether they fit one line


class Array:
    """The array of a name, by answers of the program.

    error    the error of the name, or None
    shape    the shape
    is_text  whether it is of characters
    """

    def __init__(self, program: Program, name: str) -> None:
        shape, kind = program.ask_all([f"⍴{name}", f"0=1↑0⍴{name}"])
        self.program, self.name = program, name
        self.error = None if is_shape(shape) else " ".join(shape)
        self.shape = [] if self.error else [int(length) for length in shape[0].split()]
        self.is_text = kind == ["0"]

    @property
    def items(self) -> Union[str, List[str]]:
        """The items: a text, or a list of numbers."""
        (items,) = self.program.ask(f",{self.name}")
        return items if self.is_text else items.split()


def one_line(program: Program, name: str) -> Optional[List[str]]:
    """Returns the line that binds a name to its array, if the items are few and fit one line; else None."""
    array = Array(program, name)
    if array.error or prod(array.shape) > FEW:
        return None
    lines = lines_of_array(name, array.shape, array.items, name)
    return lines if len(lines) == 1 else None
