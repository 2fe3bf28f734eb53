"""The names to which the axes of a formula's result belong, by the text of the formula: labels of data then hold for its results too.

+/DEMAND has the first axis of DEMAND, +⌿DEMAND the second, PRICE×TOTAL those of either. A selection has a new axis, which belongs to no name.
Only labels on a page depend on this, and no value. A formula that is not understood has no known axes, and a label also needs the right length.
"""

from __future__ import annotations

import re
from typing import Dict, List, Mapping, Optional, Sequence, Tuple

from ..journal import Binding
from ..lines import NAME, Line

Axis = Tuple[Tuple[str, int], ...]  # the axes of names to which it belongs: a name and the place of its axis, each
Axes = List[Axis]
Function = Tuple[str, int]  # its signs, and its axis, 0 if none is written
Known = Mapping[str, Optional[Axes]]

TOKEN = re.compile(rf"'(?:[^']|'')*'|{NAME}|¯?[0-9]+(?:[ \t]+¯?[0-9]+)*|[^ \t]")
SCALAR = frozenset("+-×÷*⋆|∣⌈⌊<≤=≥>≠∧^∨⍲⍱~∼")
ALONG = "/⌿\\⍀"
BRACKETED = frozenset(",⍪⌽⊖" + ALONG)  # these take an axis in brackets


class Unknown(Exception):
    """The text is not understood."""


class Shape(List[Axis]):
    """The one axis of ⍴B, and the axes of B, which (⍴B)⍴0 has."""

    def __init__(self, whole: Axes) -> None:
        super().__init__([()])
        self.whole = whole


def axes_of_names(bindings: Mapping[str, Binding], ranks: Mapping[str, int]) -> Dict[str, Optional[Axes]]:
    """Returns the axes of each name. Data has its own, one for each axis of its rank; a formula has those of the names that it reads."""
    known: Dict[str, Optional[Axes]] = {}
    for name in in_order(bindings):
        binding = bindings[name]
        if not binding.is_data:
            known[name] = axes_of(Line(binding.text or "").expression, known)
        elif name in ranks:
            known[name] = [((name, place),) for place in range(ranks[name])]
    return {name: known.get(name) for name in bindings}


def in_order(bindings: Mapping[str, Binding]) -> List[str]:
    """Returns the names, each behind those that it refers to."""
    done: Dict[str, None] = {}
    for first in bindings:
        ways = [] if first in done else [(first, iter(bindings[first].references))]
        while ways:
            name, rest = ways[-1]
            before = next((other for other in rest if other in bindings and other not in done), None)
            if before is None:
                done[name] = None
                ways.pop()
            else:
                ways.append((before, iter(bindings[before].references)))
    return [*done]


def axes_of(formula: str, known: Known) -> Optional[Axes]:
    """Returns the axes of a formula's result; None if not even their number is known."""
    tokens = TOKEN.findall(formula)
    try:
        found, rest = expression(tokens, known)
        return None if rest else found
    except (Unknown, IndexError):
        return None


def expression(tokens: Sequence[str], known: Known) -> Tuple[Axes, Sequence[str]]:
    """Returns the axes of the expression that stands first, and the tokens behind it."""
    if is_operand(tokens):
        left, rest = operand(tokens, known)
        if not rest or rest[0] in (")", "]", ";"):
            return left, rest
        function, rest = function_of(rest)
        right, rest = expression(rest, known)
        return dyadic(function, left, right), rest
    function, rest = function_of(tokens)
    right, rest = expression(rest, known)
    return monadic(function, right), rest


def is_operand(tokens: Sequence[str]) -> bool:
    return tokens[0] == "(" or tokens[0][0] in "'¯" or tokens[0][0].isdigit() or bool(re.match(NAME, tokens[0]))


def operand(tokens: Sequence[str], known: Known) -> Tuple[Axes, Sequence[str]]:
    """Returns the axes of the operand that stands first, and the tokens behind it."""
    first, rest = tokens[0], tokens[1:]
    if first == "(":
        axes, rest = expression(rest, known)
        rest = behind(rest, ")")
    elif re.match(NAME, first):
        if (its := known.get(first)) is None:
            raise Unknown
        axes = its
    else:
        length = len(first[1:-1].replace("''", "'")) if first[0] == "'" else len(first.split())
        axes = [] if length == 1 else [()]
        if first[0] != "'" and length > 1:
            axes = Shape([()] * length)  # an array that it reshapes has that many axes
    while rest and rest[0] == "[":
        axes, rest = indexed(axes, rest[1:], known)
    return axes, rest


def indexed(axes: Axes, rest: Sequence[str], known: Known) -> Tuple[Axes, Sequence[str]]:
    """Returns the axes of an indexed array: an empty position keeps its axis, and another one has unknown axes."""
    found: Axes = []
    at = 0
    while True:
        if rest[0] in (";", "]"):
            found.append(axes[at])
        else:
            position, rest = expression(rest, known)
            found += [()] * len(position)
        at += 1
        end, rest = rest[0], rest[1:]
        if end == "]":
            return found, rest


def function_of(tokens: Sequence[str]) -> Tuple[Function, Sequence[str]]:
    """Returns the function that stands first, and the tokens behind it."""
    sign, rest = tokens[0], tokens[1:]
    if sign == "∘":
        rest = behind(rest, ".")
        return ("∘.", 0), rest[1:]
    if sign in SCALAR and rest and rest[0] == ".":
        return (".", 0), rest[2:]
    if sign in SCALAR and rest and rest[0] in ALONG:
        sign, rest = "f" + rest[0], rest[1:]
    if sign[-1] in BRACKETED and rest and rest[0] == "[":
        return (sign, int(rest[1])), behind(rest[2:], "]")
    return (sign, 0), rest


def behind(tokens: Sequence[str], sign: str) -> Sequence[str]:
    """Returns the tokens behind a sign that stands first; Unknown if another one does."""
    if tokens[0] != sign:
        raise Unknown
    return tokens[1:]


def place(function: Function, axes: Axes) -> int:
    """Returns the place of the axis along which a function works."""
    sign, axis = function
    return axis - 1 if axis else 0 if sign[-1] in "⌿⍀⍪⊖" else len(axes) - 1


def monadic(function: Function, axes: Axes) -> Axes:
    """Returns the axes of a function's result with one argument."""
    sign = function[0]
    if sign in SCALAR or sign in ("f\\", "f⍀"):
        return axes
    if sign in ("f/", "f⌿"):
        return without(axes, place(function, axes))
    if sign in ("⌽", "⊖"):
        return lost(axes, place(function, axes))
    if sign == "⍉":
        return axes[::-1]
    if sign == "⍴":
        return Shape(axes)
    if sign in ("⍳", ","):
        return [()]
    raise Unknown


def dyadic(function: Function, left: Axes, right: Axes) -> Axes:
    """Returns the axes of a function's result with two arguments."""
    sign = function[0]
    if sign in SCALAR:
        return of_both(left, right)
    if sign in ("/", "⌿"):
        return lost(right, place(function, right))
    if sign in (",", "⍪"):
        longer = max(left, right, key=len)
        return lost(longer, place(function, longer)) if longer else [()]
    if sign in ("⌽", "⊖"):
        return lost(right, place(function, right))
    if sign in ("↑", "↓"):
        return [()] * len(right)
    if sign == "⍴" and isinstance(left, Shape):
        return left.whole
    if sign == "∘.":
        return left + right
    if sign == ".":
        return left[:-1] + right[1:]
    if sign in ("⍳", "⊤") and len(left) == 1:
        return right if sign == "⍳" else [(), *right]
    if sign == "∊":
        return left
    if sign == "⊥":
        return right[1:]
    raise Unknown


def of_both(left: Axes, right: Axes) -> Axes:
    """Returns the axes of a scalar function's result: those of both arguments, or of the one of greater rank."""
    if left and right and len(left) == len(right):
        return [(*one, *(axis for axis in other if axis not in one)) for one, other in zip(left, right)]
    return left if len(left) > len(right) else right


def without(axes: Axes, at: int) -> Axes:
    """Returns axes without the one at a place."""
    return axes[:at] + axes[at + 1 :]


def lost(axes: Axes, at: int) -> Axes:
    """Returns the axes, with the one at a place unknown."""
    return [() if other == at else axis for other, axis in enumerate(axes)]
