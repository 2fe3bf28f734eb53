"""The parts of an expression that the program has read, with their places: operands, and the functions between them.

Only the program evaluates or refuses an expression.
"""

from __future__ import annotations

from typing import NamedTuple, Optional, Union

from .lines import Token

REDUCES = frozenset("/⌿\\⍀")  # after a scalar function they make another function
ENDS = frozenset(")];")


class Unreadable(Exception):
    """The parts do not make an expression."""


class Operand(NamedTuple):
    """An operand: its place, the expression in its parentheses, and the indexes after it."""

    start: int
    end: int
    inside: Optional[Expression]
    indexes: list[Index]

    @property
    def is_bare(self) -> bool:
        """True for a literal or a name alone."""
        return self.inside is None and not self.indexes


class Index(NamedTuple):
    """An index: the places of its brackets, and its positions except empty ones."""

    start: int
    end: int
    positions: list[Expression]


class Function(NamedTuple):
    """A function with its axis and its operators: the places where it begins and ends."""

    start: int
    end: int


class Step(NamedTuple):
    """The use of a function: the function, its left argument if there is one, and the place where both begin."""

    function: Function
    left: Optional[Operand]
    start: int


class Expression(NamedTuple):
    """An expression: its last operand, the uses of functions from the right to the left, and the places where it begins and ends."""

    operand: Operand
    steps: list[Step]
    start: int
    end: int

    @property
    def is_bare(self) -> bool:
        return not self.steps and self.operand.is_bare


class Reader:
    """Reads the parts of a line from the left to the right."""

    def __init__(self, tokens: list[Token]) -> None:
        self.tokens, self.next = tokens, 0

    def sign(self, ahead: int = 0) -> str:
        """Returns the text of the next part, or of one further ahead; an empty text after the end."""
        place = self.next + ahead
        return self.tokens[place].text if place < len(self.tokens) else ""

    def take(self, wanted: str = "") -> Token:
        """Returns the next part, and moves past it."""
        if self.next >= len(self.tokens) or wanted and self.sign() != wanted:
            raise Unreadable
        self.next += 1
        return self.tokens[self.next - 1]

    def expression(self) -> Expression:
        """Reads an expression up to a closing symbol or the end of the line."""
        parts: list[Union[Operand, Function]] = []
        while self.sign() and self.sign() not in ENDS:
            is_operand = self.tokens[self.next].kind != "sign" or self.sign() == "("
            parts.append(self.operand() if is_operand else self.function())
        return expression_of(parts)

    def operand(self) -> Operand:
        """Reads a literal, a name or an expression in parentheses, and the indexes after it."""
        first = last = self.take()
        inside: Optional[Expression] = None
        indexes: list[Index] = []
        if first.text == "(":
            inside = self.expression()
            last = self.take(")")
        while first.kind == "number" and self.next < len(self.tokens) and self.tokens[self.next].kind == "number":
            last = self.take()
        while first.kind in ("sign", "name") and self.sign() == "[":
            indexes.append(self.index())
        return Operand(first.start, indexes[-1].end if indexes else last.end, inside, indexes)

    def index(self) -> Index:
        """Reads an index."""
        opening = self.take("[")
        positions: list[Expression] = []
        while self.sign() != "]":
            if self.sign() == ";":
                self.take()
            else:
                positions.append(self.expression())
        return Index(opening.start, self.take("]").end, positions)

    def function(self) -> Function:
        """Reads a function with its operators and its axis."""
        first = last = self.take()
        if first.text == "∘" or self.sign() == ".":
            self.take(".")
            last = self.take()
        elif first.text not in REDUCES and self.sign() in REDUCES:
            last = self.take()
        if self.sign() == "[":
            self.take("[")
            self.take()
            last = self.take("]")
        return Function(first.start, last.end)


def expression_of(parts: list[Union[Operand, Function]]) -> Expression:
    """Returns the expression that operands and functions make."""
    if not parts or not isinstance(parts[-1], Operand):
        raise Unreadable
    steps: list[Step] = []
    rest = parts[:-1]
    while rest:
        function = rest.pop()
        if not isinstance(function, Function):
            raise Unreadable
        before = rest[-1] if rest else None
        left = before if isinstance(before, Operand) else None
        if left:
            rest.pop()
        steps.append(Step(function, left, left.start if left else function.start))
    return Expression(parts[-1], steps, parts[0].start, parts[-1].end)


def read_expression(tokens: list[Token]) -> Expression:
    """Returns the expression that these parts make; Unreadable if they make none."""
    reader = Reader(tokens)
    expression = reader.expression()
    if reader.sign():
        raise Unreadable
    return expression
