"""The place of an error in its line, shown as the line with a mark below it.

Questions to the program find the place of an error of values. The program evaluates from the right, and an error is the value of everything
to its left. So the error arises at the first function of the shortest tail of the expression that shows the error by itself.
"""

from __future__ import annotations

import shutil
import time
import unicodedata
from math import prod
from typing import TYPE_CHECKING, NamedTuple, Optional

from .answers import Answer, is_shape
from .expressions import Expression, Operand, Unreadable, read_expression
from .lines import Line, Token, tokens_of
from .notes import culprit, way_round
from .slips import slip_of

if TYPE_CHECKING:
    from .program import Program
    from .session import Session

MARK = "∧"
AT_FUNCTIONS = ("LENGTH ERROR", "RANK ERROR", "INDEX ERROR", "DOMAIN ERROR", "LIMIT ERROR", "AXIS ERROR")
WIDEST = 100  # columns if no terminal says its width
QUESTIONS = 12  # the most questions for one place
SECONDS = 0.2  # an expression with a slower answer is not evaluated again
PARTS = 250  # of an expression: with the two functions of a question it keeps the limits of the program
ITEMS = 20000  # the most items of the names in a formula, and its greatest number, for another evaluation
LONGEST_NAME = 63  # bytes


class Spot(NamedTuple):
    """The place of an error: the line, the place of a character in it, and the function there, if there is one."""

    text: str
    place: int
    function: str = ""

    def below(self, screen: Optional[str]) -> Optional[str]:
        """Returns a line with the mark, for the row below the last line of a screen that ends with this line, not wrapped."""
        if screen is None or not screen.endswith(self.text) or not screen.isprintable() or width_of(screen) >= columns():
            return None
        return " " * width_of(screen[: len(screen) - len(self.text) + self.place]) + MARK

    def lines(self, room: int = 2) -> list[str]:
        """Returns the line and the mark below it, after that many columns; a line that is too wide is cut around the place."""
        text = "".join(sign if sign.isprintable() else " " for sign in self.text)
        begin = len(text) - len(text.lstrip())
        room = columns() - room - len("....")
        end = len(text.rstrip())
        if width_of(text[begin:end]) > room:
            signs = room if width_of(text) == len(text) else room // 2
            begin = max(begin, min(self.place - signs // 2, end - signs))
            end = min(end, begin + signs)
        before = ".." * (begin > len(text) - len(text.lstrip())) + text[begin : self.place]
        return [before + text[self.place : end] + ".." * (end < len(text.rstrip())), " " * width_of(before) + MARK]


def columns() -> int:
    return shutil.get_terminal_size((WIDEST, 24)).columns


def width_of(text: str) -> int:
    """Returns the width of a text in columns: combining characters have none, and wide ones two."""
    unmarked = [sign for sign in text if unicodedata.category(sign) not in ("Mn", "Me", "Cf")]
    return sum(2 if unicodedata.east_asian_width(sign) in "FW" else 1 for sign in unmarked)


def spot_of(session: Session, answer: Answer) -> Optional[Spot]:
    """Returns the place of an error or a refusal; None if it is not known for certain."""
    line = culprit(session, answer)
    if answer.kind == "SYNTAX ERROR":
        slip = slip_of(line, session.journal.bindings)
        spot = Spot(line.text, slip.place) if slip and slip.place is not None else None
    elif answer.kind == "VALUE ERROR":
        absent = [token for token in expression_tokens(line) if token.kind == "name" and token.text not in session.journal.bindings]
        spot = Spot(line.text, absent[-1].start) if absent else None
    elif answer.kind == "CYCLE":
        closing = way_round(session, line)[1:2]
        spot = next((Spot(line.text, token.start) for token in expression_tokens(line) if [token.text] == closing), None)
    elif answer.kind == "LIMIT ERROR" and not answer.origin and (beyond := beyond_limits(line)):
        spot = Spot(line.text, beyond.start)
    elif line.kind in ("edit", "row"):
        spot = spot_in_change(session.program, line, answer)
    else:
        spot = spot_at_function(session.program, line, answer)
    if spot is None or answer.line.kind != "open" or answer.origin:
        return spot
    return Spot(answer.line.text, spot.place + len(answer.line.text) - len(line.text), spot.function)


def expression_tokens(line: Line) -> list[Token]:
    """Returns the parts of the expression that a line shows or binds; none for other lines."""
    if line.kind not in ("show", "definition", "data"):
        return []
    begin = 0 if line.kind == "show" else line.text.find("←") + 1
    return [token for token in tokens_of(line.text) if token.start >= begin]


def beyond_limits(line: Line) -> Optional[Token]:
    """Returns the first number of a line that is beyond 64 bits, or the first name that is too long."""
    for token in tokens_of(line.text):
        digits = token.text.lstrip("¯").lstrip("0")
        if token.kind == "number" and (len(digits) > 19 or int(digits or "0") >= (1 << 63) + token.text.startswith("¯")):
            return token
        if token.kind == "name" and len(token.text.encode()) > LONGEST_NAME:
            return token
    return None


def spot_in_change(program: Program, line: Line, answer: Answer) -> Optional[Spot]:
    """Returns the place in an edit or a row that does not fit the data: the bracket or the name, a position, or the literal."""
    tokens = tokens_of(line.text)
    opening, literal = (1, [token.text for token in tokens].index("←") + 1) if line.kind == "edit" else (2, 3)
    if answer.kind == "RANK ERROR":
        return Spot(line.text, tokens[opening].start)
    if answer.kind in ("LENGTH ERROR", "DOMAIN ERROR"):
        return Spot(line.text, tokens[literal].start)
    shape = program.ask(f"⍴{line.name}") if answer.kind == "INDEX ERROR" else []
    lengths = map(int, shape[0].split()) if is_shape(shape) else ()
    positions = [token for token in tokens[:literal] if token.kind == "number"]
    wrong = [token for token, length in zip(positions, lengths) if not 1 <= int(token.text.replace("¯", "-")) <= length]
    return Spot(line.text, wrong[0].start) if wrong else None


def spot_at_function(program: Program, line: Line, answer: Answer) -> Optional[Spot]:
    """Returns the place of the function at which an error arises, if cheap questions can find it."""
    tokens = expression_tokens(line)
    is_evaluated = line.kind != "definition" or answer.origin is not None
    if answer.kind not in AT_FUNCTIONS or not is_evaluated or not 0 < len(tokens) <= PARTS or answer.seconds > SECONDS:
        return None
    search = Search(program, line.text, answer.kind)
    try:
        expression = read_expression(tokens)
        if answer.origin and not (is_light(program, line, tokens) and search.shows(expression.start, expression.end)):
            return None
        return search.in_expression(expression)
    except (Unreadable, Unsure):
        return None


def is_light(program: Program, line: Line, tokens: list[Token]) -> bool:
    """Returns whether a formula reads few items, so that it is computed at once."""
    shapes = program.ask_all([f"⍴{name}" for name in line.references])
    items = sum(prod(map(int, shape[0].split())) for shape in shapes if is_shape(shape))
    return items <= ITEMS and all(int(token.text.lstrip("¯")) <= ITEMS for token in tokens if token.kind == "number")


class Unsure(Exception):
    """The answers of the program do not show the place, or take too long."""


class Search:
    """The search for the function at which an error arises, in an expression that shows it."""

    def __init__(self, program: Program, text: str, fault: str) -> None:
        self.program, self.text, self.fault, self.questions = program, text, fault, QUESTIONS

    def shows(self, start: int, end: int) -> bool:
        """Returns whether a part of the line shows the error by itself. The question asks for the length of its shape, so the answer is short.

        A part that does not show the first error of the whole shows none. Another answer, as LINE TOO LONG, says nothing about the part.
        """
        if self.questions == 0:
            raise Unsure
        self.questions -= 1
        begun = time.monotonic()
        answer = self.program.ask("⍴⍴" + self.text[start:end])
        if time.monotonic() - begun > SECONDS or answer != [self.fault] and not is_shape(answer):
            raise Unsure
        return answer == [self.fault]

    def in_expression(self, expression: Expression) -> Spot:
        """Returns the place in an expression that shows the error, by bisection for the first step that shows it."""
        steps = expression.steps
        low, high = int(expression.operand.is_bare), len(steps)
        while low < high:
            middle = (low + high) // 2
            start = steps[middle - 1].start if middle else expression.operand.start
            low, high = (low, middle) if self.shows(start, expression.end) else (middle + 1, high)
        if high == 0:
            return self.in_operand(expression.operand)
        step = steps[high - 1]
        if step.left and not step.left.is_bare and self.shows(step.left.start, step.left.end):
            return self.in_operand(step.left)
        function = step.function
        return Spot(self.text, function.start, self.text[function.start : function.end])

    def in_operand(self, operand: Operand) -> Spot:
        """Returns the place in an operand that shows the error: in a position, in the parentheses, or at an index."""
        for count in range(len(operand.indexes), 0, -1):
            index = operand.indexes[count - 1]
            for position in reversed(index.positions):
                if not position.is_bare and self.shows(position.start, position.end):
                    return self.in_expression(position)
            is_bare = count == 1 and operand.inside is None
            if is_bare or not self.shows(operand.start, index.start):
                return Spot(self.text, index.start)
        if operand.inside is None:
            raise Unsure
        return self.in_expression(operand.inside)
