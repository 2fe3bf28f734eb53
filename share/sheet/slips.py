"""The usual slips of a line, by its text: a hint and a place for each."""

from __future__ import annotations

import re
from difflib import get_close_matches
from typing import Container, NamedTuple, Optional

from .lines import COMMAND_WORDS, NAME, Line, Token, place_in_text, tokens_of

SIGNS = frozenset("+-×÷*⋆|∣⌈⌊~∼<≤=≥>≠∧^∨⍲⍱⍴,⍪↑↓⌽⊖⍉/⌿\\⍀⍳∊∈⊤⊥∘.←¯⍝'()[];∆⍙_ \t")
MISTAKEN = {"Δ": "∆", "ι": "⍳", "ρ": "⍴", "ε": "∊", "−": "- or ¯", "‾": "¯", "∙": ".", "‘": "'", "’": "'", "\u00a0": "a blank"}
OUTSIDE = {"OFF": "off", "QUIT": "off", "EXIT": "off", "BYE": "off", "HELP": "help", "SAVE": "save", "LOAD": "load", "COPY": "load"}
OUTSIDE.update({"VARS": "names", "FNS": "names", "CLEAR": "clear", "UNDO": "undo", "REDO": "redo", "TABLE": "table", "SHOW": "show"})
OUTSIDE.update({"EDIT": "edit", "RENAME": "rename", "WHY": "why", "WATCH": "watch", "RECOVER": "recover", "PRINT": "print"})
PLACES = r"\s*¯?[0-9]+(?:\s*;\s*¯?[0-9]+)*\s*"
LITERAL = r"(?:''|¯?[0-9]+(?:[ \t]+¯?[0-9]+)*)"
BEGIN, END = "(?<![A-Za-z∆⍙0-9_])", "(?![A-Za-z∆⍙0-9_])"  # of a name
TAKES_AXIS = frozenset(",⍪⌽⊖/⌿\\⍀")
PAIRS = {")": "(", "]": "["}
EDITS = "an edit puts a literal into one item, D[2]←10 or D[1;2]←10; )DATA does the rest"

# Slips of a line that is refused: a pattern of its code, and the hint. The group `at`, if there is one, stands where the slip does.
# A key stands in a hint as `2, a backquote and then 2.
SLIPS = [
    (r"^⇒", "⇒ marks what a line of the manual prints: leave such lines out"),
    (r'"', "a text stands in single quotes: 'abc'"),
    (r"`", "a backquote and a key are a symbol where ]keys shows one; here the backquote itself was typed"),
    (r"<-|:=", "the arrow is one sign, ←, by the keys `["),
    (r"[0-9](?P<at>\.)[0-9]", "numbers are whole: there is no decimal point; keep cents for euros, for instance"),
    (rf"^(?:{NAME}\s*\[.*←\s*|\)\s*ROW\b.*?)(?P<at>-)\s*[0-9]", "a negative number begins with the high minus: ¯5, by the keys `2"),
    (rf"^(?:\)\s*DATA\s*)?{NAME}(?:\s*\[.*\])?\s*(?P<at>=)", "= compares; a name is bound and an item is edited by ←, by the keys `["),
    (r"<=|>=|!=|<>|==", "one sign each: ≤ by the keys `4, ≥ by `6, ≠ by `8; equal is ="),
    (r"[0-9)\]]\s*(?P<at>[xX])(?![a-z])", "times is ×, by the keys `-"),
    (rf"^{NAME}\s*(?P<at>\[)(?!{PLACES}\]\s*←\s*{LITERAL}$).*←", EDITS),
    (rf"^\)\s*ROW\s*{NAME}{END}\s*(?!{LITERAL}$)(?:(?P<at>\S)|$)", "a row is a literal: )ROW D 1 2 3"),
    (rf"^\)\s*CSV\s*{NAME}{END}\s*(?P<at>>)", "]csv FILE NAME writes a table file"),
    (rf"^\)\s*(?:ERASE|CSV)\s*{NAME}{END}\s*(?P<at>\S)", "this takes one name"),
    (r"[0-9](?P<at>E)[0-9]", "numbers are whole, and written out in digits"),
    (rf"{BEGIN}(?P<name>{NAME})(?P<at>\()(?P<inside>[0-9¯ \t]+|[^();']*;[^()']*)\)", r"an index stands in brackets: \g<name>[\g<inside>]"),
]

# The same for a line that is answered, and may do something else than was meant.
DOUBTS = [
    (rf"^{NAME}\s*(?:\[.*\]\s*)?<-", "this compares with a number; the arrow is one sign, ←, by the keys `["),
    (rf"^{NAME}\s*\[[0-9; \t]+\]\s*=\s*{LITERAL}$", "this compares; an item is edited by ←, by the keys `["),
    (r"[0-9][ \t]+-[0-9]", "- subtracts here; a negative number begins with the high minus: ¯5, by the keys `2"),
    (rf"^(?:\)\s*DATA\s*)?{NAME}\s*←\s*[0-9]+,[0-9]{{2}}$", "this joins two numbers; numbers are whole: keep cents for euros"),
]

# Functions of a spreadsheet, and their form in the language.
AVERAGE = 'an average is a total by a count, (+/T)÷⍴T, where that is whole; "Recipes" in docs/LANGUAGE.md rounds it'
SPREADSHEET = {
    "SUM": "a total is +/T; of a matrix, +/T has one for each row, and +⌿T one for each column",
    "AVERAGE": AVERAGE,
    "AVG": AVERAGE,
    "MEAN": AVERAGE,
    "MAX": "the greatest is ⌈/T; the greater of two is A⌈B",
    "MIN": "the least is ⌊/T; the lesser of two is A⌊B",
    "COUNT": "⍴T is how many items there are; +/T>5 is how many are above 5",
    "IF": "a condition is 1 or 0: (C×A)+B×~C is A where C is 1, and B where it is 0",
    "ROUND": '÷ never rounds: (N-P|N)÷P is rounded down; "Recipes" in docs/LANGUAGE.md has the nearest',
}
CALL = re.compile(rf"{BEGIN}({'|'.join(SPREADSHEET)})\s*\(", re.IGNORECASE)


class Slip(NamedTuple):
    """A slip of a line: a hint, and its place in the text, which is None if something is missing at the end."""

    hint: str
    place: Optional[int]


def doubts_of(line: Line) -> list[str]:
    """Returns a hint on a line that was answered, if it looks like a slip."""
    return [hint for looks, hint in DOUBTS if re.search(looks, line.code)][:1]


def slip_of(line: Line, names: Container[str]) -> Optional[Slip]:
    """Returns the slip of a line that is a SYNTAX ERROR, if one is known; these names are bound."""
    call = CALL.search(line.code)
    if call and call[1] not in names:
        return Slip(SPREADSHEET[call[1].upper()], place_in_text(line.text, call.start()))
    slips = (mistaken_sign, known_slip, slip_of_command, foreign_sign, slip_of_pairs, slip_of_operands)
    return next(filter(None, (look(line) for look in slips)), None)


def known_slip(line: Line) -> Optional[Slip]:
    """Returns the first one of SLIPS that the line looks like."""
    for looks, hint in SLIPS:
        if match := re.search(looks, line.code):
            place = match.start("at") if "at" in match.re.groupindex else match.start()
            return Slip(match.expand(hint), None if place < 0 else place_in_text(line.text, place))
    return None


def slip_of_command(line: Line) -> Optional[Slip]:
    """Returns the hint on a missing command, and the likely one."""
    command = re.match(r"\)\s*(\w+)", line.code)
    if not command or line.kind != "unknown":
        return None
    word = command[1].upper()
    near = get_close_matches(word, COMMAND_WORDS, 1)
    if word in OUTSIDE:
        hint = f"is ]{OUTSIDE[word]} meant?"
    elif word in COMMAND_WORDS:
        hint = f"commands are in capitals: ){word}"
    elif word in ("COL", "COLUMN"):
        hint = f"there is no ){command[1]}; )ROW puts a row behind D, and )DATA D←D,5 6 a column"
    elif near:
        hint = f"there is no ){command[1]}; is ){near[0]} meant?"
    else:
        hint = f"there is no ){command[1]}; there are {', '.join(f'){known}' for known in COMMAND_WORDS)}"
    return Slip(hint, place_in_text(line.text, command.start(1)))


def mistaken_sign(line: Line) -> Optional[Slip]:
    """Returns the first character that only looks like a symbol of the language."""
    place = next((place for place, sign in enumerate(line.code) if sign in MISTAKEN), None)
    if place is None:
        return None
    sign, place = line.code[place], place_in_text(line.text, place)
    meant = minus_meant(line, place) if sign == "−" else MISTAKEN[sign]
    return Slip(f"'{sign}' only looks like {meant}", place)


def foreign_sign(line: Line) -> Optional[Slip]:
    """Returns the first character that the language lacks."""
    foreign = (place for place, sign in enumerate(line.code) if sign not in SIGNS and not (sign.isascii() and sign.isalnum()))
    place = next(foreign, None)
    if place is None:
        return None
    sign = line.code[place]
    shown = f"'{sign}'" if sign.isprintable() else f"U+{ord(sign):04X}"
    return Slip(f"{shown} is no sign of the language", place_in_text(line.text, place))


def minus_meant(line: Line, place: int) -> str:
    """Returns the symbol for a typographic minus: the sign of a number if digits follow and no operand precedes, else the function."""
    before = tokens_of(line.text[:place])
    is_apart = line.text[:place].endswith((" ", "\t"))
    is_operand = bool(before) and ends_operand(before[-1]) and line.kind != "row"
    is_in_list = is_operand and before[-1].kind == "number" and is_apart
    is_of_number = line.text[place + 1 : place + 2].isdigit() and (is_in_list or not is_operand)
    return "¯, by the keys `2" if is_of_number else "-"


def slip_of_pairs(line: Line) -> Optional[Slip]:
    """Returns the text, parenthesis or bracket that is not closed, or closes nothing."""
    opened: list[Token] = []
    for token in tokens_of(line.text)[line.code.startswith(")") :]:
        if token.kind == "text" and token.text.count("'") % 2:
            return Slip("a text is not closed: a ' is missing", token.start)
        if token.text in PAIRS.values():
            opened.append(token)
        elif token.text in PAIRS and not (opened and opened.pop().text == PAIRS[token.text]):
            return Slip(f"{PAIRS[token.text]} and {token.text} do not pair", token.start)
    closing = {opening: sign for sign, opening in PAIRS.items()}
    return Slip(f"{opened[-1].text} and {closing[opened[-1].text]} do not pair", opened[-1].start) if opened else None


def slip_of_operands(line: Line) -> Optional[Slip]:
    """Returns the operand right after another one, or the bracket without an index or an axis."""
    if line.kind not in ("show", "definition", "data"):
        return None
    before: Optional[Token] = None
    for token in tokens_of(line.text)[2 * (line.kind == "data") :]:
        if token.text == "[" and before and before.kind in ("number", "text"):
            return Slip("a literal stands in parentheses before an index: (1 2 3)[2]", token.start)
        if token.text == "[" and not (before and (ends_operand(before) or before.text in TAKES_AXIS)):
            return Slip("a list has no brackets: 1 2 3 is one, and A,B joins", token.start)
        is_list = before is not None and before.kind == token.kind == "number"
        if before and ends_operand(before) and before.text != "]" and begins_operand(token) and not is_list:
            return Slip("operands side by side are no list, but for numbers: A,B joins", token.start)
        before = token
    return None


def ends_operand(token: Token) -> bool:
    return token.kind != "sign" or token.text in PAIRS


def begins_operand(token: Token) -> bool:
    return token.kind != "sign" or token.text == "("
