"""Lines that begin with ], as user commands do in other APLs: their forms, lookup and execution."""

from __future__ import annotations

import os
import re
import shlex
from difflib import get_close_matches
from typing import TYPE_CHECKING, Callable, Dict, List, NamedTuple, Sequence, Union

from .errors import Mistake
from .lines import BLANKS

if TYPE_CHECKING:
    from .session import Session

Value = Union[str, bool, None, List[str]]
PART = re.compile(r"\[(?P<flag>--[a-z-]+)(?: (?P<example>[^\]]+))?\]|(?P<optional>\[)?(?P<word>[A-Z]+)(?P<many>\.\.)?\]?")
# a blank in it, and a ⍝ within quotes or within a word, begins no comment
COMMENT = re.compile(r"""((?:'[^']*'|"(?:\\.|[^"\\])*"|\\.|(?<=[^\s])⍝|[^'"\\⍝])*)⍝.*""", re.DOTALL)


class Word(NamedTuple):
    """A word of a form: its name, whether it is optional, and whether it stands for any number of words."""

    name: str
    is_optional: bool
    is_many: bool


class Form:
    """The form of a command.

    Words in capitals are required, words in brackets optional. NAME.. stands for several words, and WORD.. for words of any characters, as
    quotes and ⍝. A flag is in brackets, with an example of its value, if it has one.
    """

    def __init__(self, text: str) -> None:
        self.text = text
        parts = [*PART.finditer(text, text.find(" ") if " " in text else len(text))]
        self.flags = {part["flag"]: bool(part["example"]) for part in parts if part["flag"]}
        self.words = [Word(part["word"], bool(part["optional"]), bool(part["many"])) for part in parts if part["word"]]

    def split(self, text: str) -> List[str]:
        """Returns the words of a text; a Mistake if a quote is not closed."""
        if any(word.name == "WORD" for word in self.words):
            return text.split()
        comment = COMMENT.match(text)
        try:
            return shlex.split((comment[1] if comment else text).strip(BLANKS))
        except ValueError:
            raise Mistake("a quote is not closed") from None

    def mistake(self, what: str) -> Mistake:
        return Mistake(f"{what}; the form is {self.text}")

    def values(self, texts: Sequence[str]) -> Dict[str, Value]:
        """Returns the values of words and flags by their names, in small letters, with _ for -; a Mistake if the form is another one."""
        values: Dict[str, Value] = {name_of(flag): None if takes_word else False for flag, takes_word in self.flags.items()}
        waiting, words = [*texts], []
        while waiting:
            text = waiting.pop(0)
            if not text.startswith("--") or not self.flags:
                words.append(text)
            elif text not in self.flags:
                raise self.mistake(f"there is no {text} here")
            elif self.flags[text] and not waiting:
                raise self.mistake(f"a word is missing behind {text}")
            else:
                values[name_of(text)] = waiting.pop(0) if self.flags[text] else True
        return {**values, **self.values_of_words(words)}

    def values_of_words(self, texts: List[str]) -> Dict[str, Value]:
        """Returns the values of the words that are no flags."""
        values: Dict[str, Value] = {}
        for word in self.words:
            if word.is_many:
                values[f"{word.name.lower()}s"], texts = texts, []
            elif texts:
                values[word.name.lower()], texts = in_home(texts[0]) if word.name == "FILE" else texts[0], texts[1:]
            else:
                values[word.name.lower()] = None
            if not values.get(word.name.lower(), values.get(f"{word.name.lower()}s")) and not word.is_optional:
                raise self.mistake(f"{word.name} is missing")
        if texts:
            raise self.mistake(f"{texts[0]} is too much")
        return values


def name_of(flag: str) -> str:
    """Returns the parameter name of a flag."""
    return flag[2:].replace("-", "_")


class Command(NamedTuple):
    """A command: its form, a sentence about it, and the function that executes it with a session and the values of the form."""

    form: Form
    sentence: str
    carry_out: Callable[..., None]


COMMANDS: Dict[str, Command] = {}  # by the word after the ]


def command(form: str, sentence: str) -> Callable[[Callable[..., None]], Callable[..., None]]:
    """Registers a function as a command."""

    def register(carry_out: Callable[..., None]) -> Callable[..., None]:
        COMMANDS[form[1:].split()[0]] = Command(Form(form), sentence, carry_out)
        return carry_out

    return register


def run(session: Session, text: str) -> None:
    """Executes a line; a Mistake if that is not possible."""
    line = text.partition("]")[2].lstrip(BLANKS)
    word = re.split(r"\W", line)[0]
    if word not in COMMANDS:
        near = get_close_matches(word, COMMANDS, 1) or ["help"]
        raise Mistake(f"there is no ]{word}; is ]{near[0]} meant?")
    form, _, carry_out = COMMANDS[word]
    carry_out(session, **form.values(form.split(line[len(word) :])))


def in_home(path: str) -> str:
    """Returns a path in which ~ stands for the home folder."""
    return os.path.expanduser(path)


def counted(number: int, noun: str) -> str:
    """Returns a number with its noun."""
    return f"{number} {noun}{'s' * (number != 1)}"
