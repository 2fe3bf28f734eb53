"""Facts about the language that share/sheet, the manual pages and other files of share/ repeat."""

from __future__ import annotations

import re
from typing import Any

from .checks import Checks
from .texts import RUN_LOOP, body_of, characters, class_of, constants, limit, piece_of, quoted, rows, variants

TYPING = "docs/TYPING.md"
SHIFTED = dict(zip("567890,.", "%^&*()<>"))  # the keys of the map with Shift
KEYS = {  # the files for typing, and the form of a key and its symbol in each
    "share/aplsheet.inputrc": r'^"`(.)": "(.)"$',
    "share/aplsheet_utf-8.vim": r"^`([^`])  (.)$",
    "share/aplsheet.el": r'^ \("`([^`])" \?(.)\)',
    "share/aplsheet.XCompose": r'^<Multi_key> <Multi_key> <(\w+)> *: "(.)"  U[0-9A-F]{4}$',
}
X11 = {"minus": "-", "equal": "=", "parenright": ")", "parenleft": "(", "less": "<", "percent": "%", "ampersand": "&"}  # names of keys
X11.update({"asciicircum": "^", "slash": "/", "period": ".", "bracketleft": "[", "comma": ",", "greater": ">"})
FAULT_NAMES, REFUSAL_TEXTS = "crates/array_text/src/faults.rt", "crates/sheet_cli/src/refusals.rt"
CHARACTERS, SCANNER = "crates/apl_tokens/src/characters.rt", "crates/apl_tokens/src/scanner.rt"
NAME_CHARACTERS = "crates/names/src/characters.rt"
COMMANDS, ANSWERS = "crates/apl_expr/src/command.rt", "crates/sheet_cli/src/answer.rt"
SHEET, DESK = "crates/sheet_recalc/src/sheet.rt", "crates/sheet_desk/src/desk.rt"
CHANGES = {"Define": "definition", "Data": "data", "Cell": "edit", "Row": "row", "Erase": "erase"}  # the words of share/sheet for changes
STARTING, PROGRAM_WORDS = "share/sheet/starting.py", "crates/program_words/src/command.rt"
COMPLETIONS = {  # the files of the shells, and the pieces that contain the words of a program
    "share/completions/{}.bash": r'compgen -W "(.*?)"',
    "share/completions/_{}": r"--\w+|\w+(?=\\:)",
    "share/completions/{}.fish": r" -[la] (\w+)",
}


def keys_of_map(text: str) -> dict[str, str]:
    """Returns the map of keys in a page: each key with its symbol. A key takes two lines, the upper one with Shift."""
    lines = [re.findall(r"│(.)..(.)(?=│)", it) for it in text.split("\n") if it.lstrip().startswith("│")]
    pairs = [pair for above, below in zip(lines[::2], lines[1::2]) for pair in zip(above, below)]
    shifted = {SHIFTED[key]: symbol for (key, symbol), _ in pairs if symbol != " "}
    return {**shifted, **{key.lower(): symbol for (key, _), (_, symbol) in pairs if symbol != " "}}


class FrontEnd(Checks):
    """The files of share/ know the language, the commands and the options."""

    def check_keys(self) -> None:
        """The files for Vim, Emacs, readline and X11 have exactly the keys of the map."""
        told = keys_of_map(self.files.texts[TYPING])
        for path, form in KEYS.items():
            held = {X11.get(key, key): symbol for key, symbol in re.findall(form, self.files.texts[path], re.M)}
            apart = sorted(dict(told.items() ^ held.items()))
            self.want(told and not apart, f"{path}: the keys are not those of the map in {TYPING}: {' '.join(apart)}")

    def check_commands(self) -> None:
        """The table of docs/SHEET.md and the manual pages have the lines of the program and of the front end."""
        told = {quoted(cells[0])[0] for _, cells in rows(self.files.texts["docs/SHEET.md"], "Line")}
        sources = "".join(self.files.of(r"share/sheet/\w+_commands\.py").values())
        held = {*re.findall(r'@command\(\s*"([^"]+)"', sources)}
        self.want(held and told == held, f"docs/SHEET.md: the commands of share/sheet are not those of its table: {sorted(held ^ told)}")
        lines = {it for _, cells in rows(self.files.texts["docs/LANGUAGE.md"], "Line") for it in quoted(cells[0])}
        for page, wanted in {"share/man/sheet.1": held, "share/man/aplsheet.1": lines}.items():
            part = re.search(r"^\.SH LINES(.*?)^\.SH", self.files.texts[page].replace("\\-", "-"), re.M | re.S)
            forms = {*re.findall(r"^\.TP\n\.B (.*)$", part[1] if part else "", re.M)}
            self.want(wanted and forms == wanted, f"{page}: its lines are not those of the language, or of share/sheet: {sorted(wanted ^ forms)}")

    def known(self, name: str) -> Any:
        """Returns the constant of this name in share/sheet, which one module has."""
        modules = [constants(text) for text in self.files.of(r"share/sheet/.*\.py").values()]
        values = [module[name] for module in modules if name in module]
        self.want(len(values) == 1, f"share/sheet: {len(values)} modules have a literal {name}")
        return values[0] if values else ""

    def want_same(self, known: set[str], held: set[str], words: str) -> None:
        """Wants two equal sets that are not empty; a failure names the members that only one of them has."""
        self.want(held and known == held, f"share/sheet does not know {words}: {sorted(known ^ held)}")

    def answers(self) -> set[str]:
        """Returns the errors and refusals that the program prints for a line, without the name in which an error arose."""
        sources = "".join(self.files.of(r"crates/sheet_cli/src/\w+\.rt").values())
        kinds = re.findall(r'Kind::\w+ => "(\w+)"', self.files.texts[FAULT_NAMES])
        return {*re.findall(r'(?:Printed::Fixed\(|\bb)\s*"([^"\n]+)\\n"', sources), *(f"{kind} ERROR" for kind in kinds)}

    def check_answers(self) -> None:
        """The errors end with ERROR, and the refusals do not."""
        held, notes = self.answers(), {*self.known("REFUSED")}
        errors = {answer for answer in held if answer.endswith(" ERROR")}
        self.want_same({f"{kind} ERROR" for kind in self.known("ERRORS").split("|")}, errors, "the errors")
        self.want_same({*self.known("REFUSALS").split("|")}, held - errors, "the refusals")
        self.want(self.known("NO_MEMORY") in held, f"share/sheet: {self.known('NO_MEMORY')} is not printed for want of memory")
        self.want(notes and notes <= held, f"share/sheet has notes on no refusal: {sorted(notes - held)}")

    def check_signs(self) -> None:
        """The signs are the character literals of the scanner and of the kinds of characters; a name is read as these say."""
        text = self.files.texts[NAME_CHARACTERS]
        held = characters(text) | characters(self.files.texts[CHARACTERS]) | characters(self.files.texts[SCANNER])
        self.want_same({*self.known("SIGNS")}, held, "the signs")
        others = held & {*self.known("MISTAKEN")}
        self.want(not others, f"share/sheet says that signs of the language look like one: {sorted(others)}")
        name = f"[{class_of(text, 'is_letter')}][{class_of(text, 'is_name_part')}]*"
        self.want(self.known("NAME") == name, f"share/sheet does not know a name: {name}")

    def check_lines(self) -> None:
        """The words behind ), the changes, the commands by their names, and those commands for which something is printed."""
        text, words = self.files.texts[COMMANDS], {*self.known("COMMAND_WORDS")}
        self.want_same(words, {*re.findall(r'^ *"(\w+)" =>', text, re.M)}, "the words behind )")
        apart = sorted(variants(text, "Change") ^ CHANGES.keys())
        self.want(not apart, f"CHANGES has not the changes: {apart}")
        self.want_same({*self.known("CHANGES")}, {*CHANGES.values()}, "the changes")
        commands = {name.lower() for name in variants(text, "Command") - {"Nothing", "Change", "Show"}}
        self.want_same({word.lower() for word in words} - {*CHANGES.values()}, commands, "the commands")
        bodies = "\n".join(body_of(self.files.texts[ANSWERS], name) for name in ("carry_out", "carry_out_other"))
        arms = re.findall(r"Command::(\w+)(?:\(.*?\))? => (.*)$", bodies, re.M)
        printing = {name.lower() for name, outcome in arms if not outcome.startswith(("outcome_text(", 'Ok(Printed::Fixed("")'))}
        self.want_same({*self.known("WELL")}, printing - {"show"}, "the commands that print something")

    def check_limits(self) -> None:
        """The longest line, and the numbers in notes on refusals."""
        longest, notes = limit(self.files.texts[ANSWERS], "LONGEST_LINE"), dict(self.known("REFUSED"))
        names, slots = limit(self.files.texts[SHEET], "MOST_NAMES"), limit(self.files.texts[DESK], "SLOTS")
        self.want(self.known("LONGEST") == longest, f"share/sheet does not know that a line has {longest} bytes")
        for refusal, numbers in {"SHEET FULL": [f"{names:,}"], "NO SLOT": ["1", f"{slots}"]}.items():
            held = re.findall(r"\d[\d,]*\b", notes.get(refusal, ""))
            self.want(held == numbers, f"share/sheet does not know the limits of {refusal}: {numbers}")

    def check_completions(self) -> None:
        """The words of each program, without the - before them; argparse and clap add --help."""
        source = self.files.texts[PROGRAM_WORDS]
        words = {"sheet": {"help", *re.findall(r'\.add_argument\("--(\w+)"', self.files.texts[STARTING])}}
        words["aplsheet"] = {"help", *re.findall(r'(?:described\(alloc, |\.long\()"(\w+)"', source)} - {"aplsheet"}
        for program, path in ((program, path) for program in words for path in COMPLETIONS):
            pieces = re.findall(COMPLETIONS[path], self.files.texts[path.format(program)])
            held = {*re.findall(r"\w+", " ".join(pieces))}
            apart = sorted(words[program] ^ held)
            self.want(not apart, f"{path.format(program)}: its words are not those of {program}: {apart}")
