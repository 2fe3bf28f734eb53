"""The pages crates/NAME/README.md against the sources and crates.txt."""

from __future__ import annotations

import re
from functools import lru_cache

from .checks import Checks
from .specs import defined, functions
from .texts import crates, quoted, rows

HEADS = ["Calls", "Example", "Definitions"]
FORM = re.compile(  # the parts of a page, in their order
    r"# (?P<title>\w+)\n\n(?P<purpose>[^#|`].*?)\n\nStands on: (?P<below>[^#]*?)\.\nUsed by: (?P<above>[^#]*?)\.\n\n"
    r"## Calls\n\n\| Call \| File \| Result \|\n.*?\n## Example\n\n```apl\n.*?^```\n.*?\n## Definitions\n\n.*",
    re.S | re.M,
)
LONGEST, WIDEST = 60, 120


@lru_cache(None)
def methods_of_traits(text: str) -> set[str]:
    """Returns the names of the methods of the public traits of a source."""
    traits = {*re.findall(r"^pub trait (\w+)", text, re.M)}
    return {name.split("::")[1] for name, _, _ in functions(text) if name.split("::")[0] in traits and "::" in name}


class Pages(Checks):
    """Each crate that has no tests alone has a page, which agrees with the sources."""

    def check_pages(self) -> None:
        lines = crates(self.files)
        for name in (it for it in lines if not it.endswith("_tests")):
            path = f"crates/{name}/README.md"
            text = self.files.texts.get(path)
            self.want(text, f"{path} is missing")
            if text:
                self.want_form(path, name, text, lines)
                self.want_calls(path, name, text)
                self.want_definitions(path, name, text)

    def want_form(self, path: str, name: str, text: str, lines: dict[str, list[str]]) -> None:
        """A page has all parts in their order, within its limits, and names the crates below and above."""
        form = FORM.fullmatch(text)
        heads = re.findall(r"^## (.*)$", text, re.M)
        self.want(form and heads == HEADS and form["title"] == name, f"{path}: it has not the parts of a page in their order")
        self.want(text.count("\n") <= LONGEST, f"{path}: it has more than {LONGEST} lines")
        wide = [line for line in text.split("\n") if len(line) > WIDEST]
        self.want(not wide, f"{path}: a line has more than {WIDEST} columns: {wide[:1]}")
        above = [it for it, needed in lines.items() if name in needed]
        for words, wanted in (("below", lines[name]), ("above", above)):
            told = quoted(form[words]) if form else []
            self.want(not form or told == wanted, f"{path}: the crates {words} are {', '.join(wanted) or 'nothing'}")

    def want_calls(self, path: str, name: str, text: str) -> None:
        """Each call is a function of its file: a public one, a method of a public trait, or `main`."""
        calls = [cells for _, cells in rows(text, "Call")]
        self.want(1 <= len(calls) <= 6, f"{path}: it has {len(calls)} calls")
        methods = {it for text in self.files.of(r"crates/\w+/src/.*\.rt").values() for it in methods_of_traits(text)}
        for call, file, *_ in calls:
            source = self.files.texts.get(f"crates/{name}/src/{file.strip('`')}", "")
            public = {it for it, is_public, _ in functions(source) if is_public or it == "main" or it.split("::")[-1] in methods}
            for word in quoted(call):
                self.want(word in public, f"{path}: {word} is no public function of {file}")

    def want_definitions(self, path: str, name: str, text: str) -> None:
        """Each definition stands in its file of specs."""
        told = [cells for _, cells in rows(text, "Definition")]
        self.want(told or not self.files.of(rf"crates/{name}/specs/.*"), f"{path}: it has no definitions")
        for definition, file, *_ in told:
            names, constructors = defined(self.files.texts.get(f"crates/{name}/specs/{file.strip('`')}.antt", ""))
            for word in quoted(definition):
                self.want(word in names or word in constructors, f"{path}: {word} is not in {file}")
