"""Files, crates, functions and definitions that documents name."""

from __future__ import annotations

import re
from pathlib import Path

from .checks import Checks
from .specs import functions
from .texts import ARCHITECTURE, RELIABILITY, crates, documents, quoted, rows

GLOSSARY = "docs/GLOSSARY.md"


class Names(Checks):
    """The files, crates, functions and definitions that documents name exist."""

    def check_files(self) -> None:
        """A word with a path or an ending of a file is a file. CRATE, FILE, NAME and Name stand for any name."""
        tops = "|".join(sorted(it for it in self.files.there if "/" not in it and "." not in it))
        path_like = rf"[\w/.-]+\.(?:rt|antt|md|txt|json)|(?:{tops}|src|specs|proofs|edits)/[\w/.-]*"
        for document, text in documents(self.files).items():
            words = {it for it in quoted(text) if re.fullmatch(path_like, it)} | {*re.findall(rf"(?<![\w`/])(?:{tops})/[\w/.-]*\w", text)}
            for word in sorted(it for it in words if not re.search(r"\b(CRATE|FILE|NAME|Name)", it)):
                self.want(self.is_there(word.rstrip("/")), f"{document}: there is no {word}")

    def is_there(self, word: str) -> bool:
        """A path may begin at the top, at a crate, or in its src or specs. A bare name may be anywhere."""
        crate, _, rest = word.partition("/")
        among = {word, f"crates/{word}", f"crates/{crate}/src/{rest}", f"crates/{crate}/specs/{rest}"}
        return bool(among & self.files.there) or any(it.endswith(f"/{word}") for it in self.files.there)

    def check_crates(self) -> None:
        """The table of crates has each crate of crates.txt once."""
        described = [it for parts, cells in rows(self.files.texts[ARCHITECTURE], "Crate") if parts[0] == "The crates" for it in quoted(cells[0])]
        self.want(sorted(described) == sorted(crates(self.files)), f"{ARCHITECTURE}: the table of crates has not each crate of crates.txt once")
        for _, cells in rows(self.files.texts[ARCHITECTURE], "Crate"):
            for word in quoted(cells[0]):
                self.want(word in crates(self.files), f"{ARCHITECTURE}: there is no crate {word}")

    def check_reliability(self) -> None:
        """The names by which docs/RELIABILITY.md says that a thing is proved exist."""
        known = {*crates(self.files)} | {it[2] for it in self.specs.all}
        for text in self.files.of(r"crates/\w+/src/.*\.rt").values():
            known |= {*re.findall(r"pub (?:struct|enum|trait) (\w+)", text)}
            for name, _, contract in functions(text):
                known |= {name.split("::")[-1], *re.findall(r"ensures (\w+) \{", contract)}
        for _, cells in rows(self.files.texts[RELIABILITY], "What"):
            for word in (it for it in quoted(cells[1]) if re.fullmatch(r"\w+", it)):
                self.want(word in known, f"{RELIABILITY}: there is no {word}")

    def check_words(self) -> None:
        """A name in backquotes with an underscore or an inner capital stands somewhere in the crates, or is a file."""
        known = {re.split(r"\W", Path(it).name)[0] for it in self.files.there}
        for text in self.files.of(r"crates/.*").values():
            known |= {*re.findall(r"\w+", text)}
        for document, text in documents(self.files).items():
            words = {*quoted(re.sub(r"^```.*?^```", "", text, flags=re.S | re.M))}
            for word in sorted(it for it in words if re.fullmatch(r"[A-Za-z]\w*?(_[a-z]|[a-z][A-Z])\w*", it)):
                self.want(word in known, f"{document}: {word} stands nowhere")

    def check_glossary(self) -> None:
        """The words stand in order, each once, and each name of the last column is in the file that follows it."""
        text = self.files.texts[GLOSSARY]
        told = [cells for _, cells in rows(text, "Word")]
        words = [it for cells in told for it in cells[0].split(", ")]
        firsts = [cells[0] for cells in told]
        self.want(text.count("\n") <= 40, f"{GLOSSARY}: it has more than 40 lines")
        self.want(firsts == sorted(firsts) and len(words) == len({*words}), f"{GLOSSARY}: its words are not in order, or one stands there twice")
        for names, path in (it.rsplit(" ", 1) for cells in told for it in cells[2].split("; ")):
            whole = self.files.texts.get(f"crates/{path}", "")
            for name in quoted(names):
                begins = rf"^ *(?:(?:abbrev|unfoldable|pub(?:\(crate\))?|record|data|struct|enum|fn) )*{name}\b"
                self.want(re.search(begins, whole, re.M), f"{GLOSSARY}: {name} is not in {path}")

    def check_links(self) -> None:
        """README.md names each file of docs/."""
        for path in (it for it in self.files.there if re.fullmatch(r"docs/[^/]*", it)):
            self.want(path in self.files.texts["README.md"], f"README.md: {path} is not named")
