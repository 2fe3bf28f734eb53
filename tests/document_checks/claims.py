"""docs/PROVED.md against the contracts that it states in words."""

from __future__ import annotations

import re
from typing import Iterator

from .checks import Checks
from .specs import functions
from .texts import crates, quoted

PROVED = "docs/PROVED.md"
UNPROVED = ("What is only tested", "What is not claimed")
REFERENCE = r"`[\w:]+`(?:: `\w+`(?:, `\w+`)*)?"
CLAIM = re.compile(rf".*\.:? \(({REFERENCE}(?:; {REFERENCE})*)\)")


def claims(text: str) -> Iterator[tuple[str, str, str]]:
    """Yields the claims of PROVED.md: the heading of the section, its first paragraph, and the claim on one line."""
    for section in re.split(r"^## ", text, flags=re.M)[1:]:
        heading, _, body = section.partition("\n\n")
        first = body.partition("\n\n")[0]
        for claim in re.findall(r"^- (.*?)$(?=\n(?:[^ ]|\n|\Z))", body, re.M | re.S) if heading not in UNPROVED else ():
            yield heading, first, " ".join(claim.split())


def is_public_with(text: str, name: str, clauses: list[str]) -> bool:
    """Returns whether a source has a public function with these clauses, or with a clause without a name where there are none."""
    wanted = [rf" ensures {clause} \{{" for clause in clauses] or [r" ensures \{"]
    return any(is_public and name == known and all(re.search(it, contract) for it in wanted) for known, is_public, contract in functions(text))


class Claims(Checks):
    """Each claim names the clauses that say it, and they are in contracts of the section's crates."""

    def check_claims(self) -> None:
        known = crates(self.files)
        for heading, first, claim in claims(self.files.texts[PROVED]):
            form = CLAIM.fullmatch(claim)
            self.want(form, f"{PROVED}: '{claim[:40]}..' of '{heading}' names no clause")
            names = "|".join(it for it in quoted(first) if it in known)
            sources = list(self.files.of(rf"crates/({names})/src/.*\.rt").values())
            for reference in form[1].split("; ") if form else ():
                name, *clauses = quoted(reference)
                is_there = any(is_public_with(text, name, clauses) for text in sources)
                self.want(is_there, f"{PROVED}: '{heading}' names {reference}, which is in no contract of its crates")
