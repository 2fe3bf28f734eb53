"""docs/THEOREM.md and docs/DEFINITIONS.md against the contracts and definitions."""

from __future__ import annotations

import re
from pathlib import Path
from typing import Iterable, Iterator

from .checks import Checks
from .specs import Definition, Specs, defined, functions
from .texts import DEFINITIONS, RUN_LOOP, THEOREM, Files, quoted, rows

CALLS = {  # a file, and the functions whose contracts are explained down to the last definition
    RUN_LOOP: r"run$",
    "crates/sheet_recalc/src/sheet.rt": r"Sheet::",
    "crates/sheet_recalc/src/change.rt": r"Sheet::",
    "crates/sheet_desk/src/desk.rt": r"Desk::",
    "crates/change_rules/src/node.rt": r"refresh",
    "crates/sum_rules/src/totals.rt": r"refresh",
}
SHOWN = {"val", "eval", "Accepts", "Refuses"}  # the values of names, and the accepted changes
COUNTS = {"HasCost", "HasTicks", "IsStepCount", "IsStepCost", "expression_cost"}  # the definitions by which the clause `ok` reaches costs
HANDED_ON = {"IsPendingOn"}


class Theorem(Checks):
    """The two documents beside the contracts and definitions of the crates.

    IsPendingOn is not followed: `begin` ensures it, `advance` and `adopt` require it, so callers only pass it on.
    """

    def __init__(self, files: Files, specs: Specs):
        super().__init__(files, specs)
        self.theorem, self.others = {}, {}  # the definitions in tables, each with the heading above its row
        self.run_ok = specs.reached(self.roots_of_run_ok())

    def check_all_rows(self) -> None:
        self.read_rows(THEOREM, self.theorem)
        self.read_rows(DEFINITIONS, self.others)

    def is_listed(self, definition: Definition) -> bool:
        return definition in self.theorem or definition in self.others

    def read_rows(self, document: str, into: dict[Definition, str]) -> None:
        """Each definition of a row is in one of its files; the crate stands before the file, or is the heading."""
        for parts, (names, where, *_) in rows(self.files.texts[document], "Definition"):
            files = [it.strip() for it in where.split(",")]
            crate = files[0].split("/")[0] if "/" in files[0] else parts[0]
            for name in quoted(names):
                at = [(*([crate] * ("/" not in it)), *it.split("/"), name) for it in files]
                there = next((it for it in at if it in self.specs.all), None)
                self.want(there, f"{document}: {name} is not in {where}")
                self.want(not self.is_listed(there), f"{document}: {name} of {where} stands in a second row")
                into.update({there: parts[1]} if there else {})

    def check_pointers(self) -> None:
        """DEFINITIONS.md names below each crate the parts of THEOREM.md with definitions of the crate, in their order."""
        for crates, told in re.findall(r"^## (.*)\n\n(?:In docs/THEOREM\.md: ([^|#]*?)\.\n\n)?", self.files.texts[DEFINITIONS], re.M):
            held = dict.fromkeys(part.split(" (")[0] for it, part in self.theorem.items() if it[0] in crates.split(", "))
            self.want(" ".join(told.split()) == "; ".join(held), f"{DEFINITIONS}: of {crates} definitions stand in {'; '.join(held) or 'no part'}")

    def check_contracts(self) -> None:
        """A quoted contract is the whole one of a function in a file named before it; a quoted clause is in such a contract."""
        near, pieces = [], self.files.texts[THEOREM].split("\n```")
        for words, block in zip(pieces[::2], pieces[1::2]):
            named = [it for it in quoted(words) if it.endswith(".rt")]
            near = [it if "/" in it else str(Path(named[0]).parent / it) for it in named] or near
            held = [it for path in near for it in functions(self.files.texts.get(path, ""))]
            quotes = functions(block)
            for name, _, contract in quotes:
                owners = {it for it, _, its in held if its == contract}
                self.want(owners, f"{THEOREM}: this is not the contract of {self.named(name, held)} in {', '.join(near)}")
            clause = " ".join(block.split())
            self.want(quotes or any(clause in its for _, _, its in held), f"{THEOREM}: this clause is not in {', '.join(near)}: {clause}")

    def named(self, name: str, held: list[tuple[str, bool, str]]) -> str:
        """Returns the function of a source with this name, after its type."""
        return next((it for it, _, _ in held if it.split("::")[-1] == name), name)

    def calls(self) -> Iterator[tuple[str, str, str]]:
        """Yields the functions of CALLS: the file, the name and the contract."""
        for path, pattern in CALLS.items():
            for name, is_public, contract in functions(self.files.texts[path]):
                if is_public and re.match(pattern, name):
                    yield path, name, contract

    def check_calls(self) -> None:
        """THEOREM.md names each of these functions."""
        text = self.files.texts[THEOREM]
        for path, name, _ in self.calls():
            word = re.escape(name.split("::")[-1])
            self.want(re.search(rf"\bfn {word}\b|`{word}`", text), f"{THEOREM}: {name} of {path} is not there")

    def check_grammar(self) -> None:
        """THEOREM.md has the grammar of the comments in the specs of apl_expr."""
        told = {*re.findall(r"^    (\w+ := .*)$", self.files.texts[THEOREM], re.M)}
        held = {it for text in self.files.of(r"crates/apl_expr/specs/\w+\.antt").values() for it in re.findall(r"^ *-- (\w+ := .*)$", text, re.M)}
        for it in sorted(told | held):
            self.want(it in told and it in held, f"{THEOREM}: the rule '{it}' stands there, or in apl_expr's specs, and not in both")

    def roots_of_run_ok(self) -> set[Definition]:
        """Returns the definitions that the clause `ok` of `run` cites."""
        contract = next(contract for path, _, contract in self.calls() if path == RUN_LOOP)
        clause = re.search(r"ensures ok (.*?)(?: ensures | requires |$)", contract)[1]
        return self.specs.cited(clause, self.files.texts[RUN_LOOP])

    def roots_of_calls(self) -> set[Definition]:
        """Returns the definitions that the contracts of all calls cite, and the ghost values of their types."""
        found = set()
        for path, _, contract in self.calls():
            text = self.files.texts[path]
            values = " ".join(re.findall(r"ghost Value = \{(.*?)\}", text))
            found |= self.specs.cited(f"{contract} {values}", text)
        return found

    def check_reach(self) -> None:
        """A definition that `ok` of `run` reaches is in a table of THEOREM.md; one that another call reaches, in either document."""
        for it in sorted(self.run_ok):
            self.want(it in self.theorem, f"{THEOREM}: {'/'.join(it)}, which the clause ok of run reaches, is in no table")
        for it in sorted(self.specs.reached(self.roots_of_calls(), HANDED_ON)):
            self.want(self.is_listed(it), f"{DEFINITIONS}: {'/'.join(it)}, which a public clause reaches, is in no table")

    def check_cited(self) -> None:
        """A definition that the contract of any public function cites is in a table."""
        citing = {}
        for path, text in self.files.of(r"crates/\w+/src/.*\.rt").items():
            top = self.files.texts.get(f"{path.split('/src/')[0]}/src/lib.rt", "")
            exported = {*re.findall(r"\w+", " ".join(re.findall(r"pub (?:use|mod) [^;]*;", top)))}
            for name, is_public, contract in functions(text):
                is_called = is_public and exported & {name.split("::")[0], Path(path).stem} or path.endswith("/lib.rt")
                citing.update(dict.fromkeys(self.specs.cited(contract, text) if is_called else (), f"{name} of {path}"))
        for it in sorted(citing):
            self.want(self.is_listed(it), f"{DEFINITIONS}: {'/'.join(it)}, which {citing[it]} cites, is in no table")

    def check_parts(self) -> None:
        """The values of names rest on no part of costs. `ok` reaches no laws, and reaches costs only by COUNTS."""
        costs = {it for it, part in self.theorem.items() if part.endswith("(cost)")}
        laws = {it for it, part in self.theorem.items() if part.endswith("(laws)")}
        shown = self.specs.reached(it for it in self.run_ok if it[2] in SHOWN)
        for it in sorted(costs & shown):
            self.want(False, f"{THEOREM}: {'/'.join(it)} is in the part '{self.theorem[it]}', and what names show rests on it")
        for it in sorted(laws & self.run_ok):
            self.want(False, f"{THEOREM}: {'/'.join(it)} is in the part '{self.theorem[it]}', and the clause ok reaches it")
        doors = {it[2] for it in costs & self.specs.reached(self.roots_of_run_ok(), COUNTS)}
        self.want(doors == COUNTS, f"{THEOREM}: the clause ok reaches parts of costs by {sorted(doors)}, and not by {sorted(COUNTS)}")

    def lines_of(self, definitions: Iterable[Definition]) -> int:
        """Returns the number of lines of these definitions, without comments."""
        return sum(len(defined(self.specs.modules[it[:2]])[0][it[2]].split("\n")) for it in definitions)

    def check_sentences(self) -> None:
        """The sentences at the head name a clause each, its first definitions, and the number of lines to read."""
        for _, (sentence, clause, read, lines) in rows(self.files.texts[THEOREM], "Sentence"):
            name, path, *clauses = quoted(clause)
            text = self.files.texts.get(path, "")
            contract = next((it for known, _, it in functions(text) if known == name), "")
            said = [it[0] for word in clauses for it in re.findall(rf"ensures {word} (.*?)( ensures | requires |$)", contract)]
            self.want(contract and len(said) == len(clauses), f"{THEOREM}: {name} of {path} has no clauses {', '.join(clauses)}")
            self.want(clauses or " requires " not in contract, f"{THEOREM}: {name} of {path} asks something of its caller")
            reached = self.specs.reached(self.specs.cited(" ".join(said), text))
            first = [next((it for it in sorted(reached) if it[2] == word), word) for word in quoted(read)]
            missing = [it for it in first if isinstance(it, str)]
            self.want(not missing, f"{THEOREM}: {name} of {path} reaches no {', '.join(missing)}")
            held = f"{self.lines_of(it for it in first if it not in missing)} of {self.lines_of(reached)}" if clauses else "none"
            self.want(lines == held, f"{THEOREM}: of '{sentence[:30]}..' there are {held} lines to read, and not {lines}")
