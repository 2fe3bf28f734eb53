"""Definitions, functions and contracts of the crates, and their citations."""

from __future__ import annotations

import re
from functools import lru_cache
from pathlib import Path
from typing import Container, Iterable, Iterator, Tuple

from .texts import Files

Definition = Tuple[str, str, str]  # the crate, the file and the name
PATH = re.compile(r"(?:[^\W\d][\w'-]*\.)*[^\W\d][\w'-]*")
USE = re.compile(r"^ *(?:ghost )?use Rattle\.([^\n;]*);?$", re.M)


def paths_of(tree: str) -> Iterator[str]:
    """Yields each path of an import. Its groups stand in braces, and may contain further groups."""
    head, brace, group = tree.partition("{")
    if not brace:
        yield tree
        return
    part, depth = "", 0
    for sign in group[:-1] + ",":
        depth += (sign == "{") - (sign == "}")
        if sign == "," and not depth:
            yield from paths_of(head + part.strip())
            part = ""
        else:
            part += sign


@lru_cache(None)
def imported(text: str) -> tuple[dict[str, tuple[str, str]], dict[str, str]]:
    """Returns the names that a file imports, each with its module and its name there, and the modules that it names."""
    names, modules = {}, {}
    for tree in USE.findall(text):
        for path, _, alias in (it.partition(" as ") for it in paths_of(tree)):
            module, _, name = path.rpartition(".")
            if "{" in tree:
                names[alias or name], alias = (module, name), ""
            else:
                module = path
            modules[alias or module.split(".")[-1]] = module
    return names, modules


@lru_cache(None)
def defined(text: str) -> tuple[dict[str, str], dict[str, str]]:
    """Returns the definitions of a file of specs, each with its lines without comments, and the type of each constructor."""
    bodies, types, name, in_mutual = {}, {}, None, False
    for line in (it for it in text.split("\n") if it.strip() and not it.lstrip().startswith("--")):
        indent = len(line) - len(line.lstrip())
        if indent == 0:
            in_mutual = line.split()[-1] == "mutual"
        begins = re.match(r"\s*((?:(?:abbrev|unfoldable|pub|data|record) )*)(?!use |mod )([\w'-]+)( :)?", line)
        if begins and indent == 2 * in_mutual and (begins[1] or begins[3]):
            name = begins[2]
            bodies.setdefault(name, [])
        elif begins and name and begins[3] and re.search(r"\bdata ", bodies[name][0]):
            types[begins[2]] = name
        if name:
            bodies[name].append(line)
    return {it: "\n".join(lines) for it, lines in bodies.items()}, types


@lru_cache(None)
def functions(text: str) -> list[tuple[str, bool, str]]:
    """Returns the functions of a source or of a quoted block: the name, after its type or trait; whether it is public; its contract."""
    found, owner, of_trait, lines = [], "", False, text.split("\n")
    for at, line in enumerate(lines):
        if begins := re.match(r"(?:pub )?(impl|trait)\b(?:<[^ ]*>)? ?(?:[\w<>', ]+ for )?(\w+)", line):
            owner, of_trait = f"{begins[2]}::", line.startswith("pub trait")
        elif line == "}":
            owner = ""
        if begins := re.match(r"( *)(pub )?(?:const )?fn (\w+)", line):
            is_inside = bool(owner and begins[1])
            name = (owner if is_inside else "") + begins[3]
            found.append((name, bool(begins[2]) or is_inside and of_trait, contract_of(lines[at:], begins[1])))
    return found


def contract_of(lines: list[str], indent: str) -> str:
    """Returns the signature and the clauses of the function that begins here, with one blank for each run of white space."""
    kept = []
    for line in lines:
        if line.rstrip() in ("", f"{indent}{{", f"{indent}{{}}"):
            break
        kept.append(line)
        if line.endswith((" {", " {}", ";")):
            break
    return re.sub(r"( \{\}?|;)$", "", " ".join(" ".join(kept).split()))


class Specs:
    """The definitions of the crates, each a crate, a file and a name, and the definitions that each cites."""

    def __init__(self, files: Files):
        texts = files.of(r"crates/\w+/specs/\w+\.antt").items()
        self.modules = {(Path(path).parts[1], Path(path).stem): text for path, text in texts}
        self.all = {(*at, name) for at, text in self.modules.items() for name in defined(text)[0]}
        self.of = lru_cache(None)(self.cited_by)

    def cited(self, text: str, whole: str, at: tuple[str, str] | None = None) -> set[Definition]:
        """Returns the definitions that a part of a file cites; `at` is the crate and the name of a file of specs."""
        names, modules = imported(whole)
        own, found = defined(whole)[0] if at else {}, set()
        for words in (it.split(".") for it in PATH.findall(text)):
            if words[0] in modules and len(words) > 1:
                found.add(self.at(modules[words[0]], words[1]))
            elif words[0] in own:
                found.add((*at, words[0]))
            elif words[0] in names:
                found.add(self.at(*names[words[0]]))
        return found & self.all

    def at(self, path: str, name: str) -> Definition:
        """Returns the definition of that name in a module; for a constructor, its type."""
        crate, _, file = path.partition(".specs.")
        return crate, file, defined(self.modules.get((crate, file), ""))[1].get(name, name)

    def cited_by(self, definition: Definition) -> set[Definition]:
        """Returns the definitions that a definition cites, without itself."""
        whole = self.modules[definition[:2]]
        return self.cited(defined(whole)[0][definition[2]], whole, definition[:2]) - {definition}

    def reached(self, roots: Iterable[Definition], stop: Container[str] = ()) -> set[Definition]:
        """Returns the roots and all that they cite, directly or not. Definitions with a name in `stop` are not followed."""
        seen, left = set(), {*roots}
        while left:
            seen |= left
            left = {cited for it in left if it[2] not in stop for cited in self.of(it)} - seen
        return seen
