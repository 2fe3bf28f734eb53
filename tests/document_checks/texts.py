"""The files of the repository, and how their texts are read."""

from __future__ import annotations

import ast
import contextlib
import os
import re
from functools import lru_cache
from pathlib import Path
from typing import Any, Iterator

TOP = Path(__file__).resolve().parents[2]
THEOREM, DEFINITIONS = "docs/THEOREM.md", "docs/DEFINITIONS.md"
ARCHITECTURE, RELIABILITY = "docs/ARCHITECTURE.md", "docs/RELIABILITY.md"
RUN_LOOP = "crates/sheet_cli/src/run_loop.rt"
SUFFIXES = {".md", ".txt", ".rt", ".antt", ".py", ".js", ".c", ".1", ".inputrc", ".vim", ".el", ".XCompose", ".bash", ".fish"}
SCRIPTS = re.compile(r"(bin|tests|bench|share/completions)/.*")  # files without a suffix are read here
CLASSES = {"c.is_ascii_alphabetic()": "A-Za-z", "c.is_ascii_digit()": "0-9"}  # tests of a character, and their patterns


def is_read(path: str) -> bool:
    suffix = Path(path).suffix
    return suffix in SUFFIXES or not suffix and bool(SCRIPTS.fullmatch(path))


class Files:
    """The texts of the repository by their paths, and the set of its files and folders."""

    def __init__(self) -> None:
        self.texts, self.there = {}, set()
        for folder, folders, names in os.walk(TOP):
            folders[:] = [it for it in folders if it not in (".git", "out")]
            paths = [str(Path(folder, it).relative_to(TOP)) for it in names]
            self.there |= {*paths, *(str(Path(folder, it).relative_to(TOP)) for it in folders)}
            self.texts.update({it: Path(TOP, it).read_text("utf-8") for it in paths if is_read(it)})

    def with_fault(self, file: str, old: str, new: str) -> Files:
        """Returns the same files with another text in one of them."""
        planted = Files.__new__(Files)
        planted.texts, planted.there = {**self.texts, file: self.texts[file].replace(old, new)}, self.there
        return planted

    def of(self, pattern: str) -> dict[str, str]:
        """Returns the texts whose whole path matches the pattern."""
        return {path: text for path, text in self.texts.items() if re.fullmatch(pattern, path)}


def rows(text: str, head: str) -> Iterator[tuple[list[str], list[str]]]:
    """Yields the rows of the tables whose first column has this head: the two headings above the row, and its cells."""
    parts, is_table = ["", ""], False
    for line in text.split("\n"):
        if heading := re.match(r"(##|###) (.*)", line):
            parts = [heading[2], ""] if heading[1] == "##" else [parts[0], heading[2]]
        cells = [it.strip() for it in line.strip("|").split("|")]
        is_table = line.startswith("|") and (is_table or cells[0] == head)
        if is_table and cells[0] != head and not cells[0].startswith("-"):
            yield parts, cells


def crates(files: Files) -> dict[str, list[str]]:
    """Returns the crates of crates.txt, each with the crates and libraries of its line."""
    lines = [line.partition(":") for line in files.texts["crates.txt"].split("\n") if ":" in line and not line.startswith("#")]
    return {name: needed.split() for name, _, needed in lines}


def documents(files: Files) -> dict[str, str]:
    """Returns the documents at the top and in docs/, but not CHANGELOG.md, which names things that are gone."""
    return {path: text for path, text in files.of(r"(docs/)?\w+\.md").items() if path != "CHANGELOG.md"}


def quoted(text: str) -> list[str]:
    """Returns the words in backquotes."""
    return re.findall(r"`([^`\n]+)`", text)


def piece_of(text: str, pattern: str) -> str:
    """Returns the group of the first match in a text, or an empty text."""
    place = re.search(pattern, text, re.M | re.S)
    return place[1] if place else ""


def body_of(text: str, name: str) -> str:
    """Returns the lines of a function of a source, without its contract."""
    return piece_of(text, rf"^(?:pub(?:\(crate\))? )?fn {name}\(.*?^\{{\n(.*?)^\}}")


def variants(text: str, name: str) -> set[str]:
    """Returns the variants of an enum of a source."""
    return {*re.findall(r"^    (\w+)", piece_of(text, rf"^pub enum {name} \{{\n(.*?)^\}}"), re.M)}


def limit(text: str, name: str) -> int:
    """Returns the value of a constant of a source."""
    return int(piece_of(text, rf"^pub const {name}: \w+ = ([\d_]+);") or 0)


def characters(text: str) -> set[str]:
    """Returns the character literals of a source, comments left out."""
    return {ast.literal_eval(literal) for literal in re.findall(r"'\\?.'", re.sub(r"^ *//.*$", "", text, flags=re.M))}


def class_of(text: str, name: str) -> str:
    """Returns the characters that a function of a source accepts, as a pattern writes them between brackets."""
    terms = body_of(text, name).strip().split(" || ")
    inner = {"is_letter(c)": class_of(text, "is_letter")} if "is_letter(c)" in terms else {}
    return "".join({**CLASSES, **inner}.get(term) or piece_of(term, r"^c == '(.)'$") or term for term in terms)


@lru_cache(None)
def constants(text: str) -> dict[str, Any]:
    """Returns the constants of a Python module that are literals, or calls with a literal, as frozenset(..)."""
    values = {}
    for node in (node for node in ast.parse(text).body if isinstance(node, (ast.Assign, ast.AnnAssign)) and node.value):
        target = node.targets[0] if isinstance(node, ast.Assign) else node.target
        value = node.value.args[0] if isinstance(node.value, ast.Call) and node.value.args else node.value
        with contextlib.suppress(ValueError):
            values[getattr(target, "id", "")] = ast.literal_eval(value)
    return values
