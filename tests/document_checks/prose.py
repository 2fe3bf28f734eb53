"""The prose of documents, comments and docstrings: marks of the dialect, widths and repeated sentences."""

from __future__ import annotations

import re
from collections import Counter, defaultdict
from functools import lru_cache
from pathlib import Path
from typing import Iterator

from .checks import Checks
from .texts import TOP, Files

MARKS = "tests/marks.txt"
WIDEST = 140
SLASHES, DASHES, SIGNS = r"(?:^|\s)//[/!]?\s?(.*)$", r"(?:^|\s)--\s?(.*)$", r"(?:^|\s)#\s?(.*)$"
COMMENTS = {".rt": SLASHES, ".js": SLASHES, ".c": SLASHES, ".antt": DASHES, ".py": SIGNS, "": SIGNS}  # by the suffix of a file


def documents(files: Files) -> dict[str, str]:
    """Returns all documents: those at the top, those in docs/, and the pages of crates."""
    return files.of(r"(docs/)?\w+\.md|crates/\w+/README\.md")


@lru_cache(None)
def marks(text: str) -> tuple[list[re.Pattern[str]], dict[str, int]]:
    """Returns the patterns of tests/marks.txt, and the most marked lines of each top folder."""
    lines = [line for line in text.split("\n") if line and not line.startswith("#")]
    most = dict(line.split()[1:] for line in lines if line.startswith("most "))
    patterns = [re.compile(line, re.I) for line in lines if not line.startswith("most ")]
    return patterns, {folder: int(count) for folder, count in most.items()}


def comments(text: str, form: str) -> Iterator[tuple[int, str, bool]]:
    """Yields the comments and docstrings of a source: the number of the line, the words, and whether a sentence begins there."""
    begins, is_doc = True, False
    for number, line in enumerate(text.split("\n"), 1):
        found, quotes = re.search(form, line), line.count('"""') if form == SIGNS else 0
        words = line.strip().replace('"""', "") if is_doc or quotes else found and found[1]
        is_doc ^= quotes % 2
        if words is None:
            begins = True
        else:
            yield number, words, begins
            begins = not words.strip() or words.rstrip().endswith((".", ":"))


def prose(text: str) -> Iterator[tuple[int, str, bool]]:
    """Yields the lines of a document, but for its blocks of code. No first word is a mark there."""
    is_block = False
    for number, line in enumerate(text.split("\n"), 1):
        is_block ^= line.lstrip().startswith("```")
        if not is_block and not line.startswith("    "):
            yield number, line, False


@lru_cache(None)
def marked(text: str, suffix: str, patterns: str) -> list[tuple[int, str]]:
    """Returns the marked lines of a text, each with its number. A pattern with ^ holds where a sentence begins."""
    found = []
    for number, words, begins in prose(text) if suffix == ".md" else comments(text, COMMENTS[suffix]):
        hits = (it for it in marks(patterns)[0] if begins or not it.pattern.startswith("^"))
        if any(it.search(words.strip()) for it in hits):
            found.append((number, words.strip()))
    return found


def marked_lines(files: Files) -> Iterator[tuple[str, int, str]]:
    """Yields the marked lines of the repository: the path, the number of the line, and its words."""
    for path, text in sorted(files.texts.items()):
        suffix = Path(path).suffix
        if (suffix == ".md" or suffix in COMMENTS) and path != MARKS:
            yield from ((path, *it) for it in marked(text, suffix, files.texts[MARKS]))


def top_of(path: str) -> str:
    """Returns the top folder of a path, or a point for a file at the top."""
    return path.split("/")[0] if "/" in path else "."


def print_marks() -> None:
    """Prints the marked lines, and then their number in each top folder."""
    count: Counter[str] = Counter()
    for path, number, words in marked_lines(Files()):
        print(f"{path}:{number}: {words[:150]}")
        count[top_of(path)] += 1
    print(*(f"most {folder} {count[folder]}" for folder in sorted(count)), sep="\n")


@lru_cache(None)
def sentences(text: str) -> set[str]:
    """Returns the sentences of ten words or more of a document, without tables and blocks of code."""
    lines = [line for _, line, _ in prose(text)]
    parts = re.split(r"\n\s*\n|\n(?=\s*(?:[-*]|\d+\.) )|\n(?=[#|])", "\n".join(lines))
    kept = (re.sub(r"^(?:[-*]|\d+\.) ", "", " ".join(it.split())) for it in parts if not it.lstrip().startswith(("|", "#", "`")))
    found = (it.strip() for part in kept for it in re.split(r"(?<=[.!?:]) (?=[A-Z`*])", part))
    return {it for it in found if len(it.split()) >= 10}


class Prose(Checks):
    """The prose keeps to the limits of CONTRIBUTING.md, "Prose"."""

    def check_marks(self) -> None:
        """Each top folder has at most as many marked lines as tests/marks.txt allows."""
        places: dict[str, list[str]] = defaultdict(list)
        for path, number, words in marked_lines(self.files):
            places[top_of(path)].append(f"{path}:{number}: {words[:80]}")
        most = marks(self.files.texts[MARKS])[1]
        for folder in sorted({*most, *places}):
            held = places[folder]
            self.want(len(held) <= most.get(folder, 0), f"{MARKS}: {folder} has {len(held)} marked lines, and {most.get(folder, 0)} are allowed")

    def check_widths(self) -> None:
        for path, text in documents(self.files).items():
            wide = [number for number, line, _ in prose(text) if len(line) > WIDEST and not line.startswith("|")]
            self.want(not wide, f"{path}: lines of more than {WIDEST} columns: {wide}")

    def check_repeats(self) -> None:
        """No sentence of ten words or more stands in two documents."""
        places: dict[str, list[str]] = defaultdict(list)
        for path, text in documents(self.files).items():
            for sentence in sentences(text):
                places[sentence].append(path)
        for sentence, paths in sorted(places.items()):
            self.want(len(paths) == 1, f"{' and '.join(paths)} have the sentence '{sentence}'")
