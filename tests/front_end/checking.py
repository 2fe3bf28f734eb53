"""The types of the front end and of its tests: each function has hints, and mypy, where it is installed, finds no fault in them."""

from __future__ import annotations

import ast
import os
import shutil
import subprocess
from pathlib import Path
from typing import Iterator

from .rooms import SECONDS, TOP, Outcome, Room, Test, named_tests

FOLDERS = ["share/sheet", "tests/front_end", "tests/hostile_input", "tests/in_browser"]


def functions_without_hints(path: Path) -> Iterator[str]:
    """Yields the functions of a module of which an argument, or the result, has no type."""
    for node in ast.walk(ast.parse(path.read_text("utf-8"))):
        if isinstance(node, ast.FunctionDef):
            every = [*node.args.posonlyargs, *node.args.args, *node.args.kwonlyargs, node.args.vararg, node.args.kwarg]
            bare = [argument for argument in every if argument and not argument.annotation and argument.arg not in ("self", "cls")]
            if bare or not node.returns:
                yield f"{path.relative_to(TOP)}:{node.lineno} {node.name}"


def hints(_room: Room) -> Outcome:
    paths = [path for folder in FOLDERS for path in sorted((TOP / folder).rglob("*.py"))]
    return [function for path in paths for function in functions_without_hints(path)], []


def types(room: Room) -> Outcome:
    """Runs mypy --strict."""
    words = ["mypy", "--strict", "--cache-dir", str(room.folder / "cache"), *FOLDERS]
    variables = {**os.environ, "NO_COLOR": "1", "MYPYPATH": "share"}
    ran = subprocess.run(words, cwd=TOP, env=variables, capture_output=True, text=True, timeout=SECONDS)
    return ran.returncode and ran.stdout, 0


def tests(_times: int) -> list[Test]:
    return named_tests([hints, *([types] if shutil.which("mypy") else [])])
