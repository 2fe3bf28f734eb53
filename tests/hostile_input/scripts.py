"""The scripts of the repository, and whole scripts with bytes changed, from standard input and from a file."""

from __future__ import annotations

import tempfile
from pathlib import Path
from random import Random

from .program_calls import TOP, called, needs


def scripts_of_the_repository() -> list[bytes]:
    """Returns the short scripts of tests/rows and examples/ that make no large arrays."""
    paths = sorted(TOP.glob("tests/rows/*.in")) + sorted(TOP.glob("examples/*.apl"))
    scripts = [path.read_bytes() for path in paths]
    return [script for script in scripts if len(script) < 4000 and b"1048576" not in script]


def changed_script(chance: Random, script: bytes) -> bytes:
    """Returns the script with some bytes changed, taken out or put in, line ends among them."""
    text = bytearray(script)
    for _ in range(chance.choice([1, 1, 2, 5])):
        place = chance.randrange(len(text) + 1)
        text[place : place + chance.randrange(2)] = bytes([chance.choice([chance.randrange(256), 10, 13])] * chance.randrange(2))
    return bytes(text)


def try_scripts(program: str, seed: int, count: int) -> str:
    """Tries this number of changed scripts. Each is answered alike from standard input and from a file."""
    chance, scripts = Random(seed), scripts_of_the_repository()
    with tempfile.TemporaryDirectory(prefix="hostile-") as folder:
        path = Path(folder, "script")
        for _ in range(count):
            script = changed_script(chance, chance.choice(scripts))
            path.write_bytes(script)
            from_input, from_file = called(program, script), called(program, b"", "run", str(path))
            status, _, errors = from_input
            is_well = from_input == from_file and (status, errors) == (0, b"")
            needs(is_well, f"seed {seed}: {script!r} gives {from_input} and {from_file}")
    return f"{count} scripts"
