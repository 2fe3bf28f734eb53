"""Every test, by its name and with its arguments, in the order in which they run."""

from __future__ import annotations

from functools import partial
from typing import Callable, Iterator, Sequence

from .broken_lines import try_lines
from .broken_streams import try_broken_input, try_closed_output, try_cut_output, try_full_device
from .depth import try_deep_lines
from .folds import SCANS, TOTALS, try_folds
from .formulas import try_formulas
from .growth import try_end_of_memory, try_long_line, try_many_lines, try_many_names
from .longest_work import try_worst_lines
from .results import try_results
from .scans import try_scans
from .scripts import try_scripts
from .sizes import try_limits, try_sizes

Test = Callable[[str], str]  # takes the program, and returns the figures that it measured

OF_TWO_LENGTHS = [try_sizes, try_long_line, try_many_lines]  # longer with --long
OF_ONE_LENGTH = [try_worst_lines, try_many_names, try_limits, try_end_of_memory, try_deep_lines]
OF_ONE_LENGTH += [try_broken_input, try_cut_output, try_closed_output, try_full_device]
LENGTHS: list[Sequence[int]] = [range(41), [64, 65, 1024]]  # of lines under folds


def name_of(test: Callable[..., str]) -> str:
    """Returns the name of a test, from the name of its function."""
    return test.__name__[len("try_") :].replace("_", " ")


def tests_of_folds(seed: int, name: str, count: int, folds: dict[str, str]) -> Iterator[tuple[str, Test]]:
    """Yields this number of tests of folds for each choice of lengths."""
    numbers = [(number, lengths) for number in range(count) for lengths in LENGTHS]
    yield from ((f"{name} {number}", partial(try_folds, seed=seed + number, lengths=lengths, folds=folds)) for number, lengths in numbers)


def every_test(seed: int, is_long: bool) -> Iterator[tuple[str, Test]]:
    """Yields the name of each test, and the test."""
    groups = 25 if is_long else 1
    yield from ((name_of(test), partial(test, is_long=is_long)) for test in OF_TWO_LENGTHS)
    yield from ((name_of(test), test) for test in OF_ONE_LENGTH)
    yield from ((f"lines {number}", partial(try_lines, seed=seed + number, count=1000)) for number in range(20 * groups))
    yield from ((f"formulas {number}", partial(try_formulas, seed=seed + number, count=100)) for number in range(4 * groups))
    yield from tests_of_folds(seed, "totals", 8 * groups, TOTALS)
    yield from tests_of_folds(seed, "edits of scans", 4 * groups, SCANS)
    yield from ((f"scans {number}", partial(try_scans, seed=seed + number, count=200)) for number in range(500 if is_long else 2))
    yield from ((f"results {number}", partial(try_results, seed=seed + number, count=500)) for number in range(100 if is_long else 4))
    yield from ((f"scripts {number}", partial(try_scripts, seed=seed + number, count=300)) for number in range(groups))
