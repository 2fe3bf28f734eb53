"""The part that all checks share."""

from __future__ import annotations

from .specs import Specs
from .texts import Files


class Checks:
    """A subject of checks. It counts the passed ones, and collects a line for each failure.

    Its checks are the methods whose names begin with check_, in the order in which they are defined.
    """

    def __init__(self, files: Files, specs: Specs):
        self.files, self.specs, self.passed, self.failures = files, specs, 0, []

    def run(self) -> list[str]:
        """Runs all checks, and returns the failures."""
        for name in [it for it in vars(type(self)) if it.startswith("check_")]:
            getattr(self, name)()
        return self.failures

    def want(self, holds: object, failure: str) -> None:
        self.passed += bool(holds)
        if not holds:
            self.failures.append(failure)
