"""The place of one test: a server with a sheet, and windows of a browser."""

from __future__ import annotations

import contextlib
import re
from typing import List, Optional

from .browser import Browser, Failed
from .sheets import Page, Sheet

ELSEWHERE = "return performance.getEntriesByType('resource').map((entry) => entry.name).filter((name) => new URL(name).origin !== location.origin)"


class Bench:
    """The equipment of a test: the program, a sheet in a server, and a browser, if it needs one."""

    def __init__(self, program: str, sheet: Sheet, browser: Optional[Browser]) -> None:
        self.program, self.sheet, self.browser = program, sheet, browser
        self.pages: List[Page] = []
        self.allowed: List[str] = []
        if browser:
            browser.log()  # of the windows of an earlier test

    def page(self, sheet: Optional[Sheet] = None) -> Page:
        """Opens a window with the page of the sheet."""
        assert self.browser
        self.pages.append(Page(self.browser, sheet or self.sheet))
        return self.pages[-1]

    def allows(self, pattern: str) -> None:
        """Lets the console have errors of requests with this text."""
        self.allowed.append(pattern)

    def allows_an_end(self) -> None:
        """Lets the console have errors of requests to a server that has ended."""
        self.allows("ERR_CONNECTION_REFUSED|ERR_INCOMPLETE_CHUNKED|ERR_EMPTY_RESPONSE|ERR_CONNECTION_RESET")

    def check(self) -> None:
        """Fails if the console has an error, or a page has asked for something elsewhere."""
        if not self.browser:
            return
        for page in self.pages:
            elsewhere = page.run(ELSEWHERE)
            assert not elsewhere, f"requests to elsewhere: {elsewhere}"
            errors = [message for message in page.use().log() if not any(re.search(pattern, message) for pattern in self.allowed)]
            assert not errors, f"the console has {errors}"

    def close(self) -> None:
        """Closes the windows."""
        for page in self.pages:
            with contextlib.suppress(Failed, OSError):
                page.browser.close_window(page.window)
