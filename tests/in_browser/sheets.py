"""A server with a sheet, and windows with its page."""

from __future__ import annotations

import contextlib
import functools
import http.client
import json
import os
import queue
import re
import subprocess
import sys
import tempfile
import threading
from pathlib import Path
from typing import Any, Callable, Dict, List, NamedTuple, Optional, Tuple

from .browser import SECONDS, Browser

TOP = Path(__file__).resolve().parents[2]
OTHER_PYTHON = "/usr/bin/python3"
ADDRESS = re.compile(r"http://127\.0\.0\.1:(\d+)/#(\S+)")
PLAN = """)DATA DEMAND←3 5⍴120 80 40 95 60 30 30 45 20 25 75 60 60 90 105
)DATA PRODUCT←3 4⍴'deskwallspot'
TOTAL←+/DEMAND    ⍝ of each product
ALL←+/TOTAL
SHARE←(100×TOTAL)÷ALL
LATE←(TOTAL>200)/TOTAL
"""
DEMAND = [["120", "80", "40", "95", "60"], ["30", "30", "45", "20", "25"], ["75", "60", "60", "90", "105"]]
ROWS_OF = """[...document.querySelectorAll(`[data-name='${arguments[0]}'] tr`)]
    .map((row) => [...row.querySelectorAll('td')].map((cell) => cell.textContent)).filter((row) => row.length)"""
PENDING = "document.querySelector(`[data-name='${arguments[0]}'] .pending`)"


@functools.lru_cache(maxsize=None)
def python_of_server() -> str:
    """Returns a Python that has openpyxl, which workbooks need; this one if there is none."""
    pythons = [sys.executable, OTHER_PYTHON]
    return next((python for python in pythons if has_workbooks(python)), sys.executable)


@functools.lru_cache(maxsize=None)
def has_workbooks(python: str) -> bool:
    try:
        return subprocess.run([python, "-c", "import openpyxl"], stderr=subprocess.DEVNULL).returncode == 0
    except OSError:
        return False


class Sheet:
    """A server with a sheet in a file, in a folder of its own."""

    def __init__(self, program: str, text: Optional[str], name: str = "plan.apl", folder: Optional[Path] = None) -> None:
        self.room = tempfile.TemporaryDirectory(prefix="sheet-web-")
        self.folder, self.program = folder or Path(self.room.name), program
        self.file = self.folder / name
        if text is not None:
            self.file.write_text(text, "utf-8")
        own = {"XDG_STATE_HOME": str(self.folder), "APLSHEET_TOLD": "1", "TMPDIR": str(self.folder), "HOME": str(self.folder)}
        self.environment = {**os.environ, **own}
        words = [python_of_server(), str(TOP / "bin/sheet"), "--web", "--headless", "--program", program, str(self.file)]
        self.process = subprocess.Popen(words, stdout=subprocess.DEVNULL, stderr=subprocess.PIPE, env=self.environment, text=True)
        self.said: List[str] = []
        self.told: queue.SimpleQueue[str] = queue.SimpleQueue()
        threading.Thread(target=self.read, daemon=True).start()
        self.port, self.token = self.address_told()

    def read(self) -> None:
        """Reads the messages of the server."""
        assert self.process.stderr
        for line in self.process.stderr:
            self.said.append(line)
            self.told.put(line)

    def address_told(self) -> Tuple[int, str]:
        while True:
            if address := ADDRESS.search(self.told.get(timeout=SECONDS)):
                return int(address[1]), address[2]

    @property
    def address(self) -> str:
        return f"http://127.0.0.1:{self.port}/#{self.token}"

    def __enter__(self) -> Sheet:
        return self

    def __exit__(self, *_: object) -> None:
        self.process.terminate()
        self.process.wait(SECONDS)
        with contextlib.suppress(OSError):
            self.room.cleanup()

    def ask(self, path: str, body: Any = None, method: Optional[str] = None, **headers: Optional[str]) -> Tuple[int, bytes, Dict[str, str]]:
        """Returns the status, the body and the headers of an answer; a header whose value is None is left out."""
        connection = http.client.HTTPConnection("127.0.0.1", self.port, timeout=SECONDS)
        given: Dict[str, Optional[str]] = {"Host": f"127.0.0.1:{self.port}", "Authorization": f"Bearer {self.token}"}
        raw = body if isinstance(body, bytes) else b"" if body is None else json.dumps(body).encode()
        if body is not None:
            given.update({"Content-Type": "application/json", "Origin": f"http://127.0.0.1:{self.port}", "Content-Length": str(len(raw))})
        given.update({name.replace("_", "-"): value for name, value in headers.items()})
        connection.putrequest(method or ("GET" if body is None else "POST"), path, skip_host=True, skip_accept_encoding=True)
        for name, value in given.items():
            if value is not None:
                connection.putheader(name, value)
        connection.endheaders(raw)
        answer = connection.getresponse()
        found = answer.status, answer.read(), dict(answer.headers)
        connection.close()
        return found

    def answer(self, path: str, **asked: Any) -> Any:
        """Returns the answer to a request of a page."""
        status, body, _ = self.ask(f"/api/{path}", asked)
        assert status == 200, (status, body)
        return json.loads(body)

    def line(self, text: str, desk: int = 0) -> Any:
        return self.answer("line", desk=desk, text=text)

    def see(self, of: str, desk: int = 0) -> Any:
        """Returns the lines that an expression shows, or its error."""
        told = self.answer("look", desk=desk, looks=[{"of": of}])["looks"][0]
        return told.get("lines", told.get("error"))


class Page:
    """A window with the page of a sheet."""

    def __init__(self, browser: Browser, sheet: Sheet) -> None:
        self.browser, self.window = browser, browser.new_window()
        self.open(sheet)

    def open(self, sheet: Sheet) -> None:
        self.browser.go(sheet.address)
        self.browser.wait("return window.aplsheet?.isBegun")

    def use(self) -> Browser:
        self.browser.use(self.window)
        return self.browser

    def run(self, script: str, *words: Any) -> Any:
        return self.use().run(script, *words)

    def wait(self, script: str, *words: Any, what: Optional[str] = None) -> Any:
        return self.use().wait(script, *words, what=what)

    def text(self, selector: str) -> Any:
        return self.run("return document.querySelector(arguments[0])?.innerText ?? null", selector)

    def cells(self, name: str) -> Any:
        """Returns the items that a panel shows, row by row."""
        return self.run(f"return {ROWS_OF}", name)

    def until(self, name: str, wanted: List[List[str]]) -> None:
        """Waits until a panel shows these items, and the program has answered the edits of its cells."""
        text = json.dumps(wanted, separators=(",", ":"), ensure_ascii=False)
        try:
            self.wait(f"return JSON.stringify({ROWS_OF}) === arguments[1] && !{PENDING}", name, text, what=name)
        except Exception as failure:
            raise AssertionError(f"{name} {wanted}; there is {self.cells(name)}") from failure

    def until_text(self, selector: str, text: str) -> None:
        """Waits until an element has a text in it."""
        self.wait("return document.querySelector(arguments[0])?.innerText.includes(arguments[1])", selector, text, what=f"{selector} {text}")

    def until_value(self, name: str, text: str) -> None:
        """Waits until a panel shows a single value."""
        script = "return document.querySelector(`[data-name='${arguments[0]}'] .single`)?.textContent === arguments[1]"
        self.wait(script, name, text, what=f"{name} {text}")

    def cell(self, name: str, row: int, column: int) -> str:
        return f"[data-name='{name}'] tr:nth-of-type({row + 1}) td:nth-of-type({column})"

    def click(self, selector: str) -> None:
        self.use().click(selector)

    def press(self, *keys: str) -> None:
        self.use().keys(*keys)

    def paste(self, text: str) -> None:
        """Pastes a text where the focus is."""
        script = """const data = new DataTransfer(); data.setData('text/plain', arguments[0]);
            document.activeElement.dispatchEvent(new ClipboardEvent('paste', { clipboardData: data, bubbles: true, cancelable: true }))"""
        self.run(script, text)

    def enter(self, text: str) -> None:
        """Types a line, and waits until it is answered."""
        self.run("document.getElementById('line').value = arguments[0]; document.getElementById('line').focus()", text)
        self.press("Enter")
        self.use().later("const then = arguments[0]; setTimeout(() => aplsheet.queue.then(() => then()))")


class Test(NamedTuple):
    """A test: a call with a sheet and with a function that opens windows, and the text of the sheet."""

    call: Callable[..., None]
    text: Optional[str] = PLAN
    needs_browser: bool = True

    @property
    def name(self) -> str:
        return self.call.__name__
