"""Chromium without a screen, driven through chromedriver: WebDriver is JSON over HTTP, so the standard library is enough."""

from __future__ import annotations

import base64
import contextlib
import http.client
import json
import os
import re
import shutil
import subprocess
import tempfile
import time
from pathlib import Path
from typing import Any, Dict, List, Optional

SECONDS = 240  # the most that anything is waited for; beside proofs, a start that takes a second when idle has taken a minute
ELEMENT = "element-6066-11e4-a52e-4f735466cecf"
KEYS = {"Enter": "\ue007", "Tab": "\ue004", "Escape": "\ue00c", "Up": "\ue013", "Down": "\ue015", "Left": "\ue012", "Right": "\ue014"}
KEYS.update({"Control": "\ue009", "Shift": "\ue008", "Alt": "\ue00a", "Home": "\ue011", "End": "\ue010", "PageDown": "\ue00f", "F2": "\ue032"})
KEYS.update({"Delete": "\ue017", "F1": "\ue031", "Insert": "\ue016", "Space": " "})
FLAGS = ["--headless=new", "--disable-gpu", "--disable-dev-shm-usage", "--no-first-run", "--disable-background-networking", "--disable-sync"]
FLAGS += ["--disable-component-update", "--disable-features=Translate,OptimizationHints", "--force-color-profile=srgb"]
FLAGS += ["--disable-backgrounding-occluded-windows", "--disable-renderer-backgrounding", "--disable-background-timer-throttling"]


class Failed(Exception):
    """WebDriver's message about a failure, or about something that did not come in time."""


def absence() -> str:
    """Returns why no page can be tried, or nothing."""
    if not shutil.which("chromedriver") or not (shutil.which("chromium") or shutil.which("chromium-browser") or shutil.which("google-chrome")):
        return "there is no chromium with chromedriver"
    try:
        Browser().close()
    except (Failed, OSError) as error:
        return f"chromium does not start ({error})"
    return ""


class Browser:
    """A browser with a profile of its own, in a folder that goes away with it."""

    def __init__(self, width: int = 1280, height: int = 720, language: str = "en-US") -> None:
        self.folder = tempfile.mkdtemp(prefix="sheet-browser-")
        own = {"HOME": self.folder, "TMPDIR": self.folder, "XDG_CONFIG_HOME": self.folder, "XDG_CACHE_HOME": self.folder}
        environment = {**os.environ, **own, "LC_ALL": "C.UTF-8", "LANGUAGE": language.replace("-", "_")}
        words = [shutil.which("chromedriver") or "chromedriver", "--port=0"]
        self.driver = subprocess.Popen(words, stdout=subprocess.PIPE, stderr=subprocess.DEVNULL, env=environment, text=True)
        self.port = self.port_told()
        flags = [*FLAGS, f"--window-size={width},{height}", f"--user-data-dir={self.folder}/profile", f"--lang={language}"]
        flags += ["--no-sandbox"] if os.getuid() == 0 else []  # the sandbox of Chromium does not start as root
        chromium = {"args": flags, "prefs": {"intl.accept_languages": language}}
        wanted = {"browserName": "chrome", "goog:chromeOptions": chromium, "goog:loggingPrefs": {"browser": "ALL"}}
        wanted["timeouts"] = {"script": 1000 * SECONDS, "pageLoad": 1000 * SECONDS}
        self.session = ""
        self.session = self.call("POST", "session", {"capabilities": {"alwaysMatch": wanted}})["sessionId"]

    def port_told(self) -> int:
        """Returns the port of the driver, from its output."""
        assert self.driver.stdout
        for line in self.driver.stdout:
            if port := re.search(r"started successfully on port (\d+)", line):
                return int(port[1])
        raise Failed("chromedriver does not start")

    def call(self, method: str, path: str, body: Optional[Dict[str, Any]] = None) -> Any:
        """Sends a command of WebDriver, and returns its value."""
        connection = http.client.HTTPConnection("127.0.0.1", self.port, timeout=2 * SECONDS)
        path = f"/session/{self.session}/{path}" if self.session else f"/{path}"
        connection.request(method, path.rstrip("/"), None if body is None else json.dumps(body), {"Content-Type": "application/json"})
        value = json.loads(connection.getresponse().read())["value"]
        connection.close()
        if isinstance(value, dict) and "error" in value:
            raise Failed(f"{value['error']}: {value['message'].splitlines()[0]}")
        return value

    def close(self) -> None:
        with contextlib.suppress(Failed, OSError):
            self.call("DELETE", "")
        self.driver.terminate()
        self.driver.wait()
        if self.driver.stdout:
            self.driver.stdout.close()
        shutil.rmtree(self.folder, ignore_errors=True)

    # pages

    def go(self, address: str) -> None:
        self.call("POST", "url", {"url": address})

    def new_window(self) -> str:
        """Opens a window, and goes on in it."""
        handle = str(self.call("POST", "window/new", {"type": "window"})["handle"])
        self.use(handle)
        return handle

    def close_window(self, handle: str) -> None:
        self.use(handle)
        rest = self.call("DELETE", "window")
        self.use(rest[0])

    def use(self, handle: str) -> None:
        self.call("POST", "window", {"handle": handle})

    def resize(self, width: int, height: int) -> None:
        self.call("POST", "window/rect", {"width": width, "height": height})

    def run(self, script: str, *words: Any) -> Any:
        """Runs a script in the page, and returns its value."""
        return self.call("POST", "execute/sync", {"script": script, "args": words})

    def later(self, script: str, *words: Any) -> Any:
        """Runs a script whose last word is a function that it calls with its value."""
        return self.call("POST", "execute/async", {"script": script, "args": words})

    def devtools(self, command: str, **words: Any) -> Any:
        """Sends a command of Chromium itself."""
        return self.call("POST", "goog/cdp/execute", {"cmd": command, "params": words})

    def shot(self, file: str) -> None:
        Path(file).write_bytes(base64.b64decode(self.call("GET", "screenshot")))

    def log(self) -> List[str]:
        """Returns the messages of the console since the last call."""
        return [entry["message"] for entry in self.call("POST", "se/log", {"type": "browser"})]

    # elements and keys

    def find(self, selector: str) -> str:
        return str(self.call("POST", "element", {"using": "css selector", "value": selector})[ELEMENT])

    def click(self, selector: str) -> None:
        element = {ELEMENT: self.find(selector)}
        press = [{"type": "pointerDown", "button": 0}, {"type": "pointerUp", "button": 0}]
        moves = [{"type": "pointerMove", "origin": element, "x": 0, "y": 0}, *press]
        self.call("POST", "actions", {"actions": [{"type": "pointer", "id": "mouse", "actions": moves}]})

    def keys(self, *words: str) -> None:
        """Presses keys, each a text that is typed or a word of KEYS; Control+z holds one."""
        steps: List[Dict[str, str]] = []
        for word in words:
            *held, last = word.split("+") if len(word) > 1 and word.split("+")[0] in KEYS else [word]
            down, signs = [KEYS[key] for key in held], [KEYS[last]] if last in KEYS else [*last]
            steps += [{"type": "keyDown", "value": key} for key in down]
            steps += [{"type": kind, "value": sign} for sign in signs for kind in ("keyDown", "keyUp")]
            steps += [{"type": "keyUp", "value": key} for key in down]
        self.call("POST", "actions", {"actions": [{"type": "key", "id": "keys", "actions": steps}]})

    def wait(self, script: str, *words: Any, what: Optional[str] = None) -> Any:
        """Waits until the value of a script counts as true, and returns it."""
        end = time.monotonic() + SECONDS
        while True:
            value = self.run(script, *words)
            if value:
                return value
            if time.monotonic() > end:
                raise Failed(f"did not come: {what or script}")
            time.sleep(0.02)
