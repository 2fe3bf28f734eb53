"""Firefox without a screen, driven by Marionette, the port of its own for WebDriver: no geckodriver is needed, which Debian 12 lacks.

A message is its length, a colon and JSON: a command is [0, number, name, words], and its answer [1, number, error, value].
"""

from __future__ import annotations

import contextlib
import json
import os
import shutil
import socket
import subprocess
import tempfile
import time
from pathlib import Path
from typing import Any, Dict, List, Optional

from .browser import SECONDS, Browser, Failed

PROGRAM = os.environ.get("FIREFOX") or shutil.which("firefox-esr") or ""
COMMANDS = {
    "POST session": "NewSession", "POST url": "Navigate", "POST refresh": "Refresh", "POST window/new": "NewWindow", "POST window": "SwitchToWindow",
    "DELETE window": "CloseWindow", "POST execute/sync": "ExecuteScript", "POST execute/async": "ExecuteAsyncScript", "POST element": "FindElement",
    "POST actions": "PerformActions", "GET screenshot": "TakeScreenshot",
}
PREFS = {"marionette.port": 0, "browser.shell.checkDefaultBrowser": False, "datareporting.policy.dataSubmissionEnabled": False, "app.update.enabled": False}
PREFS.update({"intl.accept_languages": "en-US", "browser.startup.homepage_override.mstone": "ignore", "toolkit.telemetry.enabled": False})
PREFS.update({"network.captive-portal-service.enabled": False, "network.connectivity-service.enabled": False, "app.normandy.enabled": False})


class Firefox(Browser):
    """A Firefox with a profile of its own, in a folder that goes away with it."""

    def __init__(self) -> None:
        self.folder, self.session, self.number = tempfile.mkdtemp(prefix="sheet-firefox-"), "", 0
        profile = Path(self.folder, "profile")
        profile.mkdir()
        prefs = "".join(f"user_pref({json.dumps(name)}, {json.dumps(value)});\n" for name, value in PREFS.items())
        (profile / "user.js").write_text(prefs, "utf-8")
        words = [PROGRAM, "--headless", "--no-remote", "--marionette", "--profile", str(profile)]
        environment = {**os.environ, "HOME": self.folder, "TMPDIR": self.folder, "MOZ_DISABLE_AUTO_SAFE_MODE": "1"}
        self.driver = subprocess.Popen(words, stdout=subprocess.DEVNULL, stderr=subprocess.DEVNULL, env=environment, text=True)
        try:
            self.socket = socket.create_connection(("127.0.0.1", self.port_in(profile / "MarionetteActivePort")), SECONDS)
            self.message()  # its greeting
            self.call("POST", "session", {"timeouts": {"script": 1000 * SECONDS, "pageLoad": 1000 * SECONDS}})
        except Exception:
            self.end()
            raise

    def port_in(self, file: Path) -> int:
        """Waits for the port, which Firefox writes into a file."""
        end = time.monotonic() + SECONDS
        while time.monotonic() < end and self.driver.poll() is None:
            with contextlib.suppress(OSError, ValueError):
                return int(file.read_text())
            time.sleep(0.05)
        raise Failed("firefox does not start")

    def message(self) -> Any:
        """Reads a message."""
        head = b""
        while not head.endswith(b":"):
            head += self.read(1)
        return json.loads(self.read(int(head[:-1])))

    def read(self, count: int) -> bytes:
        """Reads that many bytes."""
        parts: List[bytes] = []
        while count:
            part = self.socket.recv(count)
            if not part:
                raise Failed("firefox has ended")
            parts.append(part)
            count -= len(part)
        return b"".join(parts)

    def call(self, method: str, path: str, body: Optional[Dict[str, Any]] = None) -> Any:
        """Sends a command of WebDriver, and returns its value."""
        self.number += 1
        raw = json.dumps([0, self.number, f"WebDriver:{COMMANDS[f'{method} {path}']}", body or {}]).encode()
        self.socket.sendall(b"%d:%s" % (len(raw), raw))
        _, _, error, value = self.message()
        if error:
            raise Failed(f"{error['error']}: {error['message']}")
        return value["value"] if isinstance(value, dict) and [*value] == ["value"] else value

    def log(self) -> List[str]:
        """Returns nothing: Marionette has no messages of the console."""
        return []

    def close(self) -> None:
        with contextlib.suppress(OSError):
            self.socket.close()
        self.end()

    def end(self) -> None:
        """Ends the process, and removes its folder."""
        self.driver.terminate()
        with contextlib.suppress(subprocess.TimeoutExpired):
            self.driver.wait(10)
        self.driver.kill()
        self.driver.wait()
        shutil.rmtree(self.folder, ignore_errors=True)
