"""The server of a sheet: it answers requests of its page, gives out the files of the page, and streams events."""

from __future__ import annotations

import contextlib
import json
import queue
import sys
import threading
from http.server import BaseHTTPRequestHandler, ThreadingHTTPServer
from pathlib import Path
from typing import Any, Optional

from ..errors import Lost, Mistake
from ..session import Session, told_of
from .guard import HEADERS, Guard, length_in
from .looks import Told
from .site import PATHS, Site

PAGE = Path(__file__).resolve().parent.parent / "page"
KINDS = {".html": "text/html", ".css": "text/css", ".js": "text/javascript", ".svg": "image/svg+xml"}
TEXT = "; charset=utf-8"
BEAT = 15  # seconds between two signs of life
WAIT = 2  # seconds that the end waits for a line under way


class Handler(BaseHTTPRequestHandler):
    """Answers the requests of one connection."""

    server: Server
    protocol_version = "HTTP/1.1"  # a connection stays for the next request
    disable_nagle_algorithm = True  # with it, an answer of two packets waits for 40 ms
    wbufsize = -1  # headers and body leave together
    timeout = 90  # seconds; a browser opens connections in advance, and may never use them

    def do_GET(self) -> None:
        name = self.path.partition("?")[0]
        is_file = not name.startswith("/api/")
        if self.is_refused("GET", is_file):
            return
        file = PAGE / (name[1:] or "index.html")
        if name == "/api/events":
            self.stream()
        elif is_file and "/" not in name[1:] and file.suffix in KINDS and file.is_file():
            self.send(200, file.read_bytes(), KINDS[file.suffix] + TEXT)
        else:
            self.send(404)

    def do_POST(self) -> None:
        if self.is_refused("POST", False):
            return
        raw = self.rfile.read(length_in(self.headers.get("Content-Length")))
        answer = PATHS.get(self.path)
        if not answer:
            self.send(404)
            return
        try:
            told = answer(self.server.site, **json.loads(raw))
        except Mistake as mistake:
            told = {"error": "NOT DONE", "notes": str(mistake).split("\n")}
        except Lost as lost:
            told = {"error": "LOST", "notes": [str(lost)]}
            self.server.lose(lost)
        except (KeyError, TypeError, ValueError, AttributeError, RecursionError) as fault:  # a request that no page of this server makes
            self.send(400, f"{told_of(fault)}\n".encode())
            return
        body = json.dumps(told, ensure_ascii=False, separators=(",", ":"))
        self.send(200, body.encode("utf-8", "replace"), "application/json")

    def is_refused(self, method: str, is_file: bool) -> bool:
        """Answers a request that the guard refuses; returns whether it does."""
        status = self.server.guard.refusal(method, is_file, self.headers)
        if status:
            self.close_connection = True  # its body is not read
            self.send(status)
        return status is not None

    def send(self, status: int, body: bytes = b"", kind: str = "text/plain" + TEXT) -> None:
        """Sends an answer."""
        self.send_response(status)
        for name, value in {**HEADERS, "Content-Type": kind, "Content-Length": str(len(body))}.items():
            self.send_header(name, value)
        self.end_headers()
        self.wfile.write(body)
        self.wfile.flush()

    def stream(self) -> None:
        """Sends the events of a desk until the page goes away or the desk ends."""
        desk = self.server.site.what_ifs.find(length_in(self.path.partition("?desk=")[2]))
        self.close_connection = True
        self.send_response(200)
        for name, value in {**HEADERS, "Content-Type": "text/event-stream", "Connection": "close"}.items():
            self.send_header(name, value)
        self.end_headers()
        if desk is None:
            self.send_event({"over": True})
            return
        heard = desk.listen()
        with contextlib.suppress(OSError):
            self.send_events(heard, {"version": desk.version, "reached": [], **self.server.site.state()})
        desk.leave(heard)

    def send_events(self, heard: queue.SimpleQueue[Any], event: Optional[Told]) -> None:
        """Sends events as they come, and a sign of life between them; None ends the stream."""
        while event is not None:
            self.send_event(event)
            try:
                event = heard.get(timeout=BEAT)
            except queue.Empty:
                event = {}
        self.send_event({"over": True})

    def send_event(self, event: Told) -> None:
        """Sends an event, or a sign of life if it is empty."""
        self.wfile.write(f"data: {json.dumps(event)}\n\n".encode() if event else b":\n\n")
        self.wfile.flush()

    def log_message(self, *_: Any) -> None:
        """Logs nothing: an address has no secret, but a terminal is no place for requests."""

    def version_string(self) -> str:
        return "aplsheet"


class Server(ThreadingHTTPServer):
    """The server of a sheet, for this machine alone.

    lost  the failure that has ended the sheet, if one has
    """

    daemon_threads = True

    def __init__(self, port: int, session: Session, file: Optional[str], build: str) -> None:
        super().__init__(("127.0.0.1", port), Handler)
        self.site, self.guard = Site(session, file, build), Guard(self.server_address[1])
        self.lost: Optional[Lost] = None

    @property
    def address(self) -> str:
        """The address of the page, with its token."""
        return f"http://127.0.0.1:{self.server_address[1]}/#{self.guard.token}"

    def handle_error(self, request: Any, client_address: Any) -> None:
        """Says nothing of a page that goes away in the midst of an answer."""
        fault = sys.exc_info()[1]
        if isinstance(fault, Exception) and not isinstance(fault, OSError):
            self.site.sheet.session.tell(f"FAULT OF THE FRONT END: {told_of(fault)}")

    def lose(self, lost: Lost) -> None:
        """Ends the server from one of its threads, and sends the reason to all pages."""
        self.lost = lost
        self.site.tell_all({"gone": str(lost)})
        threading.Thread(target=self.shutdown, daemon=True).start()

    def start(self) -> None:
        """Serves in threads of its own."""
        threading.Thread(target=self.serve_forever, args=(0.2,), daemon=True).start()

    def end(self) -> None:
        """Ends the sheet for its pages: a line under way is stopped, and the port is free."""
        session = self.site.sheet.session
        self.site.sheet.is_over = True
        if not session.lock.acquire(timeout=WAIT):
            session.program.interrupt()
            session.lock.acquire()
        try:
            self.site.tell_all({"gone": "the sheet was ended where it was started"})
            self.site.end()
            self.server_close()
        finally:
            session.lock.release()
