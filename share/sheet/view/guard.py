"""Which requests the server answers: those of its own page, in a browser of the person who started it.

Every page that the person has open can reach a server on 127.0.0.1, and so can every account of the machine, and pages whose name was made
to point here (DNS rebinding). So a request must

- name this server exactly: Host is 127.0.0.1 or localhost with this port;
- come from its page: Origin and Sec-Fetch-Site say so where the browser sends them, and a POST needs Origin;
- carry the token in a header, which no other page can make a browser send. The token stands behind the # of the address, which goes to no
  server and into no Referer. It is in no cookie: cookies of 127.0.0.1 go to the servers of all ports, whoever runs them.

The files of the page hold nothing of the sheet, so they need no token, and a link from elsewhere may open them in a window.
"""

from __future__ import annotations

import hmac
import secrets
from email.message import Message
from typing import Optional

HEADERS = {
    "Content-Security-Policy": "default-src 'none'; script-src 'self'; style-src 'self'; img-src 'self'; connect-src 'self'; base-uri 'none'; "
    "form-action 'none'; frame-ancestors 'none'; require-trusted-types-for 'script'; trusted-types 'none'",
    "X-Content-Type-Options": "nosniff",
    "X-Frame-Options": "DENY",
    "Referrer-Policy": "no-referrer",
    "Cross-Origin-Opener-Policy": "same-origin",
    "Cross-Origin-Resource-Policy": "same-origin",
    "Cache-Control": "no-store",
}
MOST_BYTES = 64_000_000  # bytes of a request; a table of a million numbers has some 10 million


class Guard:
    """The hosts under which a server is known, and its token."""

    def __init__(self, port: int) -> None:
        self.hosts = {f"127.0.0.1:{port}", f"localhost:{port}"}
        self.token = secrets.token_urlsafe(32)

    def refusal(self, method: str, is_file: bool, headers: Message) -> Optional[int]:
        """Returns the status with which a request is refused, or None."""
        host = headers.get("Host")
        if host not in self.hosts:
            return 421
        if not self.is_of_page(method, headers, host) and not (is_file and opens_a_window(headers)):
            return 403
        if is_file:
            return None
        if not hmac.compare_digest(str(headers.get("Authorization", "")).encode(), f"Bearer {self.token}".encode()):
            return 401
        if method == "POST" and headers.get("Content-Type") != "application/json":
            return 415
        if method == "POST" and not 0 <= length_in(headers.get("Content-Length")) <= MOST_BYTES:
            return 413
        return None

    def is_of_page(self, method: str, headers: Message, host: Optional[str]) -> bool:
        """Returns whether a request comes from the page of this server, or from no page at all."""
        origin = headers.get("Origin")
        if origin is None and method == "POST" or origin is not None and origin != f"http://{host}":
            return False
        return headers.get("Sec-Fetch-Site", "same-origin") in ("same-origin", "none")


def opens_a_window(headers: Message) -> bool:
    """Returns whether a request opens a page in a window of its own; a page within another one has another destination."""
    return headers.get("Sec-Fetch-Mode") == "navigate" and headers.get("Sec-Fetch-Dest") == "document" and "Origin" not in headers


def length_in(text: Optional[str]) -> int:
    """Returns the number in a header, or -1 if it is none."""
    return int(text) if text and len(text) < 20 and text.isascii() and text.isdigit() else -1
