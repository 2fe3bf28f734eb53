"""Requests that the server refuses, and the way in: neither other pages nor other accounts reach a sheet."""

from __future__ import annotations

import os
import re
import stat
import subprocess
import sys
import time
from pathlib import Path
from typing import Any, List, Tuple

from .benches import Bench
from .browser import SECONDS
from .sheets import TOP, Test

BROWSER = """#!/bin/sh
cp "${1#file://}" "$0.page"
stat -c %a "${1#file://}" > "$0.mode"
cat "/proc/$$/cmdline" "/proc/$PPID/cmdline" > "$0.told"
echo "${1#file://}" > "$0.path"
"""


def refusals(bench: Bench) -> None:
    """Each request that no page of this server makes gets its status, and no answer."""
    sheet, fine = bench.sheet, {"desk": 0}
    port, ask = sheet.port, sheet.ask
    own = f"http://127.0.0.1:{port}"
    cases: List[Tuple[int, Any]] = [
        (200, ask("/api/begin", fine)),
        (401, ask("/api/begin", fine, Authorization=None)),
        (401, ask("/api/begin", fine, Authorization="Bearer " + "x" * 43)),
        (401, ask("/api/begin", fine, Authorization=f"Bearer {sheet.token} ")),
        (401, ask("/api/begin", fine, Authorization=None, Cookie=f"token={sheet.token}")),
        (401, ask("/api/events?desk=0", Authorization=None)),
        (401, ask(f"/api/events?desk=0&token={sheet.token}", Authorization=None)),
        (421, ask("/api/begin", fine, Host="evil.example")),
        (421, ask("/api/begin", fine, Host=None)),
        (421, ask("/", Host=f"evil.example:{port}")),  # DNS rebinding: not even the page
        (421, ask("/api/begin", fine, Host=f"127.0.0.1:{port + 1}")),
        (421, ask("/api/begin", fine, Host="127.0.0.1")),
        (403, ask("/api/begin", fine, Origin="http://evil.example")),
        (403, ask("/api/begin", fine, Origin="null")),
        (403, ask("/api/begin", fine, Origin=f"http://127.0.0.1:{port + 1}")),  # another server of this machine
        (403, ask("/api/begin", fine, Origin=f"https://127.0.0.1:{port}")),
        (403, ask("/api/begin", fine, Origin=None)),
        (403, ask("/api/events?desk=0", Sec_Fetch_Site="cross-site")),
        (403, ask("/", Sec_Fetch_Site="same-site")),
        (403, ask("/main.js", Sec_Fetch_Site="cross-site", Sec_Fetch_Mode="no-cors", Sec_Fetch_Dest="script")),
        (403, ask("/", Sec_Fetch_Site="cross-site", Sec_Fetch_Mode="navigate", Sec_Fetch_Dest="iframe")),
        (200, ask("/", Sec_Fetch_Site="cross-site", Sec_Fetch_Mode="navigate", Sec_Fetch_Dest="document")),  # a link that opens the page
        (403, ask("/api/events?desk=0", Sec_Fetch_Site="cross-site", Sec_Fetch_Mode="navigate", Sec_Fetch_Dest="document")),
        (415, ask("/api/begin", fine, Content_Type="text/plain")),  # a form can send this
        (415, ask("/api/begin", fine, Content_Type="application/json; charset=utf-8")),
        (413, ask("/api/begin", method="POST", Origin=own, Content_Type="application/json", Content_Length="999999999")),
        (413, ask("/api/begin", method="POST", Origin=own, Content_Type="application/json", Content_Length="-1")),
        (413, ask("/api/begin", method="POST", Origin=own, Content_Type="application/json")),
        (501, ask("/api/begin", method="OPTIONS")),
        (501, ask("/api/begin", method="PUT")),
    ]
    wrong = [(place, wanted, got[0]) for place, (wanted, got) in enumerate(cases) if got[0] != wanted]
    assert not wrong, wrong


def bad_requests(bench: Bench) -> None:
    """Paths that lead elsewhere are not found; requests of other forms are refused, and the sheet stays."""
    ask, sheet = bench.sheet.ask, bench.sheet
    absent = ["/../view/guard.py", "/%2e%2e/view/guard.py", "//etc/passwd", "/style.css/x", "/index.html/", "/.hidden", "/api", "/x.js", "/..%2fview"]
    assert [ask(path)[0] for path in absent] == [404] * len(absent)
    assert ask("/api/none", {"desk": 0})[0] == 404
    for path, asked in [
        ("look", {"desk": 0, "looks": [{"of": "A←5"}]}),
        ("look", {"desk": 0, "looks": [{"of": ")ERASE ALL"}]}),
        ("look", {"desk": 0, "looks": 5}),
        ("look", {"desk": 0, "looks": [{"of": "ALL", "want": "all"}]}),
        ("look", {"looks": []}),
        ("look", {"desk": 0, "looks": [], "more": 1}),
        ("line", {"desk": 0, "text": "A←1\nB←2"}),
        ("line", {"desk": 0, "text": 5}),
        ("edit", {"desk": 0, "name": "DEMAND[1;1]←5 ⍝", "cells": [[[1], "5", None]], "text": False}),
        ("edit", {"desk": 0, "name": "DEMAND", "cells": [], "text": False}),
        ("edit", {"desk": 0, "name": "DEMAND", "cells": [[[1, 1], "5\n", None]], "text": False}),
        ("lines", {"desk": 0, "title": "t", "lines": ["]save /tmp/x"]}),
        ("lines", {"desk": 0, "title": "t", "lines": ["ALL"]}),
        ("table", {"desk": 0, "title": "t", "text": "1", "name": "1X", "header": False, "separator": ","}),
        ("whatif", {"desk": 0, "do": "all"}),
        ("save", {"file": "/tmp/elsewhere"}),
    ]:
        status, body, _ = ask(f"/api/{path}", asked)
        assert status == 400, (path, asked, status, body)
    assert ask("/api/look", b"{" * 100000)[0] == 400
    assert ask("/api/look", b"\xff\xfe")[0] == 400
    assert sheet.see("ALL") == ["935"] and sheet.answer("begin", desk=0)["history"]["saved"]


def headers(bench: Bench) -> None:
    """Each answer has the headers that keep other pages out."""
    for answer in (bench.sheet.ask("/"), bench.sheet.ask("/main.js"), bench.sheet.ask("/api/begin", {"desk": 0}), bench.sheet.ask("/", Host="x")):
        held = answer[2]
        policy = held["Content-Security-Policy"]
        assert all(part in policy for part in ("default-src 'none'", "script-src 'self'", "require-trusted-types-for 'script'", "frame-ancestors 'none'"))
        assert (held["X-Content-Type-Options"], held["Cache-Control"], held["Referrer-Policy"]) == ("nosniff", "no-store", "no-referrer")
        assert (held["Cross-Origin-Opener-Policy"], held["Cross-Origin-Resource-Policy"]) == ("same-origin", "same-origin")


def page_files(bench: Bench) -> None:
    """The page loads each of its modules at once, and each of its files is given out."""
    names = sorted(path.name for path in (TOP / "share/sheet/page").iterdir())
    page = bench.sheet.ask("/")[1].decode()
    modules = [name for name in names if name.endswith(".js") and name != "main.js"]
    assert re.findall(r'modulepreload" href="(.*?)"', page) == modules
    assert [bench.sheet.ask(f"/{name}")[0] for name in names] == [200] * len(names)


def no_files(bench: Bench) -> None:
    """No line of a page reads or writes a file: Save writes the file of the start, and no other."""
    before = sorted(os.listdir(bench.sheet.folder))
    lines = ["]save other.apl", "]load /etc/passwd", "]table T /etc/passwd", "]csv out.csv ALL", "]labels L /etc/passwd 1", "]off", "]recover", "]view", "] save x"]
    for line in lines:
        told = bench.sheet.line(line)
        assert told["error"] == "NOT DONE" and "is for the terminal" in told["notes"][0], told
    assert bench.sheet.line("]sav x")["notes"] == ["there is no ]sav; is ]save meant?"]
    assert sorted(os.listdir(bench.sheet.folder)) == before


def way_in(bench: Bench) -> None:
    """A browser is opened through a file that its owner alone can read; no argument list has the token, and the file goes at the end."""
    folder, sheet = bench.sheet.folder, bench.sheet
    stub = folder / "browser"
    stub.write_text(BROWSER)
    stub.chmod(0o755)
    words = [sys.executable, str(TOP / "bin/sheet"), "--web", "--program", bench.program]
    variables = {**sheet.environment, "BROWSER": f"{stub} %s", "DISPLAY": ":9"}
    with subprocess.Popen(words, stderr=subprocess.PIPE, env=variables, text=True) as process:
        assert process.stderr
        address = next(line for line in process.stderr if "http://" in line).split()[-1]
        token = address.partition("#")[2]
        end = time.monotonic() + SECONDS
        while not Path(f"{stub}.path").exists() and time.monotonic() < end:
            time.sleep(0.02)
        time.sleep(0.1)
        path = Path(Path(f"{stub}.path").read_text().strip())
        told = Path(f"{stub}.told").read_text() + Path(f"/proc/{process.pid}/cmdline").read_text()
        assert address in Path(f"{stub}.page").read_text() and Path(f"{stub}.mode").read_text() == "600\n"
        assert len(token) > 40 and token not in told and path.exists() and stat.S_IMODE(path.stat().st_mode) == 0o600
        process.terminate()
        assert process.wait(SECONDS) == 143
    assert not path.exists()


def through_the_file(bench: Bench) -> None:
    """The file leads a browser to the page, which begins."""
    from sheet.view.opening import PAGE

    file = bench.sheet.folder / "open.html"
    file.write_text(PAGE.format(address=bench.sheet.address))
    page = bench.page()
    page.browser.go(file.as_uri())
    page.wait("return window.aplsheet?.isBegun && location.protocol === 'http:'")


def without_the_token(bench: Bench) -> None:
    """An address without the token shows no sheet, and says which address does."""
    page = bench.page()
    page.browser.go("about:blank")
    page.browser.go(f"http://127.0.0.1:{bench.sheet.port}/")
    page.until_text("#message", "open the address that the terminal shows")
    assert page.run("return document.querySelectorAll('.panel').length") == 0
    bench.allows("401")


def tests() -> List[Test]:
    alone = [Test(call, needs_browser=False) for call in (refusals, bad_requests, headers, page_files, no_files, way_in)]
    return [*alone, Test(through_the_file), Test(without_the_token)]


