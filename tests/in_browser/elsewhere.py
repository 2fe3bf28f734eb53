"""The page in Firefox, in one test of its main parts."""

from __future__ import annotations

from typing import List

from . import firefox
from .benches import ELSEWHERE, Bench
from .sheets import PLAN, Page, Test


FAULTS = """window.faults = [];
    for (const kind of ['error', 'unhandledrejection']) addEventListener(kind, (event) => faults.push(String(event.message ?? event.reason)))"""


def in_firefox(bench: Bench) -> None:
    """In Firefox too, names are shown, cells edited, rows inserted, lines entered, arrays plotted, changes taken back, and what-ifs kept."""
    browser = firefox.Firefox()
    try:
        page = Page(browser, bench.sheet)
        page.run(FAULTS)
        page.until("TOTAL", [["395", "150", "390"]])
        page.click(page.cell("DEMAND", 2, 3))
        page.press("5", "0", "Enter")
        page.until("TOTAL", [["395", "155", "390"]])
        page.press("Insert")
        page.until("DEMAND", [["120", "80", "40", "95", "60"], ["30", "30", "50", "20", "25"], ["0"] * 5, ["75", "60", "60", "90", "105"]])
        page.press("Control+z")
        page.until("TOTAL", [["395", "155", "390"]])
        page.press("Control+k", "W`[+`/DEMAND", "Enter")
        page.until("W", [["225", "170", "150", "205", "190"]])
        page.run("aplsheet.set('TOTAL', { mode: 'plot' })")
        page.wait("return document.querySelectorAll('[data-name=TOTAL] .bar').length === 3")
        page.click("#whatif")
        page.wait("return aplsheet.desk === 1 && aplsheet.version >= 0 && !document.getElementById('banner').hidden")
        page.click(page.cell("DEMAND", 1, 1))
        page.press("60", "Enter")
        page.until_value("ALL", "880")
        page.click("#keep")
        page.wait("return aplsheet.desk === 0 && aplsheet.version >= 0")
        page.until_value("ALL", "880")
        bench.sheet.line("DEMAND[1;1]←70")
        page.until_value("ALL", "890")  # an event of another client
        page.press("Control+s")
        page.until_text("#status", "saved in plan.apl")
        found = page.run("return window.faults"), page.run(ELSEWHERE)
        assert found == ([], []), found
    finally:
        browser.close()


def tests() -> List[Test]:
    if not firefox.PROGRAM:
        print("there is no firefox-esr: the test of the page in Firefox is left out")
        return []
    return [Test(in_firefox, PLAN, False)]
