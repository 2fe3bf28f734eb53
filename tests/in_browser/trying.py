"""What-ifs: changes beside the sheet, side by side, kept or given up."""

from __future__ import annotations

from typing import List

from .benches import Bench
from .sheets import PLAN, Page, Test

EDITS = PLAN + "".join(f"DEMAND[1;1]←{number}\n" for number in range(2010))


def begin(page: Page) -> None:
    """Begins a what-if from the page."""
    before = page.run("return aplsheet.desk")
    page.click("#whatif")
    page.wait("return aplsheet.desk > arguments[0] && aplsheet.version >= 0 && !document.getElementById('banner').hidden", before)


def edit(page: Page, item: str) -> None:
    """Edits the first cell of DEMAND, and waits until the page shows that it differs from the sheet."""
    page.click(page.cell("DEMAND", 1, 1))
    page.press(item, "Enter")
    page.wait("const cell = document.querySelector('[data-name=DEMAND] td'); return cell.textContent === arguments[0] && cell.title === 'in the sheet: 120'", item)


def given_up_and_kept(bench: Bench) -> None:
    """Cells that differ are marked; the sheet stays until the changes are kept, as one change."""
    page = bench.page()
    page.until("TOTAL", [["395", "150", "390"]])
    begin(page)
    edit(page, "60")
    assert bench.sheet.see("ALL") == ["935"] and bench.sheet.see("ALL", 1) == ["875"]
    page.wait("return document.querySelector('[data-name=TOTAL] td.differs')?.textContent === '335'")
    page.click("#discard")
    page.until("TOTAL", [["395", "150", "390"]])
    begin(page)
    edit(page, "60")
    edit(page, "90")
    page.click("#keep")
    page.wait("return aplsheet.desk === 0 && aplsheet.version >= 0")
    page.until("TOTAL", [["365", "150", "390"]])
    assert page.text("#history li") == "what-if of 2 changes"
    page.press("Control+z")
    page.until("TOTAL", [["395", "150", "390"]])


def side_by_side(bench: Bench) -> None:
    """Up to eight what-ifs stand beside each other, with a table of chosen names in each."""
    page = bench.page()
    for item in ("60", "90"):
        begin(page)
        edit(page, item)
    page.click("#compare")
    page.wait("return [...document.querySelectorAll('#comparison td')].map((cell) => cell.textContent).join() === '935,875,905'")
    assert page.run("return [...document.querySelectorAll('#comparison td.differs')].length") == 2
    bench.sheet.line("DEMAND[2;2]←31", 1)
    page.wait("return [...document.querySelectorAll('#comparison td')].map((cell) => cell.textContent).join() === '935,876,905'")
    page.run("aplsheet.set('TOTAL', { compared: true })")
    page.wait("return document.querySelector('#comparison tbody th').textContent === 'TOTAL' && document.querySelector('#comparison td').textContent === '395  150  390'")
    page.click("#tab-list button:nth-of-type(2)")
    page.wait("return aplsheet.desk === 1 && document.querySelector('[data-name=DEMAND] td').textContent === '60'")
    for _ in range(6):
        bench.sheet.answer("whatif", desk=0, do="begin")
    assert "there are 8 what-ifs already" in bench.sheet.answer("whatif", desk=0, do="begin")["notes"][0]
    bench.sheet.answer("whatif", desk=1, do="drop")
    page.wait("return aplsheet.desk === 0 && aplsheet.version >= 0")  # another window gave it up
    page.until_text("#message", "this what-if was ended in another window")


def kept_beside_changes(bench: Bench) -> None:
    """A what-if whose changes are refused goes on; one beside a changed sheet is kept with a note."""
    sheet = bench.sheet
    sheet.answer("whatif", desk=0, do="begin")
    sheet.line("EXTRA←ALL+1", 1)
    sheet.line("ALL←EXTRA+1")
    refused = sheet.answer("whatif", desk=1, do="keep")
    assert refused["error"] == "NOT DONE" and sheet.see("EXTRA", 1) == ["936"] and sheet.see("ALL") == "VALUE ERROR", refused
    sheet.line("]undo")
    kept = sheet.answer("whatif", desk=1, do="keep")
    assert kept["notes"] == ["the sheet itself was changed too since this what-if began"] and sheet.see("EXTRA") == ["936"], kept


def copies(bench: Bench) -> None:
    """A what-if of a sheet with thousands of edits is made from its present items, and shows the same."""
    sheet = bench.sheet
    sheet.answer("whatif", desk=0, do="begin")
    names = ["DEMAND", "PRODUCT", "TOTAL", "SHARE", "LATE"]
    assert [sheet.see(name) for name in names] == [sheet.see(name, 1) for name in names]
    assert sheet.see("DEMAND[1;1]", 1) == ["2009"]
    undo = sheet.line("]undo", 1)
    assert undo["notes"] == ["there is no change to take back in this what-if"], undo


def tests() -> List[Test]:
    paged = [Test(call, PLAN) for call in (given_up_and_kept, side_by_side)]
    return [*paged, Test(kept_beside_changes, PLAN, False), Test(copies, EDITS, False)]
