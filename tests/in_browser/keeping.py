"""Files: Save, Download, tables and scripts that the page reads, and a file that changed on the disk."""

from __future__ import annotations

import base64
from typing import List

from .benches import Bench
from .sheets import DEMAND, PLAN, TOP, Sheet, Test, has_workbooks, python_of_server


def saved(bench: Bench) -> None:
    """Save writes the file, with the settings of panels as comments, and another server reads both."""
    page = bench.page()
    page.until("TOTAL", [["395", "150", "390"]])
    page.click(page.cell("DEMAND", 1, 1))
    page.press("121", "Enter")
    page.until("TOTAL", [["396", "150", "390"]])
    page.run("aplsheet.set('TOTAL', { mode: 'plot' })")
    page.wait("return document.querySelectorAll('[data-name=TOTAL] .bar').length === 3")
    page.until_text("#saved", "not saved")
    page.press("Control+s")
    page.wait("return document.getElementById('saved').textContent === '' && document.getElementById('status').textContent.startsWith('saved')")
    text = bench.sheet.file.read_text("utf-8")
    assert "121" in text and text.endswith('LATE←(TOTAL>200)/TOTAL\n⍝ view TOTAL {"mode": "plot"}\n'), text
    page.enter("DEMAND[1;1]←122")
    page.run("aplsheet.set('TOTAL', { mode: 'table' }); aplsheet.set('ALL', { hidden: true })")
    page.press("Control+s")
    page.wait("return document.getElementById('saved').textContent === ''")
    text = bench.sheet.file.read_text("utf-8")
    assert text.count("⍝ view") == 2 and '⍝ view TOTAL {"mode": "table"}\n' in text and "122" in text, text
    bench.allows_an_end()
    with Sheet(bench.program, text) as other:
        again = bench.page(other)
        again.wait("return document.querySelector('[data-name=ALL]').hidden && !document.querySelector('[data-name=TOTAL]').hidden")
        assert other.see("TOTAL") == ["397 150 390"]


def changed_on_disk(bench: Bench) -> None:
    """A file that someone else changed is not overwritten before the person says so; it is kept then."""
    page = bench.page()
    page.enter("DEMAND[1;1]←121")
    bench.sheet.file.write_text("A←1 ⍝ of another\n", "utf-8")
    page.press("Control+s")
    page.until_text("#message", "plan.apl was changed by someone else")
    assert bench.sheet.file.read_text("utf-8") == "A←1 ⍝ of another\n"
    page.click("#message button[title='Replace the file']")
    page.until_text("#status", "saved in plan.apl")
    assert "121" in bench.sheet.file.read_text("utf-8")
    assert (bench.sheet.folder / "plan.apl~").read_text("utf-8") == "A←1 ⍝ of another\n"


def new_file(bench: Bench) -> None:
    """A file that is not there is made by the first Save."""
    page = bench.page()
    page.enter("A←5")
    assert not bench.sheet.file.exists()
    page.press("Control+s")
    page.until_text("#status", "saved in plan.apl")
    assert bench.sheet.file.read_text("utf-8") == "A←5\n"


def tables_and_scripts(bench: Bench) -> None:
    """A table and a script are read in the page; each is one change."""
    page = bench.page()
    page.run("aplsheet.files.open(new File(['week;hours\\nmo;5.50\\ntu;-7.25\\n'], 'hours.csv'))")
    page.wait("return document.getElementById('table').open")
    assert page.run("return ['header', 'labelled'].map((id) => document.getElementById(`table-${id}`).checked)") == [True, True]
    page.click("#table .primary")
    page.until("HOURS", [["5.50"], ["−7.25"]])
    page.wait("return [...document.querySelectorAll('[data-name=HOURS] tr')].at(-1).querySelector('th.name')?.textContent === 'tu'")
    page.run("aplsheet.files.open(new File([')DATA Z←1 2\\nZ2←Z×2\\n]load x\\nZ+\\n'], 'more.apl'))")
    page.until("Z2", [["2", "4"]])
    page.until_text("#message", "more.apl:4: SYNTAX ERROR")
    page.until_text("#message", "more.apl:3: lines that begin with ] are for the terminal")
    page.press("Control+z", "Control+z")
    page.wait("return !document.querySelector('[data-name=Z2]') && !document.querySelector('[data-name=HOURS]')")
    page.run("aplsheet.files.open(new File(['1,2\\n3,x\\n'], 'bad.csv'))")
    page.wait("return document.getElementById('table').open")
    page.click("#table .primary")
    page.until_text("#message", "bad.csv: record 2 field 2 is no whole number")


def workbooks(bench: Bench) -> None:
    """The sheet is downloaded as a workbook with its labels, and a sheet of a workbook is read: whole, or a block of its cells."""
    page = bench.page()
    page.until("TOTAL", [["395", "150", "390"]])
    folder = bench.sheet.folder / "downloads"
    folder.mkdir()
    page.use().devtools("Browser.setDownloadBehavior", behavior="allow", downloadPath=str(folder))
    page.run("window.kept = null; const make = URL.createObjectURL; URL.createObjectURL = (blob) => ((window.kept = blob), make(blob))")
    page.click("#book")
    page.wait("return window.kept")
    page.run("aplsheet.files.open(new File([window.kept], 'again.xlsx'))")
    page.wait("return document.getElementById('table').open")
    titles = page.run("return [...document.getElementById('table-sheet').options].map((option) => option.value)")
    assert titles == ["DEMAND", "TOTAL", "ALL", "LATE", "Formulas"], titles  # SHARE shows an error, and PRODUCT is labels
    assert page.run("return ['header', 'labelled'].map((id) => document.getElementById(`table-${id}`).checked)") == [False, True]
    page.click("#table .primary")
    page.until("AGAIN", DEMAND)
    page.until("AGAIN_ROWS", [["desk", "wall", "spot"]])
    page.wait("return [...document.querySelectorAll('[data-name=AGAIN] tr:not(.heads) th.name')].map((cell) => cell.textContent).join() === 'desk,wall,spot'")
    page.run("aplsheet.files.open(new File([window.kept], 'again.xlsx'))")
    page.wait("return document.getElementById('table').open")
    page.run("document.getElementById('table-range').value = 'C2:D3'; document.getElementById('table-labelled').checked = false")
    page.click("#table .primary")
    page.until("AGAIN_", [["30", "45"], ["60", "60"]])
    page.run("aplsheet.files.open(new File([window.kept], 'some.xlsx'))")
    page.wait("return document.getElementById('table').open")
    page.run("document.getElementById('table-columns').value = '3,5-6'")
    page.click("#table .primary")
    page.until("SOME", [["80", "95", "60"], ["30", "20", "25"], ["60", "90", "105"]])
    page.press(*["Control+z"] * 3)
    page.wait("return !document.querySelector('[data-name=AGAIN]')")


def refused_workbooks(bench: Bench) -> None:
    """A workbook with merged cells or with a text among the numbers is refused, with the cell; so is a file that is none."""
    page = bench.page()
    raw = base64.b64encode((TOP / "tests/workbooks/libreoffice.xlsx").read_bytes()).decode()
    script = "aplsheet.files.open(new File([Uint8Array.from(atob(arguments[0]), (sign) => sign.charCodeAt(0))], 'Preise.xlsx'))"
    for sheet, message in (("Zwei Worte", "is merged with other cells"), ("Fehler", "Preise.xlsx: Fehler!")):
        page.run(script, raw)
        page.wait("return document.getElementById('table').open")
        page.run("const choice = document.getElementById('table-sheet'); choice.value = arguments[0]; choice.dispatchEvent(new Event('change'))", sheet)
        page.run("for (const id of ['header', 'labelled']) document.getElementById(`table-${id}`).checked = false")
        page.click("#table .primary")
        page.until_text("#message", message)
    page.run("aplsheet.files.open(new File(['PK nothing'], 'none.xlsx'))")
    page.until_text("#message", "none.xlsx is no workbook (.xlsx)")


def recovered(bench: Bench) -> None:
    """A page offers the sessions that were not saved: it goes on with one, and forgets another one after a question."""
    for number, item in enumerate(["121", "122"]):
        with Sheet(bench.program, PLAN) as other:
            other.line(f"DEMAND[1;1]←{item}")
            other.process.kill()
            other.process.wait()
            for log in (other.folder / "aplsheet").glob("session-*.apl"):
                text = log.read_text("utf-8").replace(str(other.file), str(bench.sheet.file))
                (bench.sheet.folder / "aplsheet" / f"session-20260101-00000{number}-test.apl").write_text(text, "utf-8")
    with Sheet(bench.program, PLAN, folder=bench.sheet.folder) as sheet:
        page = bench.page(sheet)
        page.until("TOTAL", [["395", "150", "390"]])
        page.wait("return document.querySelectorAll('#left li').length === 2")
        page.until_text("#left li", "1 change since ")
        page.click("#left li:nth-child(2) button:nth-of-type(2)")
        page.until_text("#message", "FORGET IT?")
        page.click("#message button[title='Remove its log']")
        page.wait("return document.querySelectorAll('#left li').length === 1")
        page.enter("DEMAND[1;1]←5")
        page.click("#left li button")
        page.until_text("#message", "this sheet has changes that are not saved")
        page.press("Control+z")
        page.until("TOTAL", [["395", "150", "390"]])
        page.click("#left li button")
        page.until("TOTAL", [["397", "150", "390"]])
        page.wait("return document.getElementById('left').hidden && document.getElementById('saved').textContent === 'not saved'")
        page.press("Control+z")
        page.until("TOTAL", [["395", "150", "390"]])
        page.press("Control+y", "Control+s")
        page.until_text("#status", "saved in plan.apl")
        assert "122" in sheet.file.read_text("utf-8")
        bench.allows_an_end()


def download(bench: Bench) -> None:
    """Download gives the lines of the sheet to the browser."""
    page = bench.page()
    page.enter("DEMAND[1;1]←121")
    page.run("window.kept = null; const make = URL.createObjectURL; URL.createObjectURL = (blob) => ((window.kept = blob), make(blob))")
    folder = bench.sheet.folder / "downloads"
    folder.mkdir()
    page.use().devtools("Browser.setDownloadBehavior", behavior="allow", downloadPath=str(folder))
    page.click("#download")
    page.wait("return window.kept")
    script = "const then = arguments[0]; window.kept.arrayBuffer().then((raw) => then(btoa(String.fromCharCode(...new Uint8Array(raw)))))"
    text = base64.b64decode(page.use().later(script)).decode()
    assert text.startswith(")DATA DEMAND←1 5⍴121 80 40 95 60\n") or ")DATA DEMAND←3 5⍴121" in text, text
    assert text.endswith("LATE←(TOTAL>200)/TOTAL\n"), text


def kept_in_the_log(bench: Bench) -> None:
    """A server that is killed loses no accepted line: the next session offers them."""
    bench.sheet.line("DEMAND[1;1]←121")
    bench.sheet.process.kill()
    bench.sheet.process.wait()
    logs = [path.read_text("utf-8") for path in (bench.sheet.folder / "aplsheet").glob("session-*.apl")]
    assert len(logs) == 1 and logs[0].endswith("DEMAND[1;1]←121\n"), logs


def tests() -> List[Test]:
    calls = [saved, changed_on_disk, tables_and_scripts, download, recovered]
    if has_workbooks(python_of_server()):
        calls += [workbooks, refused_workbooks]
    else:
        print("no Python here has openpyxl: the tests of workbooks are left out")
    return [*(Test(call, PLAN) for call in calls), Test(new_file, None), Test(kept_in_the_log, PLAN, False)]
