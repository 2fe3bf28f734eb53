"""Changes by the page: cells, rows, paste, lines and symbols; several windows of one sheet."""

from __future__ import annotations

import random
import threading
from typing import Any, List

from sheet.program import Program

from .benches import Bench
from .sheets import DEMAND, PLAN, Test

PRICES = ")DATA P←2 2⍴1250 399 123456789 ¯5 ⍝ in units of 0.01\nT←+/,P ⍝ in units of 0.01\n)DATA V←5000⍴⍳5000\n"
WIDE = ")DATA W←120 60⍴0\nT←+/W\nALL←+/T\n"


def edit_in_two_windows(bench: Bench) -> None:
    """A change in one window is seen in the other; changed cells are marked, and cost and time told. Undo and redo hold for both."""
    one, two = bench.page(), bench.page()
    one.until("TOTAL", [["395", "150", "390"]])
    one.click(one.cell("DEMAND", 2, 3))
    one.press("5", "0", "Enter")
    one.until("TOTAL", [["395", "155", "390"]])
    one.wait("return /^DEMAND\\[2;3\\]←50 · cost \\d+ items · 5 names reached · \\d+ ms$/.test(document.getElementById('status').innerText)")
    assert one.run("return [...document.querySelectorAll('[data-name=TOTAL] td.changed')].map((cell) => cell.textContent)") == ["155"]
    two.until("TOTAL", [["395", "155", "390"]])
    two.until_text("#status", "changed elsewhere: DEMAND[2;3]←50")
    two.press("Control+z")
    one.until("TOTAL", [["395", "150", "390"]])
    one.press("Control+y")
    two.until("TOTAL", [["395", "155", "390"]])


def changed_meanwhile(bench: Bench) -> None:
    """An edit of a cell that another window changed meanwhile is refused, with a message that has both items."""
    page = bench.page()
    page.until("TOTAL", [["395", "150", "390"]])
    page.click(page.cell("DEMAND", 2, 3))
    page.press("F2")
    bench.sheet.line("DEMAND[2;3]←46")
    page.until("TOTAL", [["395", "151", "390"]])
    page.press("9", "Enter")
    page.until_text("#message", "DEMAND[2;3] was changed meanwhile: it is 46, and this window showed 45")
    assert bench.sheet.see("TOTAL") == ["395 151 390"]
    page.press("Up", "7", "Enter")
    page.until("TOTAL", [["395", "112", "390"]])


def refused(bench: Bench) -> None:
    """A refused change leaves the cell unchanged, and the message has the notes of the terminal."""
    page = bench.page()
    page.until("TOTAL", [["395", "150", "390"]])
    page.click(page.cell("DEMAND", 1, 1))
    page.press("2.5", "Enter")
    page.until_text("#message", "no decimal point")
    page.until("DEMAND", DEMAND)
    page.click(page.cell("TOTAL", 1, 1))
    page.press("5")
    page.until_text("#message", "TOTAL is a formula, +/DEMAND")
    page.enter("TOTAL←ALL")
    page.until_text("#message", "TOTAL → ALL → TOTAL")
    page.enter("D2←'a")
    page.until_text("#message", "D2←'a\n   ∧")
    page.enter("X←TOTALS+1")
    page.until_text("[data-name=X] .error", "TOTALS is not there; is TOTAL meant?")
    page.enter("1+TOTALS")
    page.until_text("#message", "TOTALS is not there; is TOTAL meant?")
    page.enter("]why X")
    page.until_text("#message pre", "reads    TOTALS  is not there")


def line_and_symbols(bench: Bench) -> None:
    """Backquote keys, the bar of symbols and completion work in the line; an expression stays as a panel that follows."""
    page = bench.page()
    page.click("#line")
    page.press("W", "`", "[", "+", "`", "/", "DEM")
    page.wait("return document.getElementById('choices').innerText === 'DEMAND'")
    page.press("Tab", "Enter")
    page.until("W", [["225", "170", "145", "205", "190"]])
    page.click("[aria-label='ceiling / maximum']")
    page.press("/DEMAND", "Enter")
    page.until("⌈/DEMAND", [["120", "45", "105"]])
    page.click(page.cell("DEMAND", 1, 1))
    page.press("500", "Enter")
    page.until("⌈/DEMAND", [["500", "45", "105"]])
    page.use().call("POST", "refresh", {})
    page.until("⌈/DEMAND", [["500", "45", "105"]])  # kept when the window is loaded again
    page.click("#line")
    page.press("Up", "Up")
    assert page.run("return document.getElementById('line').value") == "W←+⌿DEMAND"
    page.enter(")COST")
    assert page.text("#message pre").isdigit()


def rows_text_and_markup(bench: Bench) -> None:
    """Text is never markup; rows are added and filled; a longer text makes its rows wider."""
    page = bench.page()
    page.enter(")DATA WHO←2 28⍴'<img src=x onerror=alert(1)>'")
    page.until("WHO", [["<img src=x onerror=alert(1)>"] * 2])
    page.enter("T9←1 ⍝ <script>alert(2)</script>")
    page.until_text("[data-name=T9] .formula", "<script>")
    assert page.run("return document.querySelectorAll('#panels img, #panels script').length") == 0
    page.click(page.cell("WHO", 1, 2))
    page.press("it's", "Enter")
    page.until("WHO", [["<img src=x onerror=alert(1)>", "it's".ljust(28)]])  # the answer; the typed text has no blanks behind it
    page.click("[data-name=DEMAND] [aria-label$='a new row']")
    page.wait("return document.querySelector('[data-name=DEMAND] tr:last-child .cursor') && document.querySelectorAll('[data-name=DEMAND] tr').length === 5")
    page.press("9", "Tab", "8", "Enter")
    page.until("TOTAL", [["395", "150", "390", "17"]])
    page.click("[data-name=PRODUCT] [aria-label$='a new row']")
    page.wait("return document.querySelector('[data-name=PRODUCT] td:nth-of-type(4).cursor') && document.activeElement.closest('[data-name=PRODUCT]')")
    page.press("floor lamp", "Enter")
    page.until("PRODUCT", [["desk      ", "wall      ", "spot      ", "floor lamp"]])
    assert bench.sheet.see("⍴PRODUCT") == ["4 10"]
    page.press(*["Control+z"] * 3)
    page.until("TOTAL", [["395", "150", "390", "9"]])


def rows_in_and_out(bench: Bench) -> None:
    """Rows are deleted and inserted by keys and by the menu, each as one change with its undo; a row that another window took is not hit."""
    page = bench.page()
    page.until("TOTAL", [["395", "150", "390"]])
    page.click(page.cell("DEMAND", 2, 1))
    page.press("Shift+Down", "Control+Delete")
    page.until("DEMAND", DEMAND[:1])
    assert page.text("#history li") == "DEMAND: 2 rows deleted"
    page.until_text("#status", "DEMAND: 2 rows deleted")
    page.press("Control+z")
    page.until("DEMAND", DEMAND)
    page.click(page.cell("DEMAND", 2, 3))
    page.press("Insert")
    page.until("DEMAND", [DEMAND[0], ["0"] * 5, *DEMAND[1:]])
    page.press("7", "Enter")
    page.until("DEMAND", [DEMAND[0], ["0", "0", "7", "0", "0"], *DEMAND[1:]])
    page.until("TOTAL", [["395", "7", "150", "390"]])
    page.press(*["Control+z"] * 2)
    page.until("DEMAND", DEMAND)
    page.click(page.cell("PRODUCT", 1, 2))
    page.click("[data-name=PRODUCT] summary")
    page.run("[...document.querySelectorAll('[data-name=PRODUCT] .menu button')].find((each) => each.textContent === 'Delete 1 row').click()")
    page.until("PRODUCT", [["desk", "spot"]])
    page.press("Control+Delete")
    page.until("PRODUCT", [["desk"]])
    page.press("Control+Delete")
    page.until_text("[data-name=PRODUCT] .body", "empty")
    page.press(*["Control+z"] * 3)
    page.until("PRODUCT", [["desk", "wall", "spot"]])
    told = bench.sheet.answer("rows", desk=0, do="delete", name="DEMAND", first=1, count=1, length=4)
    assert told["notes"] == ["DEMAND was changed meanwhile: it has 3 rows, and this window showed 4"], told
    told = bench.sheet.answer("rows", desk=0, do="delete", name="TOTAL", first=1, count=1, length=3)
    assert told["notes"] == ["TOTAL is a formula, and no data that can be edited"], told


def rows_of_prices(bench: Bench) -> None:
    """Rows with a unit keep it, and their undo has the former items; so do rows of thousands, and items of a vector."""
    sheet = bench.sheet
    assert "error" not in sheet.answer("rows", desk=0, do="delete", name="P", first=1, count=1, length=2)
    assert sheet.see("P") == ["123456789 ¯5"]
    assert [info["decimals"] for info in sheet.answer("begin", desk=0)["names"]] == [2, 2, 0]
    sheet.line("]undo")
    assert sheet.see(",P") == ["1250 399 123456789 ¯5"]
    assert "error" not in sheet.answer("rows", desk=0, do="insert", name="V", first=5001, count=3000, length=5000)
    assert sheet.see("⍴V") == ["8000"] and sheet.see("+/V") == ["12502500"] and sheet.see("V[5000 5001]") == ["5000 0"]
    assert "error" not in sheet.answer("rows", desk=0, do="delete", name="V", first=2, count=4999, length=8000)
    assert sheet.see("+/V") == ["1"]
    sheet.line("]undo")
    sheet.line("]undo")
    assert sheet.see("⍴V") == ["5000"] and sheet.see("+/V") == ["12502500"]


def paste(bench: Bench) -> None:
    """A block from a spreadsheet is one change; if a cell of it is refused, nothing is changed."""
    page = bench.page()
    page.until("TOTAL", [["395", "150", "390"]])
    page.click(page.cell("DEMAND", 2, 2))
    page.paste("1\t-2\r\n3\t1,000\r\n")
    pasted = [DEMAND[0], ["30", "1", "−2", "20", "25"], ["75", "3", "1000", "90", "105"]]
    page.until("DEMAND", pasted)
    assert page.text("#history li") == "DEMAND: 4 cells"
    page.paste("1\t2\t3\t4\t5\t6")
    page.until_text("#message", "DEMAND[2;6] is not there: INDEX ERROR")
    page.paste("1\tfive")
    page.until_text("#message", "DEMAND[2;3] takes a whole number, and not five")
    page.paste("1\t99999999999999999999")
    page.until_text("#message", "DEMAND[2;3] is beyond 64 bits")
    page.until("DEMAND", pasted)
    page.press("Control+z")
    page.until("TOTAL", [["395", "150", "390"]])
    page.press("Control+a", "Delete")
    page.until("TOTAL", [["0", "0", "0"]])


def paste_of_thousands(bench: Bench) -> None:
    """Thousands of cells are one change of few lines, which is taken back as one."""
    page = bench.page()
    page.until_value("ALL", "0")
    page.click(page.cell("W", 1, 1))
    page.paste("\n".join("\t".join(str(row + column) for column in range(60)) for row in range(100)))
    page.until_value("ALL", str(sum(row + column for row in range(100) for column in range(60))).replace("474000", "474,000"))
    assert page.text("#history li") == "W: 6000 cells" and bench.sheet.see("W[100;60]") == ["158"]
    page.paste("\n".join("\t".join("1" for _ in range(61)) for _ in range(100)))
    page.until_text("#message", "W[1;61] is not there")
    page.press("Control+z")
    page.until_value("ALL", "0")
    page.press("Control+y")
    page.until_value("ALL", "474,000")


def copy(bench: Bench) -> None:
    """Selected cells are copied as other programs read them, also where not all of them are in sight; a copy is pasted elsewhere."""
    page = bench.page()
    page.use().devtools("Browser.grantPermissions", permissions=["clipboardReadWrite", "clipboardSanitizedWrite"])
    page.enter("DEMAND[2;2]←¯7")
    page.until("TOTAL", [["395", "113", "390"]])
    page.click(page.cell("DEMAND", 1, 1))
    page.press("Shift+Right", "Shift+Down")
    page.until_text("#sum", "4 cells: sum 223, least −7, greatest 120")
    page.press("Control+c")
    page.until_text("#status", "copied")
    assert page.use().later("const then = arguments[0]; navigator.clipboard.readText().then(then, (fault) => then(String(fault)))") == "120\t80\n30\t-7"
    page.click(page.cell("DEMAND", 2, 4))
    page.press("Control+v")
    page.until("DEMAND", [["120", "80", "40", "95", "60"], ["30", "−7", "45", "120", "80"], ["75", "60", "60", "30", "−7"]])
    page.enter(")DATA LONG←1000⍴⍳1000")
    page.wait("return document.querySelector('[data-name=LONG] td')")
    page.click(page.cell("LONG", 1, 1))
    page.press("Control+Shift+End")
    page.run("document.getElementById('status').textContent = ''")
    page.press("Control+c")
    page.until_text("#status", "copied")
    text = page.use().later("const then = arguments[0]; navigator.clipboard.readText().then(then, (fault) => then(String(fault)))")
    assert text == "\n".join(map(str, range(1, 1001))), text[:80]


RANDOM = ["DEMAND[{row};{column}]←{value}", "LIMIT←{value}", "TOTAL←{value}++/DEMAND", "]undo", ")DATA EXTRA←{value} {row}", "HIGH←TOTAL>LIMIT"]
RANDOM += [")ROW EXTRA {value}", "EXTRA[{row}]←{value}", ")ERASE HIGH", "]redo", "LATE←(TOTAL>{value})/TOTAL", "DEMAND[{row};{column}]←{value}"]
SEND = "const then = arguments[1]; (async () => { for (const line of arguments[0]) await aplsheet.send(line); then(); })()"
VALUES = """return Object.fromEntries([...aplsheet.panels.values()].map((panel) => [panel.of, panel.body.querySelector('.error strong')?.textContent
    ?? [...panel.body.querySelectorAll('td, .single')].map((cell) => cell.textContent.replaceAll(',', '').replace('−', '¯')).join(' ')]))"""


def random_changes(bench: Bench) -> None:
    """During 200 random changes, half of them by another client, each panel shows the answer of the program; a replay of the lines does too."""
    page, source = bench.page(), random.Random(5)
    for _ in range(4):
        lines = [source.choice(RANDOM).format(row=source.randint(1, 3), column=source.randint(1, 5), value=source.randint(0, 999)) for _ in range(50)]
        other = threading.Thread(target=lambda: [bench.sheet.line(line) for line in lines[::2]])
        other.start()
        page.use().later(SEND, lines[1::2])
        other.join()
        page.wait("return aplsheet.version >= arguments[0]", bench.sheet.answer("look", desk=0, looks=[])["version"])
        page.use().later("const then = arguments[0]; aplsheet.queue.then(() => setTimeout(() => Promise.resolve(aplsheet.looking).then(() => then())))")
        names = [info["name"] for info in bench.sheet.answer("begin", desk=0)["names"]]
        assert page.run(VALUES) == {name: value_of(bench.sheet.see(name)) for name in names}
    program = Program([bench.program])
    program.environment["APLSHEET_TOLD"] = "1"
    program.start()
    program.ask_all(bench.sheet.answer("text", desk=0)["text"].split("\n"))
    replayed = dict(zip(names, program.ask_all(names)))
    program.stop()
    assert {name: " ".join(" ".join(lines).split()).partition(" IN ")[0] for name, lines in replayed.items()} == page.run(VALUES)


def value_of(told: Any) -> str:
    """Returns an answer to a look as the page writes it: an error, or items with blanks between."""
    return told if isinstance(told, str) else " ".join(" ".join(told).split())


def tests() -> List[Test]:
    calls = [edit_in_two_windows, changed_meanwhile, refused, line_and_symbols, rows_text_and_markup, rows_in_and_out, paste, copy, random_changes]
    return [*(Test(call, PLAN) for call in calls), Test(paste_of_thousands, WIDE), Test(rows_of_prices, PRICES, False)]
