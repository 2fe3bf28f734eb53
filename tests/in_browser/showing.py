"""The contents of the page: tables with labels, numbers, errors, windows of large arrays, planes, plots, and decimals by the browser's language."""

from __future__ import annotations

from typing import List

from .benches import Bench
from .browser import Browser
from .sheets import DEMAND, PLAN, Page, Test

BIG = ")DATA M←1024 1024⍴⍳7919\nROWS←+/M\nALL←+/ROWS\n"
LONG = ")DATA V←1048576⍴(⍳997)×7\n"
PRICES = ")DATA P←2 2⍴1250 399 123456789 ¯5 ⍝ in units of 0.01\nT←+/,P ⍝ in units of 0.01\n"
TITLES = "return [...document.querySelectorAll(`[data-name='${arguments[0]}'] .heads th.name`)].map((cell) => cell.textContent)"
SIZES = "[...document.querySelectorAll('#names li')].map((entry) => entry.innerText.replace(/\\s+/g, ' ').trim()).join()"
LAST = "[...document.querySelectorAll(`[data-name=${arguments[0]}] td`)].at(-1)?.textContent"


def panels(bench: Bench) -> None:
    """Each name has a panel, with its formula, its comment, its error, and the labels that are known."""
    page = bench.page()
    page.until("DEMAND", DEMAND)
    page.until("TOTAL", [["395", "150", "390"]])
    page.until_value("ALL", "935")
    assert page.text("[data-name=TOTAL] .formula") == "+/DEMAND of each product"
    page.until_text("[data-name=SHARE] .error", "DOMAIN ERROR")
    page.wait(f"{TITLES}.join() === 'desk,wall,spot'", "TOTAL")  # the axis of DEMAND, which PRODUCT labels
    assert page.run(TITLES, "LATE") == []  # a selection has another axis
    page.enter("NEXT←SHARE+1")
    page.until_text("[data-name=NEXT] .error", "from SHARE")


def window_of_a_million(bench: Bench) -> None:
    """A large matrix has elements for its cells in sight alone; the last cell is reached, edited and shaded."""
    page = bench.page()
    page.wait("return document.querySelector('[data-name=M] td')?.textContent === '1'")
    page.click(page.cell("M", 3, 2))
    page.press("Control+End")
    page.wait(f"return {LAST} === arguments[1]", "M", str((1024 * 1024 - 1) % 7919 + 1))
    page.press("7", "Enter")
    page.wait(f"return {LAST} === '7'", "M")
    assert page.run("return document.querySelectorAll('[data-name=M] td').length") < 600
    assert sum(len(line.split()) for line in bench.sheet.see("M")) <= 8192
    page.run("aplsheet.set('M', { mode: 'shade', full: true })")
    page.wait("return document.querySelectorAll('[data-name=M] td[data-shade]').length > 200")
    page.run("aplsheet.set('M', { mode: 'plot' })")
    page.wait("return document.querySelectorAll('[data-name=M] rect.heat').length > 1000")


def longest_vector(bench: Bench) -> None:
    """A vector of the greatest length scrolls, and is plotted by its pieces."""
    page = bench.page()
    page.wait("return document.querySelector('[data-name=V] td')?.textContent === '7'")
    page.run("document.querySelector('[data-name=V] .grid').scrollTop = 4e6")
    page.wait("const row = document.querySelectorAll('[data-name=V] tr')[1]; return Math.abs(Number(row.innerText.split('\\t')[0]) - 524288) < 2000")
    page.run("aplsheet.set('V', { mode: 'plot' })")
    page.wait("return document.querySelector('[data-name=V] .band')?.getAttribute('points').split(' ').length > 250")


def planes(bench: Bench) -> None:
    """An array of more than two axes shows a plane, which is edited too."""
    page = bench.page()
    page.enter(")DATA C←2 3 2 2⍴⍳24")
    page.until("C", [["1", "2"], ["3", "4"]])
    page.run("const fields = document.querySelectorAll('[data-name=C] .planes input'); fields[1].value = 3; fields[1].dispatchEvent(new Event('change'))")
    page.until("C", [["9", "10"], ["11", "12"]])
    page.click(page.cell("C", 2, 1))
    page.press("7", "Enter")
    page.until("C", [["9", "10"], ["7", "12"]])
    assert bench.sheet.see("C[1;3;2;1]") == ["7"]


def plots(bench: Bench) -> None:
    """Few numbers are bars, several lines have a legend of labels, and a change moves them."""
    page = bench.page()
    page.run("aplsheet.set('TOTAL', { mode: 'plot' }); aplsheet.set('DEMAND', { mode: 'plot' })")
    page.wait("return document.querySelectorAll('[data-name=TOTAL] .bar').length === 3 && document.querySelectorAll('[data-name=DEMAND] .line').length === 3")
    page.wait("return [...document.querySelectorAll('[data-name=DEMAND] .legend')].map((text) => text.textContent).join() === 'desk,wall,spot'")
    page.enter("DEMAND[2;1]←1000")
    page.wait("return [...document.querySelectorAll('[data-name=TOTAL] .bar title')][1]?.textContent.endsWith('1120')")


def decimals(bench: Bench) -> None:
    """A name with a unit shows and takes decimals; other names take whole numbers."""
    page = bench.page()
    page.until("P", [["12.50", "3.99"], ["1,234,567.89", "−0.05"]])
    page.click(page.cell("P", 1, 2))
    page.press("1,004.5", "Enter")
    page.until("P", [["12.50", "1,004.50"], ["1,234,567.89", "−0.05"]])
    assert bench.sheet.see("P[1;2]") == ["100450"]
    page.until_value("T", "1,235,584.84")
    page.press("2.345", "Enter")
    page.until_text("#message", "no decimal point")
    page.until("P", [["12.50", "1,004.50"], ["1,234,567.89", "−0.05"]])
    page.press("Escape")
    page.click(page.cell("P", 1, 2))
    page.paste("1\r\n2.345\r\n")
    page.until_text("#message", "P[2;2] takes a number with at most 2 decimals, and not 2.345")
    page.until("P", [["12.50", "1,004.50"], ["1,234,567.89", "−0.05"]])


def german_numbers(bench: Bench) -> None:
    """A browser in German shows and takes numbers as Germans write them."""
    browser = Browser(language="de-DE")
    try:
        page = Page(browser, bench.sheet)
        page.until("P", [["12,50", "3,99"], ["1.234.567,89", "−0,05"]])
        page.click(page.cell("P", 2, 2))
        page.press("-1.000,5", "Enter")
        page.until("P", [["12,50", "3,99"], ["1.234.567,89", "−1.000,50"]])
        assert bench.sheet.see("P[2;2]") == ["¯100050"] and browser.log() == []
    finally:
        browser.close()


def labels_by_choice(bench: Bench) -> None:
    """The menu of a panel chooses labels of rows and columns, and the choice is kept for all pages."""
    page, other = bench.page(), bench.page()
    page.enter(")DATA WEEK←5 2⍴'w1w2w3w4w5'")
    page.wait("return [...document.querySelectorAll('[data-name=DEMAND] .heads th.name')].length === 5")
    page.run("aplsheet.set('DEMAND', { columns: '' })")
    other.wait(f"{TITLES}.length === 0", "DEMAND")
    page.run("aplsheet.set('DEMAND', { columns: 'WEEK', rows: '' })")
    other.wait(f"{TITLES}.join() === 'w1,w2,w3,w4,w5'", "DEMAND")


def sizes_of_names(bench: Bench) -> None:
    """The list of names follows the sizes and the errors that a change makes."""
    page = bench.page()
    page.until("DEMAND", DEMAND)
    page.enter(")ROW PRODUCT 'oven'")
    page.wait(f"return {SIZES}.includes('■ PRODUCT 4×4')")
    page.enter("TOTAL←+/DEMAND,1 2")
    page.wait(f"return {SIZES}.includes('ƒ TOTAL !')")


def find_a_name(bench: Bench) -> None:
    """The field above the names finds one; Enter goes to it."""
    page = bench.page()
    page.press("Control+Shift+f", "lat")
    page.wait("return [...document.querySelectorAll('#names li')].map((entry) => entry.innerText.trim()).length === 1")
    page.press("Enter")
    page.wait("return document.activeElement.closest('.panel')?.dataset.name === 'LATE'")
    page.run("aplsheet.set('LATE', { hidden: true })")
    page.wait("return document.querySelector('[data-name=LATE]').hidden")


def tests() -> List[Test]:
    plain = [Test(call, PLAN) for call in (panels, planes, plots, labels_by_choice, sizes_of_names, find_a_name)]
    large = [Test(window_of_a_million, BIG), Test(longest_vector, LONG)]
    return [*plain, *large, Test(decimals, PRICES), Test(german_numbers, PRICES)]
