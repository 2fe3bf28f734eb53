"""The page for everyone: keys alone, readers of screens, contrast, small windows, zoom and print."""

from __future__ import annotations

from typing import List

from .benches import Bench
from .sheets import PLAN, Test

UNNAMED = """return [...document.querySelectorAll('button, input, select, [role=grid], summary')].filter((element) => element.offsetParent
    && !(element.innerText || '').trim() && !element.getAttribute('aria-label') && !element.labels?.length && !element.title).map((element) => element.outerHTML)"""

# The texts whose contrast with the ground below them is less than 4.5, and less than 3 for large ones.
CONTRAST = """
const parse = (color) => (color.match(/[\\d.]+/g) ?? []).map(Number);
const over = ([r, g, b, a = 1], below) => [r, g, b].map((part, at) => part * a + below[at] * (1 - a));
const linear = (part) => (part /= 255) <= 0.03928 ? part / 12.92 : ((part + 0.055) / 1.055) ** 2.4;
const light = ([r, g, b]) => 0.2126 * linear(r) + 0.7152 * linear(g) + 0.0722 * linear(b);
const ground = (element) => {
  const color = parse(getComputedStyle(element).backgroundColor);
  if (color.length === 3 || color[3] === 1) return color.slice(0, 3);
  const below = element.parentElement ? ground(element.parentElement) : [255, 255, 255];
  return color.length ? over(color, below) : below;
};
const found = [];
for (const element of document.querySelectorAll('body *')) {
  const style = getComputedStyle(element);
  const text = [...element.childNodes].filter((node) => node.nodeType === 3).map((node) => node.data.trim()).join('');
  if (!text || !element.offsetParent || style.visibility === 'hidden' || element.disabled || element.closest('svg, [disabled], option')) continue;
  const below = ground(element);
  const [one, other] = [light(over(parse(style.color), below)), light(below)].sort((a, b) => b - a);
  const ratio = (one + 0.05) / (other + 0.05);
  const size = parseFloat(style.fontSize);
  if (ratio < (size >= 24 || (size >= 18.7 && style.fontWeight >= 700) ? 3 : 4.5)) found.push(`${text.slice(0, 30)} ${ratio.toFixed(2)} ${element.className}`);
}
return found;
"""
OVERFLOW = "return document.documentElement.scrollWidth > innerWidth || ['.top', '#entry', 'footer'].some((id) => document.querySelector(id).scrollWidth > innerWidth + 1)"


def names_and_roles(bench: Bench) -> None:
    """Each control has a name, and a table is a grid with its size, its cursor and its selection."""
    page = bench.page()
    page.until("TOTAL", [["395", "150", "390"]])
    assert page.run(UNNAMED) == []
    grid = "document.querySelector('[data-name=DEMAND] [role=grid]')"
    held = page.run(f"return ['aria-rowcount', 'aria-colcount', 'aria-readonly', 'aria-label'].map((name) => {grid}.getAttribute(name))")
    assert held == ["4", "6", "false", "DEMAND"], held
    page.run(f"{grid}.focus()")
    page.press("Down", "Right", "Shift+Right", "Shift+Down")
    page.until_text("#sum", "4 cells: sum 195, least 30, greatest 60")
    assert page.run(f"return document.getElementById({grid}.getAttribute('aria-activedescendant')).getAttribute('aria-selected')") == "true"
    assert page.run("return [...document.querySelectorAll('[role=gridcell]')].every((cell) => cell.closest('[role=row]')?.closest('[role=grid]'))")


def keys_alone(bench: Bench) -> None:
    """Without a mouse: a name is bound, a cell edited, a panel plotted, a what-if begun, changed and kept, and the sheet saved."""
    page = bench.page()
    page.until("TOTAL", [["395", "150", "390"]])
    page.press("Control+k", "SCALE`[2", "Enter")
    page.until_value("SCALE", "2")
    page.press("Alt+Down")
    page.wait("return document.activeElement.closest('.panel')?.dataset.name === 'DEMAND'")
    page.press("Down", "Right", "7", "Enter")
    page.until("TOTAL", [["395", "127", "390"]])
    page.press("Alt+Down", "Alt+Down", "Shift+Tab", "Shift+Tab", "Shift+Tab")
    focus_and_press(bench, "[data-name=TOTAL] [data-mode=plot]")
    page.wait("return document.querySelectorAll('[data-name=TOTAL] .bar').length === 3")
    focus_and_press(bench, "#whatif")
    page.wait("return aplsheet.desk === 1 && aplsheet.version >= 0")
    page.press("Control+k", "SCALE`[3", "Enter")
    page.until_value("SCALE", "3")
    focus_and_press(bench, "#keep")
    page.wait("return aplsheet.desk === 0 && aplsheet.version >= 0")
    page.until_value("SCALE", "3")
    page.press("F1")
    page.wait("return document.getElementById('help').open")
    page.press("Escape", "Control+s")
    page.until_text("#status", "saved in plan.apl")


def focus_and_press(bench: Bench, selector: str) -> None:
    """Goes to an element by the Tab key alone, and presses Enter there."""
    page = bench.pages[-1]
    for _ in range(120):
        if page.run("return document.activeElement?.matches(arguments[0])", selector):
            page.press("Enter")
            return
        page.press("Tab")
    raise AssertionError(f"Tab does not lead to {selector}")


def contrast(bench: Bench) -> None:
    """Texts have the contrast of WCAG AA, in light and in dark, also in messages, menus, dialogs and what-ifs."""
    page = bench.page()
    page.enter(")DATA NEGATIVE←¯5 3")
    page.enter("HIDDEN←1")
    page.run("aplsheet.set('HIDDEN', { hidden: true })")
    page.click("#whatif")
    page.wait("return aplsheet.desk === 1 && aplsheet.version >= 0")
    page.enter("DEMAND[1;1]←5")
    page.click("#compare")
    page.wait("return document.querySelectorAll('#comparison td').length > 0")
    page.enter("BAD←'a")
    page.run("document.querySelector('[data-name=TOTAL] details').open = true")
    for scheme in ("light", "dark"):
        page.use().devtools("Emulation.setEmulatedMedia", features=[{"name": "prefers-color-scheme", "value": scheme}])
        page.wait(f"return matchMedia('(prefers-color-scheme: {scheme})').matches")
        time_for_colors(bench)
        assert page.run(CONTRAST) == [], (scheme, page.run(CONTRAST))
        page.run("document.getElementById('help').showModal()")
        assert page.run(CONTRAST) == [], (scheme, "help", page.run(CONTRAST))
        page.run("document.getElementById('help').close()")
    page.use().devtools("Emulation.setEmulatedMedia", features=[])


def time_for_colors(bench: Bench) -> None:
    """Waits until no animation of colors runs."""
    bench.pages[-1].wait("return document.getAnimations().length === 0")


def small_windows(bench: Bench) -> None:
    """At 1,280 by 720, on a tablet and at zoom 200 % nothing is cut off, and panels are as wide as the window at most."""
    page = bench.page()
    page.enter(")DATA WIDE←4 200⍴⍳1000")
    page.wait("return document.querySelector('[data-name=WIDE] td')")
    for width, height in ((1280, 720), (1024, 768), (768, 1024), (640, 360)):
        page.use().devtools("Emulation.setDeviceMetricsOverride", width=width, height=height, deviceScaleFactor=1, mobile=False)
        page.wait("return innerWidth === arguments[0]", width)
        page.wait("return [...document.querySelectorAll('.panel')].every((panel) => panel.getBoundingClientRect().right <= innerWidth)", what=f"panels within {width}")
        assert not page.run(OVERFLOW), (width, height)
    page.use().devtools("Emulation.clearDeviceMetricsOverride")


def printed(bench: Bench) -> None:
    """On paper stand the panels, and no buttons."""
    page = bench.page()
    page.use().devtools("Emulation.setEmulatedMedia", media="print")
    page.wait("return matchMedia('print').matches")
    assert page.run("return [...document.querySelectorAll('button')].filter((button) => button.offsetParent && !button.closest('h2, .body')).length") == 0
    assert page.run("return document.querySelectorAll('.panel').length") == 6
    page.use().devtools("Emulation.setEmulatedMedia", media="")


def tests() -> List[Test]:
    return [Test(call, PLAN) for call in (names_and_roles, keys_alone, contrast, small_windows, printed)]
