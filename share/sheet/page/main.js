// The page begins here: the buttons and the keys.

import { ask } from "./client.js";
import { $ } from "./dom.js";
import { Files } from "./files.js";
import { plain } from "./numbers.js";
import { Sheet } from "./sheet.js";

const sheet = new Sheet();
const files = new Files(sheet);
window.aplsheet = Object.assign(sheet, { files }); // for tests

// Copies the items between two places, as other programs read them: at once if all are in sight, or else when the answer is there.
sheet.copy = async (panel, { top, left, bottom, right }, board) => {
  const text = panel.textOf({ top, left, bottom, right });
  if (text !== undefined) return board.setData("text/plain", text), sheet.status("copied");
  await copyAll(panel, { top, left, bottom, right }).catch((fault) => sheet.fail(fault));
};

async function copyAll(panel, { top, left, bottom, right }) {
  const [rows, columns] = [[top, bottom - top + 1], [left, right - left + 1]];
  const along = panel.isUpright ? rows : columns;
  const window = panel.isText ? [along, [0, 240]] : panel.isLine ? [along] : [rows, columns];
  const { looks } = await ask("look", { desk: sheet.desk, looks: [{ of: panel.of, plane: panel.plane, window }] });
  const { text, lines, error } = looks[0];
  if (error) return sheet.say(looks[0]);
  const fields = text ? lines.map((line) => [line.trimEnd()]) : lines.map((line) => line.trim().split(/ +/).map((item) => plain(item, panel.info.decimals)));
  const placed = panel.isUpright && !text ? fields[0].map((field) => [field]) : fields;
  await navigator.clipboard.writeText(placed.map((row) => row.join("\t")).join("\n"));
  sheet.status("copied");
}

const on = (id, act) => $(id).addEventListener("click", act);
on("undo", () => sheet.send("]undo"));
on("redo", () => sheet.send("]redo"));
on("stop", () => ask("stop", { desk: sheet.desk }).catch((fault) => sheet.fail(fault)));
on("keys", () => $("help").showModal());
on("print", () => print());

// Panels that are laid out anew may bring a scroll bar, and so another size: a frame later, so that the browser reports no loop.
function fitToWindow() {
  sheet.measure();
  for (const panel of sheet.panels.values()) panel.render();
  sheet.measurePanels();
}
new ResizeObserver(() => requestAnimationFrame(fitToWindow)).observe($("panels"));
document.addEventListener("visibilitychange", () => document.hidden && sheet.leaving?.abort());
document.addEventListener("click", (event) => {
  for (const menu of document.querySelectorAll("details.menu[open]")) if (!menu.contains(event.target)) menu.open = false;
});

// Keys that hold everywhere. They call no buttons, which a line under way may disable. A field with text in it keeps its own undo.
const KEYS = { s: () => files.try(() => files.save()), z: () => sheet.send("]undo"), y: () => sheet.send("]redo") };
addEventListener("keydown", (event) => {
  const isFar = event.ctrlKey || event.metaKey;
  const isTyping = event.target.matches?.("input[type=text], input[type=search]") && event.target.value;
  const key = event.key.toLowerCase();
  if (event.altKey && (event.key === "ArrowDown" || event.key === "ArrowUp")) sheet.step(event.key === "ArrowDown" ? 1 : -1);
  else if (isFar && key === "k") $("line").focus();
  else if (isFar && key === "f" && event.shiftKey) $("filter").focus();
  else if (isFar && KEYS[key] && (key === "s" || !isTyping)) KEYS[key === "z" && event.shiftKey ? "y" : key]();
  else if (event.key === "F1") $("help").showModal();
  else if (event.key === "Escape") for (const menu of document.querySelectorAll("details.menu[open]")) menu.open = false;
  else return;
  if (event.key !== "Escape") event.preventDefault();
});

sheet.begin().then(() => sheet.listen()).catch((fault) => sheet.fail(fault));
