// The side: the names, with a field to find one, and the changes that can be taken back.

import { $, make } from "./dom.js";

const MOST = 30; // changes in sight

export class Side {
  constructor(sheet) {
    Object.assign(this, { sheet, entries: new Map() });
    $("filter").addEventListener("input", () => this.list());
    $("filter").addEventListener("keydown", (event) => event.key === "Enter" && this.goToFirst());
  }

  get found() {
    const find = $("filter").value.toUpperCase();
    return [...this.sheet.names.values()].filter((info) => info.name.toUpperCase().includes(find));
  }

  goToFirst() {
    if (this.found.length) this.choose(this.found[0].name);
  }

  choose(name) {
    const settings = this.sheet.settings[name] ?? {};
    if (settings.hidden) this.sheet.set(name, { ...settings, hidden: false });
    this.sheet.goTo(name);
  }

  // Lists the names; only entries that changed are made anew.
  list() {
    const entries = new Map();
    for (const info of this.found) {
      const isHidden = Boolean(this.sheet.settings[info.name]?.hidden);
      const key = JSON.stringify([info.data, info.error, info.shape, info.formula, info.comment, isHidden]);
      const before = this.entries.get(info.name);
      entries.set(info.name, before?.key === key ? before : { key, element: this.entryOf(info, isHidden) });
    }
    const [old, now] = [[...this.entries.values()], [...entries.values()]];
    if (old.length !== now.length || now.some((entry, at) => entry !== old[at])) $("names").replaceChildren(...now.map(({ element }) => element));
    this.entries = entries;
  }

  entryOf({ name, data, error, shape, formula, comment }, isHidden) {
    const size = error ? "!" : shape?.length ? shape.join("×") : "";
    const kind = make("span", { class: "kind", role: "img", "aria-label": data ? "data" : "formula" }, data ? "■" : "ƒ");
    const attributes = { type: "button", title: formula || comment || "data", onclick: () => this.choose(name) };
    const classes = [data && "data", error && "failed", isHidden && "hidden"].filter(Boolean).join(" ");
    return make("li", { class: classes }, make("button", attributes, kind, make("span", { class: "short" }, name), make("small", {}, isHidden ? "hidden" : size)));
  }

  showHistory({ changes, undone, count, saved }) {
    $("undo").disabled = !count;
    $("redo").disabled = !undone.length;
    $("undo").title = count ? `Undo ${changes.at(-1)} (Ctrl-Z)` : "Nothing to undo";
    $("redo").title = undone.length ? `Redo ${undone.at(-1)} (Ctrl-Y)` : "Nothing to redo";
    $("saved").textContent = saved ? "" : "not saved";
    const titles = [...undone.map((title) => [title, "undone"]), ...[...changes].reverse().map((title) => [title, ""])].slice(0, MOST);
    $("history").replaceChildren(...titles.map(([title, kind]) => make("li", { class: kind, title }, title)));
  }
}
