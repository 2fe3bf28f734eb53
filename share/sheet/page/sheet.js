// The sheet in the page: its names and panels, the lines that are sent, and the answers that come back. No value is computed here: all are
// answers of the program.

import { ask, listen } from "./client.js";
import { Compare } from "./compare.js";
import { $, make, plural } from "./dom.js";
import { Entry } from "./entry.js";
import { ROW } from "./grid.js";
import { Left } from "./left.js";
import { shown } from "./numbers.js";
import { Panel } from "./panel.js";
import { Side } from "./side.js";

const PATIENCE = 150; // milliseconds until work under way is shown
const [UNIT, GAP, STEP] = [64, 8, 4]; // of the grid of panels, as style.css has them
const FLASHES = 40; // cells that light up after a change, in all panels
const LIT = 700; // milliseconds for which they do; an animation would make a frame for each step
const NAMES = /[A-Za-z∆⍙][A-Za-z∆⍙0-9_]*/g;

export class Sheet {
  constructor() {
    Object.assign(this, { desk: 0, version: -1, names: new Map(), panels: new Map(), watches: [], settings: {}, history: {} });
    Object.assign(this, { queue: Promise.resolve(), wanted: new Set(), unmeasured: new Set(), lit: [], jobs: 0 });
    this.seer = new IntersectionObserver((seen) => this.scrolled(seen), { root: $("panels"), rootMargin: "100px" });
    this.entry = new Entry(() => [...this.names.keys()], (text) => this.send(text));
    this.side = new Side(this);
    this.compare = new Compare(this);
    this.left = new Left(this);
    this.times = []; // of each change, from the key to all panels in sight
    this.measure();
  }

  get isHome() {
    return this.desk === 0;
  }

  get visible() {
    return [...this.panels.values()].filter((panel) => panel.isVisible && !panel.element.hidden);
  }

  // Measures the room for panels; it changes with the window alone.
  measure() {
    const { clientWidth, clientHeight } = $("panels");
    const inner = clientWidth - 20;
    this.units = Math.max(Math.floor((inner + GAP) / (UNIT + GAP)), 1);
    this.unit = (inner + GAP) / this.units;
    Object.assign(this, { width: inner - GAP, rows: Math.max(Math.floor((clientHeight - 150) / ROW), 6) });
  }

  // Gives a panel its room, in units of the grid of panels. Without a height the panel is measured later, together with others.
  place(panel, wide, high) {
    const column = `span ${Math.min(Math.ceil(wide / this.unit), this.units)}`;
    const { style } = panel.element;
    if (style.gridColumnEnd !== column) style.gridColumnEnd = column;
    if (!high) return void this.unmeasured.add(panel);
    this.unmeasured.delete(panel);
    const row = `span ${Math.ceil(high / STEP)}`;
    if (style.gridRowEnd !== row) style.gridRowEnd = row;
  }

  // Measures panels whose height only the browser knows: first all are read, then all are written.
  measurePanels() {
    const heights = [...this.unmeasured].map((panel) => [panel, panel.element.offsetHeight]);
    this.unmeasured.clear();
    for (const [panel, high] of heights) if (high) panel.element.style.gridRowEnd = `span ${Math.ceil((high + GAP) / STEP)}`;
  }

  // the begin, and events

  async begin() {
    const begun = await ask("begin", { desk: this.desk });
    if (begun.error) return this.say(begun);
    $("file").textContent = document.title = begun.file ?? "sheet";
    $("save").disabled = !begun.file;
    $("build").textContent = begun.build;
    this.settings = begun.settings;
    this.entry.take(begun.keys);
    this.left.take(begun.left);
    if (!this.isBegun) for (const watch of JSON.parse(sessionStorage.getItem("watches") ?? "[]")) this.addWatch(watch);
    for (const panel of this.panels.values()) panel.forget();
    this.takeNames(begun.names);
    this.takeHistory(begun.history);
    this.compare.take(begun.whatifs);
    this.version = begun.version;
    this.takeWindows(begun);
    await this.look(this.visible, true);
    this.isBegun = true;
    this.begunAt ??= performance.now(); // milliseconds since the page was asked for
  }

  // Takes in the first windows of the names, which come in the order of the names.
  takeWindows({ windows, first, version }) {
    const names = [...this.names.keys()];
    windows.forEach((result, at) => {
      const panel = this.panels.get(names[at]);
      if (!result.tag || panel.mode === "plot") return;
      panel.take("grid", { of: panel.of, window: first }, result, version, false);
      panel.isStale = panel.mode !== "table";
      panel.render();
    });
    this.measurePanels();
  }

  async listen() {
    for (;;) {
      if (document.hidden) await new Promise((then) => document.addEventListener("visibilitychange", then, { once: true }));
      const { desk } = this;
      this.leaving = new AbortController();
      const inTurn = (event) => this.inTurn(async () => desk === this.desk && this.hear(event));
      const heard = (event) => (event.done === undefined ? inTurn(event) : this.progress(event)); // progress is of the line that others wait for
      try {
        await listen(desk, this.leaving.signal, heard);
      } catch (fault) {
        if (fault.name !== "AbortError") $("link").textContent = "not connected";
      }
      if (!this.leaving.signal.aborted) $("link").textContent = "not connected";
      if (!document.hidden) await new Promise((then) => setTimeout(then, this.leaving.signal.aborted ? 0 : 1000));
    }
  }

  async hear(event) {
    $("link").textContent = "connected";
    if (event.over) return this.compare.leave();
    if (event.gone) return this.say({ error: "THE SHEET HAS ENDED", notes: [event.gone] });
    if (event.settings) await this.takeSettings(event.settings);
    if (event.whatifs) this.compare.take(event.whatifs);
    if (event.left) this.left.take(event.left);
    if (event.version === undefined) return event.history && this.takeHistory(event.history);
    this.progress(null);
    if (event.version <= this.version) return;
    if (event.version > this.version + 1 || !event.history) return this.begin(); // a change was missed
    this.version = event.version;
    if (event.names) this.takeNames(event.names);
    this.takeHistory(event.history);
    this.mark(event.reached);
    await this.look(this.visible.filter((panel) => panel.isStale), true);
    this.status(`changed elsewhere: ${event.history.changes.at(-1) ?? ""}`);
  }

  // lines

  send(text, began = performance.now()) {
    return this.give("line", { text }, began);
  }

  sendAll(title, lines, began = performance.now()) {
    return this.give("lines", { title, lines }, began);
  }

  edit(name, cells, text, began = performance.now()) {
    return this.give("edit", { name, cells, text }, began);
  }

  // Inserts or deletes rows of data; `length` is the number of rows that the panel showed.
  changeRows(name, act, first, count, length) {
    return this.give("rows", { do: act, name, first, count, length }, performance.now());
  }

  // Does a job behind the jobs before it; at once if there are none, so that a request leaves before a cell that was typed is drawn.
  inTurn(act) {
    const done = this.jobs++ ? this.queue.then(act) : act();
    this.queue = done.catch((fault) => this.fail(fault)).finally(() => this.jobs--);
    return this.queue;
  }

  // Gives lines one after the other, with the looks in sight, so that one answer brings all that a change reaches.
  give(path, asked, began) {
    return this.inTurn(async () => {
      const looks = this.visible.flatMap((panel) => panel.looks().map(([key, look]) => ({ panel, key, look })));
      const slow = setTimeout(() => this.progress({}), PATIENCE);
      try {
        const answer = await ask(path, { desk: this.desk, ...asked, looks: looks.map(({ panel, key, look }) => panel.tagged(key, look)) });
        return await this.take(answer, looks, titleOf(asked), began);
      } finally {
        clearTimeout(slow);
        this.progress(null);
      }
    });
  }

  async take(answer, looks, text, began) {
    const received = performance.now();
    this.say(answer.error || answer.notes?.length || answer.printed?.length ? answer : null);
    if (answer.watch) return this.watch(answer.watch, answer.axes), true;
    if (!answer.reached) return !answer.error;
    if (answer.version > this.version + 1) return this.begin(), true; // a change of another window came first
    this.version = answer.version;
    if (answer.names) this.takeNames(answer.names);
    this.takeHistory(answer.history);
    this.mark(answer.reached);
    if (answer.looks) this.takeLooks(answer, looks);
    await this.look(this.visible.filter((panel) => panel.isStale), true);
    if (!this.isHome) await this.showBase();
    const drawn = performance.now();
    this.tellCost(answer, text, drawn - began);
    const parts = { took: drawn - began, change: answer.seconds * 1000, looks: answer.looked * 1000, page: drawn - received };
    requestAnimationFrame(() => setTimeout(() => this.times.push({ text, painted: performance.now() - began, ...parts })));
    return true;
  }

  // Takes in the answers to looks that came with a change, and shows the panels that got a new one.
  takeLooks({ looks: results, version }, looks) {
    this.darken();
    const [asked, news] = [new Set(), new Set()];
    results.forEach((result, at) => {
      const { panel, key, look } = looks[at];
      if (!result || this.panels.get(panel.of) !== panel) return;
      asked.add(panel);
      if (panel.take(key, look, result, version, true)) news.add(panel);
      else if (key === "grid" && panel.changed.size) (panel.changed = new Set()), news.add(panel);
    });
    for (const panel of asked) panel.isStale = false;
    for (const panel of news) panel.render(true);
    this.list();
    this.measurePanels();
  }

  // Lights up cells for a moment.
  lightUp(cells) {
    for (const cell of cells) cell.toggleAttribute("data-lit", true);
    this.lit.push(...cells);
    if (cells.length) this.darkening ??= setTimeout(() => this.darken(), LIT);
  }

  // The number of cells that may still light up.
  get room() {
    return FLASHES - this.lit.length;
  }

  darken() {
    clearTimeout(this.darkening);
    for (const cell of this.lit) cell.toggleAttribute("data-lit", false);
    Object.assign(this, { lit: [], darkening: undefined });
  }

  tellCost(answer, text, took) {
    const cost = answer.cost === undefined ? "" : ` · cost ${plural(Number(answer.cost), "item")}`;
    const title = answer.title ? `${text}: ${answer.title}` : text;
    this.status(`${title}${cost} · ${plural(answer.reached.length, "name")} reached · ${Math.max(Math.round(took), 1)} ms`);
  }

  // Shows an expression as a panel of its own.
  async watch(of, axes) {
    if (this.panels.has(of)) return this.goTo(of);
    const panel = this.addWatch([of, axes]);
    this.keepWatches();
    panel.isVisible = true;
    this.order();
    await this.look([panel]);
    panel.element.scrollIntoView({ block: "nearest" });
  }

  addWatch([of, axes]) {
    const panel = new Panel(this, of, true);
    panel.derived = axes;
    this.watches.push(of);
    this.panels.set(of, panel);
    return panel;
  }

  close(panel) {
    this.watches = this.watches.filter((of) => of !== panel.of);
    this.panels.delete(panel.of);
    this.keepWatches();
    this.order();
  }

  // Keeps the expressions for when this window is loaded again.
  keepWatches() {
    sessionStorage.setItem("watches", JSON.stringify(this.watches.map((of) => [of, this.panels.get(of).derived])));
  }

  editFormula(panel) {
    const { info } = panel;
    if (panel.isWatch) this.entry.begin(panel.of);
    else if (!info.data) this.entry.begin(`${panel.of}←${info.formula}${info.comment ? ` ⍝ ${info.comment}` : ""}`);
    else if (panel.shape?.length === 0) this.entry.begin(`)DATA ${panel.of}←`);
  }

  // names and panels

  takeNames(names) {
    const before = this.names;
    this.names = new Map(names.map((info) => [info.name, { ...before.get(info.name), error: undefined, ...info }]));
    this.textNames = null;
    for (const of of [...this.panels.keys()]) if (!this.names.has(of) && !this.watches.includes(of)) this.panels.delete(of);
    for (const of of this.names.keys()) if (!this.panels.has(of)) this.panels.set(of, new Panel(this, of));
    this.order();
    this.side.list();
    for (const panel of this.panels.values()) if (before.has(panel.of) && !same(before.get(panel.of), this.names.get(panel.of))) panel.render();
  }

  // Notes the shape that a name has.
  takeShape(name, shape, text) {
    const info = this.names.get(name);
    if (!info) return;
    if (info.text || text) this.textNames = null;
    this.isListed &&= !info.error && same(info.shape, shape);
    Object.assign(info, { shape, text, error: undefined });
  }

  // Notes the error that a name has.
  takeError(name, error) {
    const info = this.names.get(name);
    if (!info) return;
    this.isListed &&= Boolean(info.error);
    info.error = error;
  }

  // Lists the names if their sizes or errors changed.
  list() {
    if (!this.isListed) this.side.list();
    this.isListed = true;
  }

  // Puts the panels in the order of the names; expressions stand at the end.
  order() {
    const elements = [...this.names.keys(), ...this.watches].map((of) => this.panels.get(of).element);
    const there = $("panels");
    if (elements.length !== there.childElementCount || elements.some((element, at) => element !== there.children[at])) there.replaceChildren(...elements);
    this.seers = new Map([...this.panels.values()].map((panel) => [panel.element, panel]));
    for (const element of elements) this.seer.observe(element);
    there.classList.toggle("none", elements.length === 0);
  }

  goTo(name) {
    const panel = this.panels.get(name);
    if (!panel) return;
    panel.element.scrollIntoView({ block: "nearest" });
    panel.element.animate([{ outline: "2px solid var(--accent)" }, { outline: "2px solid transparent" }], { duration: 900 });
    this.focus(panel);
  }

  focus(panel) {
    (panel.element.querySelector("[role=grid]") ?? panel.element.querySelector(".body button") ?? panel.element.querySelector("button")).focus();
  }

  // Puts the focus on the panel before or behind the one that has it.
  step(by) {
    const panels = [...$("panels").children].filter((element) => !element.hidden).map((element) => this.seers.get(element));
    const at = panels.findIndex((panel) => panel.element.contains(document.activeElement));
    const next = panels[at < 0 ? (by > 0 ? 0 : panels.length - 1) : Math.min(Math.max(at + by, 0), panels.length - 1)];
    if (!next) return;
    next.element.scrollIntoView({ block: "nearest" });
    this.focus(next);
  }

  // The text matrices with a row for each place of an axis of that length.
  texts(length) {
    this.textNames ??= Map.groupBy([...this.names.values()].filter((info) => info.text && info.shape?.length === 2), (info) => info.shape[0]);
    return (this.textNames.get(length) ?? []).map((info) => info.name);
  }

  // The text matrix that labels an axis of a panel: the chosen one; NAME_ROWS or NAME_COLUMNS; for data the only one that fits; for a formula
  // the one of the data to which the axis belongs. A length that agrees by chance labels nothing in a formula: a selection of four weeks is not four products.
  labels(panel, axis, length) {
    const fits = this.texts(length);
    const chosen = panel.settings[axis ? "columns" : "rows"];
    if (chosen !== undefined) return fits.includes(chosen) ? chosen : undefined;
    const own = `${panel.of}_${axis ? "COLUMNS" : "ROWS"}`;
    if (fits.includes(own)) return own;
    if (panel.info.data) return fits.length === 1 && !(axis && panel.shape?.at(-2) === length) ? fits[0] : undefined;
    const from = panel.axes?.at((panel.shape?.length === 1 ? -1 : -2) + axis) ?? [];
    for (const [name, at] of from) {
      const found = this.panels.has(name) && this.labels(this.panels.get(name), at, length);
      if (found) return found;
    }
    return undefined;
  }

  set(name, settings) {
    this.takeSettings({ ...this.settings, [name]: settings });
    this.inTurn(() => ask("settings", { name, settings })); // before a Save that follows
  }

  takeSettings(settings) {
    const changed = [...this.panels.values()].filter((panel) => !same(this.settings[panel.of], settings[panel.of]));
    this.settings = settings;
    this.side.list();
    for (const panel of changed) panel.render();
    this.compare.show();
    return this.look(changed);
  }

  takeHistory(history) {
    this.history = history;
    this.side.showHistory(history);
    this.compare.showBanner();
  }

  // looks

  // Marks the panels that a change may have changed.
  mark(reached) {
    const names = new Set(reached);
    const concerns = (panel) => (panel.isWatch ? panel.of.match(NAMES)?.some((name) => names.has(name)) : names.has(panel.of));
    for (const panel of this.panels.values()) if (concerns(panel) || Object.values(panel.labelled).some((name) => names.has(name))) panel.isStale = true;
  }

  scrolled(seen) {
    for (const { target, isIntersecting } of seen) if (this.seers.has(target)) this.seers.get(target).isVisible = isIntersecting;
    const stale = this.visible.filter((panel) => panel.isStale || panel.isLacking);
    if (stale.length) this.look(stale);
  }

  // Asks the looks of panels. Others gather while an answer is awaited, so a fast scroll asks for its last place alone.
  async look(panels, isNews = false) {
    for (const panel of panels) if (this.panels.get(panel.of) === panel) this.wanted.add(panel), (panel.isNews ||= isNews);
    if (this.looking || !this.wanted.size) return this.looking;
    this.looking = this.lookOn();
    await this.looking;
    if (!this.isHome && !isNews) await this.showBase();
  }

  async lookOn() {
    try {
      while (this.wanted.size) await this.lookOnce();
    } catch (fault) {
      this.fail(fault);
    } finally {
      this.looking = null; // here, and not behind an await: panels that are wanted from now on begin a new round
    }
  }

  async lookOnce() {
    const [panels, { desk }] = [[...this.wanted], this];
    this.wanted.clear();
    this.darken();
    const looks = panels.flatMap((panel) => panel.looks().map(([key, look]) => ({ panel, key, look })));
    const answer = await ask("look", { desk, looks: looks.map(({ panel, key, look }) => panel.tagged(key, look)) });
    if (answer.error) return this.say(answer);
    if (desk !== this.desk) return;
    const news = new Set();
    answer.looks.forEach((result, at) => {
      const { panel, key, look } = looks[at];
      if (panel.take(key, look, result, answer.version, panel.isNews)) news.add(panel);
    });
    for (const panel of panels) {
      const { isNews } = panel;
      Object.assign(panel, { isStale: false, isNews: false });
      if (news.has(panel)) panel.render(isNews);
    }
    this.list();
    this.measurePanels();
  }

  // In a what-if: the items of the sheet itself in the same windows.
  async showBase() {
    const panels = this.visible.filter((panel) => panel.mode !== "plot");
    const looks = panels.map((panel) => ["base", panel.looks()[0][1]]);
    const { looks: results, version } = await ask("look", { desk: 0, looks: looks.map(([key, look], at) => panels[at].tagged(key, look)) });
    if (this.isHome) return;
    results?.forEach((result, at) => panels[at].take("base", looks[at][1], result, version, false) && panels[at].render());
  }

  // Goes to another desk: the sheet, or a what-if.
  async goToDesk(desk, isHeard = false) {
    if (!isHeard) await this.queue; // lines that were typed before go first
    this.desk = desk;
    this.version = -1;
    this.leaving?.abort();
    await this.begin();
    if (!this.isHome) await this.showBase();
  }

  // the selection

  selected(panel, { top, left, bottom, right }) {
    clearTimeout(this.summing);
    const size = (bottom - top + 1) * (right - left + 1);
    $("sum").textContent = "";
    if (size < 2 || panel.isText) return;
    const ask_ = async () => {
      const of = partOf(panel, top, left, bottom, right);
      const { looks } = await ask("look", { desk: this.desk, looks: ["+", "⌊", "⌈"].map((sign) => ({ of: `${sign}/,${of}` })) });
      const [sum, least, greatest] = looks.map((look) => look.error ?? shown(look.lines[0], panel.info.decimals));
      $("sum").textContent = `${plural(size, "cell")}: sum ${sum}, least ${least}, greatest ${greatest}`;
    };
    this.summing = setTimeout(() => ask_().catch((fault) => this.fail(fault)), 80);
  }

  // messages

  say(said) {
    const { error, origin, notes = [], printed = [], place = [], action } = said ?? {};
    $("message").hidden = !said;
    $("message").classList.toggle("wrong", Boolean(error));
    const about = error ? [make("strong", {}, error), origin ? ` in ${origin}` : ""] : [];
    const lines = printed.length || place.length ? [make("pre", {}, [...place, ...printed.slice(0, 200)].join("\n"))] : [];
    const close = make("button", { type: "button", class: "link", "aria-label": "Close", onclick: () => this.say(null) }, "×");
    $("message").replaceChildren(...about, ...notes.map((note) => make("span", {}, note)), ...(action ? [action] : []), ...lines, close);
  }

  fail(fault) {
    this.say({ error: "NOT CONNECTED", notes: [fault.message] });
  }

  status(text) {
    $("status").textContent = text;
  }

  progress(event) {
    $("progress").hidden = !event;
    if (!event) return;
    const bar = $("bar");
    if (event.of) Object.assign(bar, { max: event.of, value: event.done });
    else bar.removeAttribute("value");
    $("progress-text").textContent = event.of ? `${event.done} of ${plural(event.of, "function")}` : "working";
  }
}

const same = (one, other) => JSON.stringify(one) === JSON.stringify(other);

function titleOf({ text, title, name, cells, do: act, count }) {
  if (act) return `${name}: ${plural(count, "row")} ${act === "insert" ? "inserted" : "deleted"}`;
  if (name === undefined) return text ?? title;
  return cells.length > 1 ? `${name}: ${plural(cells.length, "cell")}` : `${name}[${cells[0][0].join(";")}]←${cells[0][1]}`;
}

// The part of a panel between two places, as an expression.
function partOf(panel, top, left, bottom, right) {
  const axis = (first, last) => `${first ? `${first}+` : ""}⍳${last - first + 1}`;
  const planes = panel.plane.slice(0, Math.max(panel.shape.length - 2, 0));
  const places = panel.isLine ? [panel.isUpright ? axis(top, bottom) : axis(left, right)] : [...planes, axis(top, bottom), axis(left, right)];
  return `${panel.isWatch ? `(${panel.of})` : panel.of}[${places.join(";")}]`;
}
