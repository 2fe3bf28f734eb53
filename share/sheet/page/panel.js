// A panel shows one name, or an expression that was asked for: its formula in the head, and a table, a plot, one value or an error below.

import { button, make, plural } from "./dom.js";
import { Grid } from "./grid.js";
import { width } from "./metrics.js";
import { literal, number, plain, quoted, shown } from "./numbers.js";
import { plot } from "./plot.js";
import { choiceOf, errorView, icon } from "./views.js";

const MODES = { table: "Table", shade: "Shaded table", plot: "Plot" };
const FIRST = [[0, 24], [0, 20]]; // the window of a first look, before the shape is known
const LABELS = 40; // characters of a label that are asked for
const WIDEST = 240; // characters of a row of text
const ROWS = 12; // of a table that is not large
const MOST_CELLS = 10000; // that are looked at to be copied
const CODE = 7.6; // pixels of a sign of a formula, at most
const PLOT = { width: 440, height: 190 };
const hovers = matchMedia("(hover: hover)"); // without a mouse the buttons of the head are always in sight
let count = 0;

export class Panel {
  constructor(sheet, of, isWatch = false) {
    Object.assign(this, { sheet, of, isWatch, id: `p${++count}`, seen: {}, held: {}, plane: [1, 1], isStale: true, isVisible: false, changed: new Set() });
    this.makeHead();
    this.formula = make("p", { class: "formula", hidden: true });
    this.planes = make("p", { class: "planes", hidden: true });
    this.body = make("div", { class: "body" });
    this.foot = make("div", { class: "foot" });
    const attributes = { class: "panel", "data-name": of, "aria-labelledby": `${this.id}-name`, id: this.id };
    this.element = make("section", attributes, this.head, this.formula, this.planes, this.body, this.foot);
    this.grid = new Grid({
      id: this.id, name: of, moved: () => sheet.look([this]), locked: () => this.locked(), changeRows: (act) => this.changeRows(act),
      selected: (range) => sheet.selected(this, range),
      copy: (range, board) => sheet.copy(this, range, board), edit: (cells, began) => this.edit(cells, began),
    });
  }

  makeHead() {
    const { of, sheet } = this;
    const name = this.isWatch ? `= ${of}` : of;
    this.title = make("h2", { id: `${this.id}-name` }, make("button", { type: "button", title: "Edit in the line", onclick: () => sheet.editFormula(this) }, name));
    this.size = make("span", { class: "size" });
    this.modes = Object.entries(MODES).map(([mode, title]) => button(icon(mode), `${of}: ${title}`, () => this.set({ mode }), { "data-mode": mode }));
    this.full = button(icon("full"), `${of}: large`, () => this.set({ full: !this.settings.full }));
    this.add = button(icon("add"), `${of}: a new row`, () => this.addRow());
    this.menu = make("details", { class: "menu" }, make("summary", { title: "More", "aria-label": `${of}: more` }, icon("more")), make("div", {}));
    this.menu.addEventListener("toggle", () => this.toggled());
    this.head = make("header", {}, this.title, this.size, make("span", { class: "modes" }, this.add, ...this.modes, this.full, this.menu));
  }

  get settings() {
    return this.sheet.settings[this.of] ?? {};
  }

  get info() {
    return this.sheet.names.get(this.of) ?? { data: false, formula: "", comment: "", decimals: 0 };
  }

  // The axes of names to which its axes belong.
  get axes() {
    return this.isWatch ? this.derived : this.info.axes;
  }

  set(change) {
    this.sheet.set(this.of, { ...this.settings, ...change });
  }

  // its form

  get shape() {
    return this.seen.grid?.shape ?? this.seen.plot?.shape ?? this.info.shape;
  }

  get isText() {
    return this.seen.grid?.text ?? this.info.text ?? false;
  }

  // True for one line of items: a vector, and text, whose items are its rows.
  get isLine() {
    return this.shape?.length === 1 || (this.isText && this.shape?.length > 1);
  }

  // True for a line that is shown upright: a long one.
  get isUpright() {
    if (!this.isLine) return false;
    const length = this.isText && this.shape.length > 1 ? this.shape.at(-2) : this.shape[0];
    const isNarrow = this.isText || this.sheet.labels(this, 0, length);
    return this.settings.turned ?? length > (isNarrow ? 12 : 30);
  }

  // The names of text matrices that label its rows and its columns.
  get labelled() {
    const shape = this.shape ?? [];
    if (this.isText || shape.length === 0) return {};
    if (shape.length > 1) return { rows: this.sheet.labels(this, 0, shape.at(-2)), columns: this.sheet.labels(this, 1, shape.at(-1)) };
    return { [this.isUpright ? "rows" : "columns"]: this.sheet.labels(this, 0, shape[0]) };
  }

  get mode() {
    const mode = this.settings.mode ?? "table";
    return this.isText || this.shape?.length === 0 || (mode === "plot" && this.shape?.length > 2) ? "table" : mode;
  }

  // Returns the numbers of rows and columns of its table.
  extent(shape = this.shape) {
    if (!this.isLine) return [shape.at(-2), shape.at(-1)];
    const along = this.isText && shape.length > 1 ? shape.at(-2) : shape[0];
    return this.isUpright ? [along, 1] : [1, along];
  }

  // looks

  get window() {
    const { top, left, high, wide } = this.grid;
    if (!high || !this.shape) return FIRST;
    const along = this.isUpright ? [top, high] : [left, wide];
    if (this.isText) return [along, [0, WIDEST]];
    return this.isLine ? [along] : [[top, high], [left, wide]];
  }

  // Its looks: pairs of a key and a look.
  looks() {
    const { of, mode, labelled } = this;
    const found = mode === "plot" ? [["plot", { of, want: "plot" }]] : [["grid", { of, window: this.window, plane: this.plane }]];
    if (mode === "shade") found.push(["span", { of, want: "span" }]);
    const { top, left, high, wide } = this.grid;
    const [rows, columns] = mode === "plot" || !high ? [[0, 300], [0, 300]] : [[top, high], [left, wide]];
    if (labelled.rows) found.push(["rows", { of: labelled.rows, window: [rows, [0, LABELS]] }]);
    if (labelled.columns) found.push(["columns", { of: labelled.columns, window: [columns, [0, LABELS]] }]);
    return found;
  }

  // A look with the number of the answer that the panel has to it already.
  tagged(key, look) {
    const held = this.held[key];
    return held && held.of === JSON.stringify(look) ? { ...look, tag: held.tag } : look;
  }

  // Takes an answer of a version of the sheet in; returns whether it is another one than before. `isNews`: the sheet has changed since.
  take(key, look, result, version, isNews) {
    const [of, held] = [JSON.stringify(look), this.held[key]];
    if (held && version < held.version) return false; // it was overtaken by a newer one
    if (held?.tag === result.tag && held.of === of) return (held.version = version), false;
    if (!result.shape && !result.error) return this.askAgain(key);
    this.held[key] = { of, subject: look.of, tag: result.tag, version };
    const seen = parsed(result);
    if (key === "grid" && isNews) this.changed = this.differences(this.seen.grid, seen);
    if (key === "grid" || key === "plot") this.takeForm(key, seen);
    this.seen[key] = seen;
    return true;
  }

  // Asks once more: the answer is one that the panel had when it asked, and has no more.
  askAgain(key) {
    delete this.held[key];
    setTimeout(() => this.sheet.look([this]));
    return false;
  }

  takeForm(key, seen) {
    if (seen.shape) this.sheet.takeShape(this.of, seen.shape, seen.text);
    if (seen.error) this.sheet.takeError(this.of, seen.error);
    if (seen.error) this.seen = {};
    if (this.seen[key]?.error) delete this.seen[key];
  }

  forget() {
    Object.assign(this, { held: {}, seen: {}, isStale: true, changed: new Set() });
  }

  // The cells in sight whose items differ from those before.
  differences(before, after) {
    const found = new Set();
    if (!before?.items || !after.items || before.shape.length !== after.shape.length) return found;
    const { high, wide, top, left } = this.grid;
    const [rows, columns] = this.extent(before.shape);
    const { isUpright } = this;
    for (let row = top; row < top + high; row++)
      for (let column = left; column < left + wide; column++) {
        const [old, now] = [itemOf(before, isUpright, row, column), itemOf(after, isUpright, row, column)];
        if (old !== now && now !== undefined && (old !== undefined || row >= rows || column >= columns)) found.add(`${row},${column}`);
      }
    return found;
  }

  // True if something in sight was not requested yet: its size was unknown, or there is more room now.
  get isLacking() {
    if (this.looks().some(([key, { of }]) => this.held[key]?.subject !== of)) return true;
    if (!this.seen.grid || this.mode === "plot" || !this.grid.element.isConnected) return false;
    const { top, left, high, wide, model } = this.grid;
    if (this.isText && this.seen.grid.items.some((row) => [...row].length < Math.min(this.shape.at(-1), WIDEST))) return true;
    return [[top, left], [top + high - 1, left + wide - 1]].some(([row, column]) => model.item(row, column) === undefined);
  }

  // showing

  render(isNews = false) {
    const { info, settings } = this;
    this.element.classList.toggle("data", info.data);
    this.element.classList.toggle("full", Boolean(settings.full));
    this.element.hidden = Boolean(settings.hidden);
    this.showFormula(info);
    const main = this.mode === "plot" ? this.seen.plot : this.seen.grid;
    if (main) this.showBody(main, isNews);
    this.fit();
    const isLacking = Boolean(main) && !main.error && this.isVisible && this.isLacking;
    if (isLacking && !this.isAgain) this.sheet.look([this]);
    this.isAgain = !this.isAgain && isLacking;
  }

  showFormula({ formula, comment }) {
    const text = `${formula}\n${comment}`;
    if (text === this.formulaText) return;
    this.formulaText = text;
    this.formulaWidth = [...formula].length * CODE + width(comment, "11.5px") + 12;
    this.formula.replaceChildren(...(formula ? [make("code", {}, formula)] : []), comment ? ` ${comment}` : "");
    this.formula.title = [formula, comment].filter(Boolean).join("   ⍝ ");
    this.formula.hidden = !formula && !comment;
  }

  showBody(main, isNews) {
    const { mode } = this;
    const failed = Boolean(main.error);
    const shape = main.shape ?? [];
    this.element.classList.toggle("failed", failed);
    this.showSize(shape);
    this.showModes(failed, shape, mode);
    this.showPlanes(shape);
    this.foot.replaceChildren();
    if (failed) this.put(errorView(main, this.isWatch || main.origin === this.of, (name) => this.sheet.goTo(name)), null);
    else if (shape.includes(0)) this.put(make("p", { class: "empty" }, "empty"), { width: 60, height: 22 });
    else if (shape.length === 0 || (this.isText && shape.length === 1)) this.showSingle(main, isNews);
    else if (mode === "plot") this.put(this.plotOf(main), PLOT);
    else this.showGrid(isNews);
  }

  showModes(failed, shape, mode) {
    const isPlain = failed || shape.length === 0 || this.isText;
    for (const each of this.modes) {
      each.hidden = isPlain;
      each.setAttribute("aria-pressed", String(each.dataset.mode === mode));
    }
    this.full.hidden = failed || shape.length === 0 || (this.isText && shape.length < 2);
    this.add.hidden = failed || !this.info.data || shape.length < 1 || shape.length > 2;
  }

  // The size, with the names of the labels of its axes.
  showSize(shape) {
    const { rows, columns } = this.labelled;
    const names = shape.length === 1 ? [rows ?? columns] : [...shape.slice(2).map(() => undefined), rows, columns];
    const text = shape.map((length, at) => names[at] ?? shown(String(length))).join(" × ");
    if (this.size.textContent !== text) Object.assign(this.size, { textContent: text, title: shape.join(" × ") });
  }

  // Puts the content into the body; `size` is null where only the browser knows how large it is.
  put(element, size) {
    this.content = size;
    if (this.body.firstElementChild !== element || this.body.childElementCount !== 1) this.body.replaceChildren(element);
  }

  showSingle({ lines, text }, isNews) {
    const value = lines[0];
    const written = text ? value : shown(value, this.info.decimals);
    if (!this.single) this.single = make("button", { type: "button", title: "Edit in the line", onclick: () => this.sheet.editFormula(this) });
    if (this.single.textContent !== written) this.single.textContent = written;
    this.single.className = text ? "single text" : "single";
    if (isNews) this.changed = this.value === undefined || this.value === value ? new Set() : new Set(["0,0"]);
    this.single.classList.toggle("changed", this.changed.size > 0);
    this.value = value;
    const base = this.seen.base?.lines?.[0];
    const differs = base !== undefined && base !== value;
    const before = differs ? make("span", {}, `in the sheet ${text ? base : shown(base, this.info.decimals)}`) : "";
    const wide = width(written, text ? "15px" : "500 23px") + 8 + (differs ? width(before.textContent) + 20 : 0);
    this.put(differs ? make("div", { class: "was" }, this.single, before) : this.single, { width: Math.min(wide, this.sheet.width - 40), height: text ? 24 : 34 });
  }

  plotOf({ points, shape, pieces }) {
    const [rows, columns] = ["rows", "columns"].map((key) => this.seen[key]?.items?.map((name) => name.trimEnd()));
    const decimals = this.info.decimals;
    const texts = points.map((lines) => lines.map((line) => line.trim().split(/ +/)));
    const labels = shape.length === 2 ? { names: rows, titles: columns } : { titles: rows ?? columns };
    const element = plot({ points: texts, shape, pieces, decimals, ...labels });
    element.setAttribute("aria-label", `plot of ${this.of}, ${shape.join(" by ")}`);
    const left = pieces.filter((piece) => piece[2]);
    if (left.length && shape.length === 2) this.foot.append(`without the last ${left.map((piece) => piece[2]).join(" and ")} of an axis`);
    return element;
  }

  showGrid(isNews) {
    const { full } = this.settings;
    const room = { width: Math.min(this.sheet.width - 30, full ? Infinity : 760), rows: full ? this.sheet.rows : ROWS };
    this.grid.show(this.model(), room);
    this.put(this.grid.element, this.grid);
    if (isNews) this.sheet.lightUp(this.grid.changed(this.sheet.room));
  }

  // The model of the table, for the grid.
  model() {
    const { seen, isUpright, labelled, info } = this;
    const { text, items } = seen.grid;
    const [rows, columns] = this.extent();
    const isNumbered = !this.isLine || isUpright;
    const label = (which, at) => seen[which]?.items?.[at - seen[which].at[0]]?.trimEnd();
    const written = (item) => (item === undefined ? "" : text ? item : shown(item, info.decimals));
    const item = (row, column) => itemOf(seen.grid, isUpright, row, column);
    return {
      rows, columns, headed: !isUpright, text, changed: this.changed, editable: info.data, written, item,
      corner: labelled.rows ?? "", named: Boolean(labelled.rows), titled: Boolean(labelled.columns),
      names: labelled.rows ? [labelled.rows, ...(seen.rows?.items ?? [])] : isNumbered ? [String(rows)] : [],
      titles: labelled.columns ? (seen.columns?.items ?? []).map((title) => title.trimEnd()) : [],
      samples: text ? items.map((row) => row.trimEnd()) : items.flat().map(written),
      name: (row) => (labelled.rows ? label("rows", row) ?? "" : isNumbered ? String(row + 1) : ""),
      title: (column) => (labelled.columns ? label("columns", column) ?? "" : isUpright ? "" : String(column + 1)),
      base: (row, column) => (seen.base?.items ? itemOf(seen.base, isUpright, row, column) : undefined),
      plain: (row, column) => (text ? item(row, column)?.trimEnd() ?? "" : plain(item(row, column) ?? "0", info.decimals)),
      literal: (typed) => (text ? typed : literal(typed, info.decimals)),
      shade: this.shadeOf(),
    };
  }

  // The text of the cells between two places, as other programs read it; undefined if one of them is not in sight.
  textOf({ top, left, bottom, right }) {
    const { rows, columns } = { rows: range(top, bottom), columns: range(left, right) };
    const { item, plain } = this.grid.model;
    if (rows.length * columns.length > MOST_CELLS || rows.some((row) => columns.some((column) => item(row, column) === undefined))) return undefined;
    return rows.map((row) => columns.map((column) => plain(row, column)).join("\t")).join("\n");
  }

  // Returns the shade of an item, from 0 to 1.
  shadeOf() {
    const [least, greatest] = (this.seen.span?.span ?? []).map(number);
    if (this.mode !== "shade" || !(greatest > least)) return () => null;
    return (item) => (item === undefined ? null : (number(item) - least) / (greatest - least));
  }

  showPlanes(shape) {
    const key = `${shape.slice(0, -2)} ${this.plane}`;
    this.planes.hidden = shape.length < 3;
    if (shape.length < 3 || key === this.planesKey) return;
    this.planesKey = key;
    this.plane = shape.slice(0, -2).map((length, axis) => Math.min(this.plane[axis] ?? 1, length));
    const field = (length, axis) => {
      const act = (event) => this.turn(axis, Math.min(Math.max(+event.target.value, 1), length));
      return make("input", { type: "number", min: 1, max: length, value: this.plane[axis], "aria-label": `place on axis ${axis + 1}`, onchange: act });
    };
    this.planes.replaceChildren("plane ", ...this.plane.flatMap((_, axis) => [field(shape[axis], axis), ` of ${shape[axis]} `]));
  }

  // Shows another plane.
  turn(axis, place) {
    this.plane[axis] = place;
    this.sheet.look([this]);
  }

  // Returns the units of the grid of panels that it covers: the width of its content or head, and its height.
  fit() {
    const { content, sheet } = this;
    const size = content ?? { width: 330, height: 0 };
    const buttons = 20 * [this.add, ...this.modes, this.full, this.menu].filter((element) => !element.hidden).length;
    const head = width(this.title.textContent, "600 13px") + width(this.size.textContent, "11px") + (hovers.matches ? 40 : 44 + buttons);
    const wide = Math.min(Math.max(size.width + 20, head, 150), sheet.width);
    this.element.classList.toggle("cut", head > sheet.width);
    this.formula.classList.toggle("cut", this.formulaWidth > wide - 22);
    const high = content ? 28 + 19 * !this.formula.hidden + 28 * !this.planes.hidden + size.height + 12 + 18 * this.foot.hasChildNodes() : null;
    sheet.place(this, wide + 8, high && high + 10);
  }

  // The menu of a panel stands above the panels behind it.
  toggled() {
    this.element.classList.toggle("open", this.menu.open);
    if (!this.menu.open) return;
    this.fillMenu();
    const list = this.menu.lastElementChild;
    list.classList.remove("rightward");
    list.classList.toggle("rightward", list.getBoundingClientRect().left < this.element.parentElement.getBoundingClientRect().left);
  }

  fillMenu() {
    const { sheet, of, shape = [] } = this;
    const item = (title, act) => make("button", { type: "button", onclick: () => ((this.menu.open = false), act()) }, title);
    const found = [];
    if (this.isLine) found.push(item(this.isUpright ? "Lay flat" : "Stand upright", () => this.set({ turned: !this.isUpright })));
    if (!this.isText && shape.length === 1) found.push(this.labelChoice("Named by", "rows", shape[0]));
    if (!this.isText && shape.length > 1) found.push(this.labelChoice("Rows named by", "rows", shape.at(-2)));
    if (!this.isText && shape.length > 1) found.push(this.labelChoice("Columns named by", "columns", shape.at(-1)));
    if (this.rowsAt) found.push(item(`Insert ${plural(this.rowsAt.count, this.noun)} before`, () => this.changeRows("insert")));
    if (this.rowsAt) found.push(item(`Delete ${plural(this.rowsAt.count, this.noun)}`, () => this.changeRows("delete")));
    const { compared } = this.settings;
    if (!this.isWatch) found.push(item(compared ? "Leave out of what-if table" : "Show in what-if table", () => this.set({ compared: !compared })));
    if (!this.isWatch) found.push(item("Why this value?", () => sheet.send(`]why ${of}`)));
    found.push(this.isWatch ? item("Close", () => sheet.close(this)) : item("Hide", () => this.set({ hidden: true })));
    if (!this.isWatch) found.push(item("Erase", () => sheet.send(`)ERASE ${of}`)));
    this.menu.lastElementChild.replaceChildren(...found);
  }

  labelChoice(title, key, length) {
    const options = [["auto", "as they fit"], ["", "numbers"], ...this.sheet.texts(length).map((name) => [name, name])];
    return choiceOf(title, this.settings[key] ?? "auto", options, (value) => this.set({ [key]: value === "auto" ? undefined : value }));
  }

  // editing

  locked() {
    const { formula } = this.info;
    const ofFormula = `${this.of} is a formula, ${formula}; edit the data that it reads, or click its name to change the formula`;
    this.sheet.say({ error: "NOT DATA", notes: [this.isWatch ? "this is an expression" : ofFormula] });
  }

  // The index of a cell, counted from 1; of a row of text, the index of its characters without their position.
  index(row, column) {
    const planes = this.plane.slice(0, Math.max(this.shape.length - 2, 0));
    return [...planes, ...(this.isLine ? [(this.isUpright ? row : column) + 1] : [row + 1, column + 1])];
  }

  edit(cells, began) {
    if (this.isText) return this.editText(cells, began);
    const edits = cells.map(({ row, column, typed, shown }) => [this.index(row, column), literal(typed, this.info.decimals), shown ?? null]);
    return this.sheet.edit(this.of, edits, false, began);
  }

  // Edits rows of text, character by character; a text that is longer than the rows makes them all wider first.
  editText(cells, began) {
    const wide = this.shape.at(-1);
    const longest = Math.max(...cells.map(({ typed }) => [...typed].length));
    const edits = cells.flatMap(({ row, column, typed }) => {
      const [old, now] = [[...(itemOf(this.seen.grid, this.isUpright, row, column) ?? "")], [...typed.padEnd(wide)]];
      return now.flatMap((sign, at) => (sign === old[at] ? [] : [[[...this.index(row, column), at + 1], sign, old[at] ?? null]]));
    });
    if (edits.length === 0) return null;
    if (longest <= wide) return this.sheet.edit(this.of, edits, true, began);
    const lines = edits.map(([index, sign]) => `${this.of}[${index.join(";")}]←${quoted(sign)}`);
    const shape = [...this.shape.slice(0, -1), longest].join(" ");
    return this.sheet.sendAll(`${this.of}: ${plural(cells.length, "row")}`, [`)DATA ${this.of}←${shape}↑${this.of}`, ...lines], began);
  }

  get noun() {
    return this.isLine && !this.isText ? "item" : "row";
  }

  // The rows of the selection, or the items of a vector; undefined if there are none that can be changed.
  get rowsAt() {
    const { range } = this.grid;
    if (!range || !this.info.data || this.shape.length > 2) return undefined;
    const [first, last] = this.isLine && !this.isUpright ? [range.left, range.right] : [range.top, range.bottom];
    return { first: first + 1, count: last - first + 1 };
  }

  // Inserts as many rows as are selected before them, or deletes these.
  async changeRows(act) {
    const { rowsAt } = this;
    if (!rowsAt) return this.info.data ? undefined : this.locked();
    await this.sheet.changeRows(this.of, act, rowsAt.first, rowsAt.count, this.shape[0]);
    if (this.grid.element.isConnected) this.grid.element.focus({ preventScroll: true });
  }

  async addRow() {
    const { shape, isText } = this;
    const wide = shape.length === 1 ? 1 : shape[1];
    const row = isText ? quoted(" ".repeat(wide)) : wide ? Array(wide).fill(0).join(" ") : "''";
    if (!(await this.sheet.send(`)ROW ${this.of} ${row}`))) return;
    this.grid.element.focus();
    if (this.isLine && !this.isUpright) this.grid.select(0, Infinity);
    else this.grid.select(Infinity, 0);
  }
}

const range = (first, last) => Array.from({ length: last - first + 1 }, (_, at) => first + at);

// An answer whose lines are read as items: numbers as texts, and texts as they are.
function parsed(result) {
  if (!result.lines) return result;
  return { ...result, items: result.text ? result.lines : result.lines.map((line) => line.trim().split(/ +/)) };
}

// The item at a place of an array; undefined if it was not seen.
export function itemOf({ at, items, shape, text }, isUpright, row, column) {
  const along = (isUpright ? row : column) - (at[0] ?? 0);
  if (text) return items[along];
  return shape.length === 1 ? items[0]?.[along] : items[row - at[0]]?.[column - at[1]];
}
