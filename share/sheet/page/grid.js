// A grid that shows a window of a table, however large: a scroller with room for all of it, in which one small table stays in sight and is
// filled anew for each place. So an element exists for each cell in sight, and for no other.
//
// The panel gives the grid a model of the table. The grid reports its window, the edited cells and the selected cells to the panel.

import { make } from "./dom.js";
import { barWidth, width } from "./metrics.js";

export const ROW = 22;
const HIGHEST = 8e6; // pixels; browsers cut off elements that are some 17 million high
const calm = matchMedia("(prefers-reduced-motion: reduce)");

export class Grid {
  // panel: { id, name, moved(), edit(cells), selected(range), copy(range), locked(), changeRows(act) }
  constructor(panel) {
    Object.assign(this, { panel, top: 0, left: 0, high: 0, wide: 0, cells: [], cursor: null, anchor: null, widest: 28, labels: 0, pending: new Map() });
    this.table = make("table", { role: "presentation" });
    this.sizer = make("div", { class: "sizer", role: "presentation" }, this.table);
    this.element = make("div", { class: "grid", role: "grid", tabindex: 0, "aria-label": panel.name, "aria-multiselectable": "true" }, this.sizer);
    this.hear();
  }

  hear() {
    const on = (event, act) => this.element.addEventListener(event, act);
    on("scroll", () => this.scrolled());
    on("keydown", (event) => this.key(event));
    on("mousedown", (event) => this.press(event));
    on("mousemove", (event) => event.buttons === 1 && this.extend(event));
    on("dblclick", () => this.begin());
    on("copy", (event) => this.copy(event));
    on("paste", (event) => this.paste(event));
    on("blur", () => this.element.classList.remove("used"));
    on("focus", () => this.focused());
  }

  focused() {
    this.element.classList.add("used");
    if (!this.cursor && this.model) this.select(this.top, this.left);
  }

  // Takes in a model and the room: the greatest width, and the greatest number of rows. Returns whether the size of the table is another one.
  show(model, room) {
    const before = this.shape;
    this.model = model;
    this.shape = `${model.rows},${model.columns}`;
    this.measure(model);
    this.high = Math.min(model.rows, room.rows);
    this.wide = Math.min(model.columns, Math.max(Math.floor((room.width - this.labels - 14) / this.widest), 1));
    this.head = model.headed ? ROW : 0;
    this.dense = model.rows * ROW > HIGHEST ? (HIGHEST - this.high * ROW) / (model.rows - this.high) : ROW; // pixels a row moves
    this.keepCursor();
    this.top = Math.min(this.top, model.rows - this.high);
    this.left = Math.min(this.left, model.columns - this.wide);
    this.size();
    const { editor } = this;
    const caret = editor && [editor.selectionStart, editor.selectionEnd];
    this.editor = null; // an element that is removed loses the focus, which would end editing
    this.build();
    this.keepEditor(editor, caret);
    this.fill();
    return before !== this.shape;
  }

  // Puts the editor into the cell of the cursor, which may be a new element, with the caret where it was.
  keepEditor(editor, caret) {
    this.editor = editor;
    const cell = editor && this.cellOf(...this.cursor);
    if (!editor || cell === editor.parentElement) return;
    if (!cell) return this.end(true);
    this.putEditor(cell, editor);
    editor.setSelectionRange(...caret);
  }

  putEditor(cell, editor) {
    cell.classList.add("edited");
    cell.replaceChildren(editor);
    editor.focus();
  }

  // The element of a cell, if it is in sight.
  cellOf(row, column) {
    return this.cells[row - this.top]?.[column - this.left];
  }

  // Keeps the cursor within a table that has become smaller.
  keepCursor() {
    const { rows, columns } = this.model;
    if (this.cursor) for (const place of [this.cursor, this.anchor]) place.splice(0, 2, Math.min(place[0], rows - 1), Math.min(place[1], columns - 1));
  }

  // Widens the columns for the items in sight; they never become narrower, so that a table keeps still.
  measure(model) {
    for (const text of model.samples) this.widest = Math.max(this.widest, width(text) + 15);
    for (const title of model.titles) this.widest = Math.max(this.widest, Math.min(width(title) + 14, 110));
    this.labels = model.names.length ? Math.max(this.labels, 26, ...model.names.map((name) => Math.min(width(name) + 14, 180))) : 0;
  }

  // The room that it takes: whole rows and columns, and the bars beside them.
  size() {
    const { model, high, wide, widest, labels, head } = this;
    const bars = { x: model.columns > wide ? barWidth() : 0, y: model.rows > high ? barWidth() : 0 };
    this.width = labels + wide * widest + bars.y;
    this.height = head + high * ROW + bars.x;
    const key = [model.rows, model.columns, high, wide, widest, labels, head].join();
    if (key === this.sized) return;
    this.sized = key;
    Object.assign(this.sizer.style, { width: `${labels + model.columns * widest}px`, height: `${head + high * ROW + (model.rows - high) * this.dense}px` });
    const scrolls = model.columns > wide || model.rows > high;
    const overflow = (isMore) => (isMore ? "scroll" : scrolls ? "hidden" : "visible"); // a scroller for each small table would make each frame slower
    const overflows = { overflowX: overflow(model.columns > wide), overflowY: overflow(model.rows > high) };
    this.element.classList.toggle("scrolls", scrolls);
    Object.assign(this.element.style, { ...overflows, width: `${this.width}px`, height: `${this.height}px` });
    this.element.setAttribute("aria-rowcount", model.rows + 1);
    this.element.setAttribute("aria-colcount", model.columns + 1);
  }

  // Makes the elements, if there are not as many as are in sight.
  build() {
    this.element.setAttribute("aria-readonly", String(!this.model.editable));
    const key = [this.high, this.wide, this.widest, this.labels, this.head].join();
    if (key === this.built) return;
    Object.assign(this, { built: key, written: "" });
    const count = (length, act) => Array.from({ length }, (_, at) => act(at));
    this.heads = count(this.wide, () => make("th", { role: "columnheader" }));
    this.corner = make("th", { role: "columnheader" });
    this.cells = count(this.high, (r) => count(this.wide, (c) => make("td", { role: "gridcell", id: `${this.panel.id}-${r}-${c}` })));
    this.rows = this.cells.map((cells) => {
      const head = make("th", { role: "rowheader" });
      return { head, row: make("tr", { role: "row" }, head, ...cells) };
    });
    this.table.classList.toggle("unnamed", !this.labels);
    this.table.classList.toggle("headless", !this.head);
    const columns = make("colgroup", {}, ...[...(this.labels ? [this.labels] : []), ...this.heads.map(() => this.widest)].map(column));
    const heads = make("tr", { role: "row", class: "heads", "aria-rowindex": 1 }, this.corner, ...this.heads);
    this.table.replaceChildren(columns, heads, ...this.rows.map(({ row }) => row));
    this.table.style.width = `${this.labels + this.wide * this.widest}px`;
  }

  // Writes the items in sight into the elements. Only changed elements are written: a write costs more than a comparison.
  fill() {
    const { model, top, left } = this;
    const isMoved = `${top},${left}` !== this.written;
    this.written = `${top},${left}`;
    this.putHead(this.corner, model.corner, "corner", this.labels);
    this.heads.forEach((head, c) => this.putHead(head, model.title(left + c), model.titled ? "name" : "", this.widest));
    this.rows.forEach(({ row, head }, r) => {
      this.putHead(head, model.name(top + r), model.named ? "name" : "", this.labels);
      if (isMoved) row.setAttribute("aria-rowindex", top + r + 2);
      for (let c = 0; c < this.wide; c++) {
        if (isMoved) this.cells[r][c].setAttribute("aria-colindex", left + c + 2);
        this.fillCell(this.cells[r][c], top + r, left + c);
      }
    });
    this.mark();
  }

  putHead(head, text, marks, room) {
    put(head, text, width(text) + 8 > room ? `${marks} cut` : marks);
  }

  fillCell(cell, row, column) {
    const { model } = this;
    const key = `${row},${column}`;
    const isPending = this.pending.has(key);
    const item = isPending ? this.pending.get(key) : model.item(row, column);
    const base = model.base(row, column);
    const differs = base !== undefined && item !== undefined && base !== item;
    let marks = model.text ? "text" : item?.[0] === "¯" ? "below" : "";
    if (isPending) marks += " pending";
    if (differs) marks += " differs";
    else if (base === undefined && model.changed.has(key)) marks += " changed";
    if (cell !== this.editor?.parentElement) put(cell, model.written(item), marks);
    const title = differs ? `in the sheet: ${model.written(base)}` : "";
    if (title !== (cell.told ?? "")) cell.title = cell.told = title;
    this.shadeCell(cell, model.shade(item));
  }

  shadeCell(cell, shade) {
    if (shade === (cell.shade ?? null)) return;
    cell.shade = shade;
    cell.toggleAttribute("data-shade", shade !== null);
    cell.style.setProperty("--shade", shade ?? 0);
  }

  // The elements of the cells that have changed and may light up, at most that many.
  changed(most) {
    const keys = calm.matches ? [] : [...this.model.changed].slice(0, most);
    return keys.map((key) => this.cellOf(...key.split(",").map(Number))).filter(Boolean);
  }

  scrolled() {
    const top = Math.min(Math.round(this.element.scrollTop / this.dense), this.model.rows - this.high);
    const left = Math.min(Math.round(this.element.scrollLeft / this.widest), this.model.columns - this.wide);
    if (this.isGoing || (top === this.top && left === this.left)) return void (this.isGoing = false);
    this.go(top, left, false);
  }

  // Puts the window at a place.
  go(top, left, scrolls = true) {
    if (this.editor) this.end(true);
    Object.assign(this, { top, left });
    if (scrolls) {
      const before = [this.element.scrollTop, this.element.scrollLeft];
      this.element.scrollTop = top * this.dense;
      this.element.scrollLeft = left * this.widest;
      this.isGoing = before[0] !== this.element.scrollTop || before[1] !== this.element.scrollLeft;
    }
    this.fill();
    this.panel.moved();
  }

  // the cursor and the selection

  get range() {
    const [a, b] = [this.anchor, this.cursor];
    return a && { top: Math.min(a[0], b[0]), left: Math.min(a[1], b[1]), bottom: Math.max(a[0], b[0]), right: Math.max(a[1], b[1]) };
  }

  mark() {
    const range = this.range;
    if (!range && !this.isMarked) return;
    this.isMarked = Boolean(range);
    this.cells.forEach((cells, r) => cells.forEach((cell, c) => this.markCell(cell, this.top + r, this.left + c, range)));
  }

  markCell(cell, row, column, range) {
    const isIn = Boolean(range && row >= range.top && row <= range.bottom && column >= range.left && column <= range.right);
    const isCursor = isIn && row === this.cursor[0] && column === this.cursor[1];
    cell.classList.toggle("selected", isIn);
    cell.classList.toggle("cursor", isCursor);
    cell.setAttribute("aria-selected", String(isIn));
    if (isCursor) this.element.setAttribute("aria-activedescendant", cell.id);
  }

  // Puts the cursor on a cell; the window follows.
  select(row, column, extends_ = false) {
    row = Math.min(Math.max(row, 0), this.model.rows - 1);
    column = Math.min(Math.max(column, 0), this.model.columns - 1);
    if (row < 0 || column < 0) return;
    this.cursor = [row, column];
    if (!extends_ || !this.anchor) this.anchor = [row, column];
    const into = (at, first, count) => (at < first ? at : at >= first + count ? at - count + 1 : first);
    const [top, left] = [into(row, this.top, this.high), into(column, this.left, this.wide)];
    if (top !== this.top || left !== this.left) this.go(top, left);
    else this.mark();
    this.panel.selected(this.range);
  }

  place(event) {
    const cell = event.target.closest("td");
    const r = this.cells.findIndex((cells) => cells.includes(cell));
    return r < 0 ? null : [this.top + r, this.left + this.cells[r].indexOf(cell)];
  }

  press(event) {
    const place = this.place(event);
    if (!place || event.target === this.editor) return;
    this.end(true);
    this.element.focus({ preventScroll: true });
    this.select(...place, event.shiftKey);
    event.preventDefault();
  }

  extend(event) {
    const place = this.editor ? null : this.place(event);
    if (place && String(place) !== String(this.cursor)) this.select(...place, true);
  }

  key(event) {
    if (event.target === this.editor) return this.editorKey(event);
    const far = event.ctrlKey || event.metaKey;
    const target = this.target(event.key, far);
    if (event.altKey) return;
    if (target) this.select(...target, event.shiftKey);
    else if (event.key === "Enter" || event.key === "F2") this.begin();
    else if (far && event.key === "a") (this.anchor = [0, 0]), this.select(Infinity, Infinity, true);
    else if (event.key === "Insert" && !far && !event.shiftKey) this.panel.changeRows("insert");
    else if (event.key === "Delete" && far) this.panel.changeRows("delete");
    else if (event.key === "Delete" || event.key === "Backspace") this.clear();
    else if (event.key.length === 1 && !far && this.cursor) this.begin(event.key);
    else return;
    event.preventDefault();
  }

  // The cell to which a key leads.
  target(key, far) {
    const [row, column] = this.cursor ?? [this.top, this.left];
    const page = Math.max(this.high - 1, 1);
    const targets = {
      ArrowUp: [far ? 0 : row - 1, column], ArrowDown: [far ? Infinity : row + 1, column],
      ArrowLeft: [row, far ? 0 : column - 1], ArrowRight: [row, far ? Infinity : column + 1],
      PageUp: [row - page, column], PageDown: [row + page, column],
      Home: [far ? 0 : row, 0], End: [far ? Infinity : row, Infinity],
    };
    return targets[key];
  }

  // editing in place

  begin(typed) {
    if (!this.cursor) return;
    if (!this.model.editable) return this.panel.locked();
    this.end(true);
    const [row, column] = this.cursor;
    const cell = this.cellOf(row, column);
    if (!cell) return;
    this.before = { plain: this.model.plain(row, column), item: this.itemAt(row, column) };
    this.editor = make("input", { type: "text", "aria-label": `${this.panel.name} ${row + 1} ${column + 1}`, inputmode: this.model.text ? "text" : "decimal" });
    this.editor.value = typed ?? this.before.plain;
    this.editor.addEventListener("blur", () => this.end(true));
    this.putEditor(cell, this.editor);
    if (typed === undefined) this.editor.select();
    else this.editor.setSelectionRange(typed.length, typed.length);
  }

  editorKey(event) {
    const [row, column] = this.cursor;
    const next = { Enter: [row + (event.shiftKey ? -1 : 1), column], Tab: [row, column + (event.shiftKey ? -1 : 1)] }[event.key];
    if (!next && event.key !== "Escape") return;
    event.preventDefault();
    this.end(Boolean(next), event.timeStamp);
    this.element.focus({ preventScroll: true });
    if (next) this.select(...next);
  }

  // Ends editing. A kept text goes to the program, and stands in the cell until the answer is there.
  end(isKept, began) {
    if (!this.editor) return;
    const [editor, [row, column]] = [this.editor, this.cursor];
    this.editor = null;
    if (isKept && editor.value !== this.before.plain) this.give([{ row, column, typed: editor.value, shown: this.before.item }], began);
    editor.parentElement?.classList.remove("edited");
    editor.remove();
    this.fill();
  }

  async give(cells, began = performance.now()) {
    const keys = cells.map(({ row, column }) => `${row},${column}`);
    keys.forEach((key, at) => this.pending.set(key, this.model.literal(cells[at].typed)));
    await this.panel.edit(cells, began);
    keys.forEach((key) => this.pending.delete(key));
    this.fill();
  }

  // Puts zeros or blanks into the selected cells.
  clear() {
    if (!this.model.editable) return this.panel.locked();
    if (!this.range) return;
    const { top, left, bottom, right } = this.range;
    const columns = Array.from({ length: right - left + 1 }, (_, at) => left + at);
    const rows = Array.from({ length: bottom - top + 1 }, (_, at) => top + at);
    const typed = this.model.text ? "" : "0";
    this.give(rows.flatMap((row) => columns.map((column) => ({ row, column, typed, shown: this.itemAt(row, column) }))));
  }

  // The item that a cell shows: one that was typed stands there until its answer comes.
  itemAt(row, column) {
    return this.pending.get(`${row},${column}`) ?? this.model.item(row, column);
  }

  copy(event) {
    if (this.editor || !this.range) return;
    event.preventDefault();
    this.panel.copy(this.range, event.clipboardData);
  }

  paste(event) {
    if (this.editor || !this.cursor) return;
    event.preventDefault();
    if (!this.model.editable) return this.panel.locked();
    const lines = event.clipboardData.getData("text/plain").replace(/\r?\n$/, "").split(/\r?\n/).map((line) => line.split("\t"));
    const { top, left } = this.range;
    const cells = lines.flatMap((fields, r) => fields.map((typed, c) => ({ row: top + r, column: left + c, typed, shown: this.itemAt(top + r, left + c) })));
    this.give(cells);
  }
}

function put(cell, text, marks) {
  if (cell.text !== text || cell.firstElementChild || !cell.firstChild) cell.textContent = cell.text = text;
  if (cell.marks !== marks) cell.className = cell.marks = marks;
}

function column(wide) {
  const element = make("col");
  element.style.width = `${wide}px`;
  return element;
}
