// Files: a script, a table or a workbook is read in the page, and sent; Save writes the file of the server, Download one of the browser.

import { ask } from "./client.js";
import { $, button, make } from "./dom.js";
import { MARK } from "./numbers.js";

const BOOK = "application/vnd.openxmlformats-officedocument.spreadsheetml.sheet";

export class Files {
  constructor(sheet) {
    this.sheet = sheet;
    this.chooser = make("input", { type: "file", accept: ".apl,.csv,.tsv,.txt,.xlsx,.xlsm", onchange: () => this.try(() => this.open(this.chooser.files[0])) });
    $("open").addEventListener("click", () => ((this.chooser.value = ""), this.chooser.click()));
    $("save").addEventListener("click", () => this.try(() => this.save()));
    $("download").addEventListener("click", () => this.try(() => this.download()));
    $("book").addEventListener("click", () => this.try(() => this.downloadBook()));
    addEventListener("dragover", (event) => event.preventDefault());
    addEventListener("drop", (event) => (event.preventDefault(), this.try(() => this.open(event.dataTransfer.files[0]))));
  }

  try(act) {
    return act().catch((fault) => this.sheet.fail(fault));
  }

  async open(file) {
    if (!file) return;
    const { sheet } = this;
    const answer = await this.answerTo(file);
    if (!answer) return;
    if (answer.settings) sheet.settings = answer.settings;
    if (!answer.error) await sheet.begin();
    sheet.say(answer.error || answer.printed?.length ? answer : null);
    sheet.status(answer.error ? "" : `opened ${file.name}`);
  }

  // Returns the answer to a file: a workbook, a table in a text, or a script; null if the person takes none.
  async answerTo(file) {
    if (/\.xls[xm]$/i.test(file.name)) return this.openBook(file);
    const text = await file.text();
    if (/\.(csv|tsv|txt)$/i.test(file.name)) return this.openTable(file.name, text);
    return ask("open", { desk: this.sheet.desk, title: file.name, text });
  }

  // Asks how a table in a text is to be read; its first lines give the answers that stand there first.
  async openTable(title, text) {
    const lines = text.trim().split(/\r?\n/, 4);
    const separator = ["\t", ";", ","].find((sign) => lines[0].includes(sign)) ?? ",";
    $("table-separator").value = separator === "\t" ? "tab" : separator;
    this.show(title, lines, lines.map((line) => line.split(separator)), MARK);
    if (!(await this.isTaken([]))) return null;
    return ask("table", { desk: this.sheet.desk, title, text, separator: $("table-separator").value, ...this.read() });
  }

  // Asks which sheet of a workbook is to be read, and how.
  async openBook(file) {
    const raw = await base64Of(file);
    const answer = await ask("sheets", { title: file.name, raw });
    if (answer.error) return answer;
    const { sheets } = answer;
    const choose = () => {
      const rows = sheets[$("table-sheet").selectedIndex].head.filter((row) => row.some((field) => field));
      this.show(file.name, rows.map((row) => row.join("   ")), rows, ".");
    };
    $("table-sheet").replaceChildren(...sheets.map(({ title }) => make("option", { value: title }, title)));
    $("table-sheet").onchange = choose;
    $("table-range").value = "";
    choose();
    if (!(await this.isTaken(sheets))) return null;
    const [sheet, block] = [$("table-sheet").value, $("table-range").value.trim()];
    return ask("workbook", { desk: this.sheet.desk, title: file.name, raw, sheet, block, ...this.read() });
  }

  // Shows the first lines of a table, and the answers that its first fields suggest.
  show(title, lines, fields, mark) {
    $("table-file").textContent = title;
    $("table-head").textContent = lines.join("\n");
    $("table-name").value = this.nameFor(title);
    const [first = [], second = first] = fields;
    $("table-header").checked = first.slice(1).some((field) => field && !isNumber(field)) || (first.length === 1 && !isNumber(first[0]));
    $("table-labelled").checked = first.length > 1 && !isNumber(second[0]);
    $("table-labels").value = `${$("table-name").value}_ROWS`;
    $("table-columns").value = "";
    $("table-decimals").value = Math.max(0, ...fields.slice(1).flat().map((field) => decimalsOf(field, mark)));
  }

  // Waits for the dialog; returns whether the table is taken in. A text has no sheets, and a workbook no separator.
  async isTaken(sheets) {
    for (const id of ["table-sheet", "table-range"]) $(id).closest("label").hidden = sheets.length === 0;
    $("table-separator").closest("label").hidden = sheets.length > 0;
    $("table").returnValue = "";
    $("table").showModal();
    await new Promise((then) => $("table").addEventListener("close", then, { once: true }));
    return $("table").returnValue === "take";
  }

  // Returns the answers of the dialog that texts and workbooks have in common.
  read() {
    const labels = $("table-labelled").checked ? $("table-labels").value : "";
    const [columns, decimals] = [$("table-columns").value.trim(), Number($("table-decimals").value)];
    return { name: $("table-name").value, header: $("table-header").checked, labels, columns, decimals };
  }

  // Returns a free name, made from the name of a file.
  nameFor(title) {
    let name = title.replace(/\.\w+$/, "").replace(/[^A-Za-z0-9_]/g, "_").replace(/^[\d_]/, "T$&").toUpperCase();
    while (this.sheet.names.has(name)) name += "_";
    return name;
  }

  async save(replace = false) {
    const { sheet } = this;
    await sheet.queue;
    const answer = await ask("save", { replace });
    const action = answer.replace ? button("Replace it", "Replace the file", () => this.try(() => this.save(true))) : null;
    sheet.say(answer.error ? { ...answer, action } : null);
    if (!answer.error) sheet.status(`saved in ${$("file").textContent}`);
  }

  async download() {
    const { sheet } = this;
    await sheet.queue;
    const { text } = await ask("text", { desk: sheet.desk });
    this.give(text, "text/plain", ".apl");
  }

  // Gives the numbers and the formulas of the sheet as a workbook, with the labels that the panels show.
  async downloadBook() {
    const { sheet } = this;
    await sheet.queue;
    const panels = [...sheet.names.keys()].map((name) => sheet.panels.get(name)).filter((panel) => !panel.isText);
    const answer = await ask("book", { desk: sheet.desk, tables: panels.map(labelsOf) });
    sheet.say(answer.error || answer.notes?.length ? answer : null);
    if (answer.error) return;
    this.give(Uint8Array.from(atob(answer.raw), (sign) => sign.charCodeAt(0)), BOOK, ".xlsx");
  }

  // Gives a file to the browser, under the name of the sheet with this end.
  give(content, type, end) {
    const url = URL.createObjectURL(new Blob([content], { type }));
    const name = `${$("file").textContent.replace(/\.apl$/, "")}${end}`;
    make("a", { href: url, download: name }).click();
    setTimeout(() => URL.revokeObjectURL(url), 1000);
  }
}

// The names of the labels of a panel; those of a vector stand above it in a workbook.
function labelsOf({ of, shape, labelled: { rows, columns } }) {
  return shape?.length === 1 ? { name: of, columns: rows ?? columns } : { name: of, rows, columns };
}

function base64Of(file) {
  return new Promise((then, fail) => {
    const reader = new FileReader();
    reader.addEventListener("load", () => then(reader.result.slice(reader.result.indexOf(",") + 1)));
    reader.addEventListener("error", () => fail(reader.error));
    reader.readAsDataURL(file);
  });
}

const isNumber = (field) => /^\s*"?[-+¯]?[\d.,'\s]+"?\s*$/.test(field) && /\d/.test(field);

// Returns the number of decimals of a field with this decimal sign; 0 if it is no such number.
function decimalsOf(field, mark) {
  const found = field.trim().match(new RegExp(`^[-+]?\\d+[${mark}](\\d{1,4})$`));
  return found ? found[1].length : 0;
}
