// The line: symbols by a click or behind a backquote, completion, and earlier lines.

import { $, make } from "./dom.js";
import { GROUPS } from "./symbols.js";

const WORDS = [")DATA ", ")ROW ", ")ERASE ", ")CSV ", ")NAMES", ")COST", "]undo", "]redo", "]clear", "]rename ", "]why ", "]show ", "]names", "]sort ", "]help "];
const NAME = /[A-Za-z∆⍙][A-Za-z∆⍙0-9_]*$/;
const MOST = 8; // completions that are offered
const KEPT = 200; // earlier lines

export class Entry {
  // names: a function that returns the names of the sheet. send: a function that gives a line to the sheet.
  constructor(names, send) {
    Object.assign(this, { names, send, input: $("line"), list: $("choices"), at: 0, found: [], chosen: 0, keys: new Map() });
    this.earlier = JSON.parse(sessionStorage.getItem("lines") ?? "[]");
    this.at = this.earlier.length;
    $("entry").addEventListener("submit", (event) => (event.preventDefault(), this.enter()));
    this.input.addEventListener("keydown", (event) => this.key(event));
    this.input.addEventListener("input", () => this.complete());
    this.input.addEventListener("blur", () => this.offer([]));
    document.addEventListener("keydown", (event) => this.symbolKey(event), true);
  }

  // Takes in the keys of the symbols, and makes the bar.
  take(keys) {
    if (this.keys.size) return;
    this.keys = new Map([...keys, ["`", "`"]]);
    const keyOf = new Map(keys.map(([key, symbol]) => [symbol, key]));
    for (const group of GROUPS) {
      const buttons = group.map(({ symbol, effect }) => this.symbolButton(symbol, effect, keyOf.get(symbol)));
      $("symbols").append(make("span", { class: "group" }, ...buttons));
    }
  }

  symbolButton(symbol, effect, key) {
    const title = `${symbol}  ${effect}${key ? `   key: \` ${key}` : ""}`;
    const attributes = { type: "button", tabindex: -1, title, "aria-label": effect };
    return make("button", { ...attributes, onmousedown: (event) => event.preventDefault(), onclick: () => this.insert(symbol) }, symbol);
  }

  // Inserts a symbol at the caret: in the line, or in the cell that is edited.
  insert(text) {
    const active = document.activeElement;
    const field = active?.matches?.("input[type=text]") ? active : this.input;
    field.focus();
    field.setRangeText(text, field.selectionStart, field.selectionEnd, "end");
    field.dispatchEvent(new Event("input"));
  }

  // A backquote, then a key, is a symbol, in every field of text.
  symbolKey(event) {
    if (!event.target.matches?.("input[type=text]") || event.ctrlKey || event.altKey || event.metaKey || event.key.length !== 1) return;
    const isSecond = this.isPrefixed;
    this.isPrefixed = !isSecond && event.key === "`";
    if (!isSecond && !this.isPrefixed) return;
    event.preventDefault();
    event.stopPropagation();
    if (isSecond) this.insert(this.keys.get(event.key) ?? "`" + event.key);
  }

  // Puts a text into the line, to be edited.
  begin(text) {
    this.input.value = text;
    this.input.focus();
    this.input.setSelectionRange(text.length, text.length);
  }

  async enter() {
    const text = this.input.value;
    if (!text.trim()) return;
    this.offer([]);
    if (this.earlier.at(-1) !== text) this.earlier.push(text);
    this.at = this.earlier.length;
    sessionStorage.setItem("lines", JSON.stringify(this.earlier.slice(-KEPT)));
    if ((await this.send(text)) && this.input.value === text) this.input.value = "";
  }

  key(event) {
    if (event.key === "Tab" && this.found.length && !event.shiftKey) {
      event.preventDefault();
      this.complement(this.found[this.chosen]);
    } else if (event.key === "Escape") {
      this.found.length ? this.offer([]) : (this.input.value = "");
    } else if ((event.key === "ArrowUp" || event.key === "ArrowDown") && !event.altKey) {
      event.preventDefault();
      this.step(event.key === "ArrowUp" ? -1 : 1);
    }
  }

  // Goes to another completion, or to another of the earlier lines.
  step(by) {
    if (this.found.length) return this.offer(this.found, (this.chosen + by + this.found.length) % this.found.length);
    this.at = Math.min(Math.max(this.at + by, 0), this.earlier.length);
    this.begin(this.earlier[this.at] ?? "");
  }

  complete() {
    const before = this.input.value.slice(0, this.input.selectionStart);
    const word = /^\s*[)\]]\w*$/.test(before) ? before.trim() : NAME.exec(before)?.[0] ?? "";
    const all = /^[)\]]/.test(word) ? WORDS : this.names();
    const begun = (whole) => whole.toUpperCase().startsWith(word.toUpperCase()) && whole.trim() !== word;
    this.word = word;
    this.offer(word ? all.filter(begun).slice(0, MOST) : []);
  }

  offer(found, chosen = 0) {
    Object.assign(this, { found, chosen });
    const choice = (whole, at) => {
      const act = (event) => (event.preventDefault(), this.complement(whole));
      return make("li", { role: "option", id: `choice-${at}`, "aria-selected": String(at === chosen), onmousedown: act }, whole);
    };
    this.list.replaceChildren(...found.map(choice));
    this.list.hidden = !found.length;
    this.input.setAttribute("aria-expanded", String(found.length > 0));
    if (found.length) this.input.setAttribute("aria-activedescendant", `choice-${chosen}`);
    else this.input.removeAttribute("aria-activedescendant");
  }

  // Puts a whole word in place of its beginning.
  complement(whole) {
    const end = this.input.selectionStart;
    this.input.setRangeText(whole, end - this.word.length, end, "end");
    this.offer([]);
  }
}
