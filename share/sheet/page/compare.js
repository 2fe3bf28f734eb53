// What-ifs: a tab for the sheet and one for each what-if, and a table of chosen names in each of them.

import { ask } from "./client.js";
import { $, make, plural } from "./dom.js";
import { shown } from "./numbers.js";

const MOST = 12; // names of the table that nobody chose
const WINDOW = [[0, 8], [0, 12]]; // of an array in the table

export class Compare {
  constructor(sheet) {
    Object.assign(this, { sheet, whatIfs: [], isShown: false });
    $("whatif").addEventListener("click", () => this.do("begin"));
    $("keep").addEventListener("click", () => this.do("keep"));
    $("discard").addEventListener("click", () => this.do("drop"));
    $("compare").addEventListener("click", () => this.toggle());
  }

  get own() {
    return this.whatIfs.find(({ desk }) => desk === this.sheet.desk);
  }

  // Begins a what-if, keeps its changes in the sheet, or gives it up.
  async do(act) {
    const { sheet } = this;
    await sheet.queue; // lines that were typed before go first
    this.isActing = true;
    try {
      const answer = await ask("whatif", { desk: sheet.desk, do: act });
      sheet.say(answer.error || answer.notes?.length ? answer : null);
      if (answer.error) return;
      this.whatIfs = answer.whatifs;
      await sheet.goToDesk(answer.desk);
    } catch (fault) {
      sheet.fail(fault);
    } finally {
      this.isActing = false;
    }
  }

  // Takes in which what-ifs there are.
  take(whatIfs) {
    this.whatIfs = whatIfs;
    this.showTabs();
    this.showBanner();
    this.show();
  }

  // Shows the sheet, since the what-if in sight was ended by another window.
  async leave() {
    if (this.isActing || this.sheet.isHome) return;
    await this.sheet.goToDesk(0, true);
    this.sheet.say({ notes: ["this what-if was ended in another window"] });
  }

  showTabs() {
    $("tabs").hidden = this.whatIfs.length === 0;
    const tab = ({ desk, title, count }) => {
      const act = () => this.sheet.goToDesk(desk).then(() => this.showTabs());
      const attributes = { type: "button", role: "tab", "aria-selected": String(desk === this.sheet.desk), onclick: act };
      return make("button", attributes, title, count ? make("small", {}, ` ${plural(count, "change")}`) : "");
    };
    $("tab-list").replaceChildren(...[{ desk: 0, title: "Sheet" }, ...this.whatIfs].map(tab));
    $("compare").setAttribute("aria-pressed", String(this.isShown));
  }

  showBanner() {
    const { isHome, history } = this.sheet;
    $("banner").hidden = isHome;
    if (isHome) return;
    const isChanged = history.count > 0;
    const told = `${plural(history.count, "change")} beside the sheet; cells that differ are marked`;
    $("banner-title").textContent = this.own?.title ?? "What if";
    $("banner-text").textContent = isChanged ? told : "change cells or formulas: the sheet stays unchanged until you keep them";
  }

  toggle() {
    this.isShown = !this.isShown;
    this.showTabs();
    this.show();
  }

  // The names of the table: the chosen ones, or else single numbers.
  get names() {
    const { sheet } = this;
    const all = [...sheet.names.values()].filter((info) => !info.error);
    const chosen = all.filter((info) => sheet.settings[info.name]?.compared);
    return chosen.length ? chosen : all.filter((info) => info.shape?.length === 0 && !info.text).slice(0, MOST);
  }

  // Shows the table, if it is wanted. A change that comes meanwhile makes it once more.
  async show() {
    $("comparison").hidden = !this.isShown || this.whatIfs.length === 0;
    if ($("comparison").hidden) return;
    this.isWanted = true;
    if (this.isBusy) return;
    this.isBusy = true;
    try {
      while (this.isWanted) {
        this.isWanted = false;
        const { names } = this;
        const answer = await ask("compare", { looks: names.map(({ name }) => ({ of: name, window: WINDOW })) });
        if (answer.compared) this.fill(names, answer.compared);
      }
    } catch (fault) {
      this.sheet.fail(fault);
    } finally {
      this.isBusy = false;
    }
  }

  fill(names, desks) {
    const head = make("tr", {}, make("th", { scope: "col" }, ""), ...desks.map(({ title }) => make("th", { scope: "col" }, title)));
    const rows = names.map((info, at) => {
      const texts = desks.map(({ looks }) => (looks ? written(looks[at], info.decimals) : "…"));
      const cell = (text) => make("td", { class: text === texts[0] ? "" : "differs" }, text);
      return make("tr", {}, make("th", { scope: "row", title: info.formula }, info.name), ...texts.map(cell));
    });
    $("comparison-table").replaceChildren(make("thead", {}, head), make("tbody", {}, ...rows));
    $("comparison-note").textContent = names.length ? "" : "choose names by the menu of a panel: Show in what-if table";
  }
}

// A value in short: its first rows.
function written({ error, lines = [], text, shape = [] }, decimals) {
  if (error) return error;
  const rows = lines.map((line) => (text ? line.trimEnd() : line.trim().split(/ +/).map((item) => shown(item, decimals)).join("  ")));
  const isCut = shape.length > 1 ? shape.at(-2) > rows.length || shape.at(-1) > WINDOW[1][1] : shape[0] > WINDOW[1][1];
  return rows.join("\n") + (isCut ? " …" : "");
}
