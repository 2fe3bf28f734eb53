// Unsaved sessions: the page continues one, or deletes it.

import { ask } from "./client.js";
import { $, button, make } from "./dom.js";

const MOST = 5; // offered at most

export class Left {
  constructor(sheet) {
    Object.assign(this, { sheet, isClosed: false });
  }

  // Takes in which sessions there are, the last one first.
  take(sessions) {
    $("left").hidden = this.isClosed || sessions.length === 0;
    const entry = ({ name, told }) => {
      const goOn = button("Go on with it", `Go on with ${told}`, () => this.try(() => this.do(name, "go on")));
      const forget = button("Forget it", `Forget ${told}`, () => this.askFirst(name, told));
      return make("li", {}, make("span", {}, `Not saved: ${told}`), goOn, forget);
    };
    const close = button("×", "Close", () => ((this.isClosed = true), this.take([])), { class: "link" });
    $("left").replaceChildren(make("ul", {}, ...sessions.slice(0, MOST).map(entry)), close);
  }

  try(act) {
    return act().catch((fault) => this.sheet.fail(fault));
  }

  askFirst(name, told) {
    const action = button("Forget it for good", "Remove its log", () => this.try(() => this.do(name, "forget")));
    this.sheet.say({ error: "FORGET IT?", notes: [`the changes of ${told} will be lost`], action });
  }

  async do(name, act) {
    const { sheet } = this;
    await sheet.queue; // lines that were typed before go first
    const answer = await ask("recover", { name, do: act });
    sheet.say(answer.error ? answer : null);
    if (answer.left) this.take(answer.left);
    if (answer.error || act !== "go on") return;
    sheet.settings = answer.settings;
    await sheet.goToDesk(0);
    sheet.status("this is the sheet of the session that was not saved");
  }
}
