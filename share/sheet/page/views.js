// Small parts of a panel: an error, a single value, icons.

import { draw, make } from "./dom.js";

const PATHS = {
  table: "M1.5 2.5h11v9h-11zM1.5 5.5h11M1.5 8.5h11M5 2.5v9M9 2.5v9",
  shade: "M1.5 2.5h11v9h-11zM2 3h5v4H2zM7 7h5v4H7z",
  plot: "M1.5 12.5h11M3 12V8M6 12V3M9 12V6M12 12V9",
  add: "M1.5 3h8M1.5 6.5h8M1.5 10h4M10.5 8v5M8 10.5h5",
  more: "M2.2 7h1.6M6.2 7h1.6M10.2 7h1.6",
  full: "M8.5 1.5h4v4M12.5 1.5l-4.5 4.5M5.5 12.5h-4v-4M1.5 12.5l4.5-4.5",
};

export function icon(name) {
  return draw("svg", { viewBox: "0 0 14 14", width: 14, height: 14, class: `icon ${name}`, "aria-hidden": "true" }, draw("path", { d: PATHS[name] }));
}

// An error: its text, the name where it arose, and notes where it arose here.
export function errorView({ error, origin, notes = [] }, isOwn, goTo) {
  const link = () => make("button", { type: "button", class: "link", onclick: () => goTo(origin) }, origin);
  const from = origin && !isOwn ? [" from ", link()] : [];
  return make("div", { class: "error" }, make("strong", {}, error), ...from, ...(isOwn || !origin ? notes : []).map((note) => make("p", {}, note)));
}

// A menu of a panel: buttons and choices, made when it is opened.
export function choiceOf(title, value, options, act) {
  const option = ([key, name]) => make("option", { value: key, selected: key === value }, name);
  const select = make("select", { onchange: (event) => act(event.target.value) }, ...options.map(option));
  return make("label", {}, title, select);
}
