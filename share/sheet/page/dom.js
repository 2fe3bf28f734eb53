// Elements. Text goes in as text alone, so nothing in a sheet can be markup.

export const $ = (id) => document.getElementById(id);

export function make(tag, attributes = {}, ...inside) {
  const made = document.createElement(tag);
  for (const [name, value] of Object.entries(attributes)) {
    if (name.startsWith("on")) made.addEventListener(name.slice(2), value);
    else if (value !== false && value != null) made.setAttribute(name, value === true ? "" : value);
  }
  made.append(...inside);
  return made;
}

export function draw(tag, attributes = {}, ...inside) {
  const made = document.createElementNS("http://www.w3.org/2000/svg", tag);
  for (const [name, value] of Object.entries(attributes)) made.setAttribute(name, value);
  made.append(...inside);
  return made;
}

// A button that calls `act`, with a name for screen readers.
export function button(text, name, act, attributes = {}) {
  return make("button", { type: "button", title: name, "aria-label": name, onclick: act, ...attributes }, text);
}

export const plural = (count, noun) => `${count} ${noun}${count === 1 ? "" : "s"}`;
