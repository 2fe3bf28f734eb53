// Sizes that are computed and not read from the page: each read would make the browser lay the page out once more.

const context = document.createElement("canvas").getContext("2d");
const widths = new Map();
let family = "";
let bar;

// Returns the width of a text in pixels. All digits are as wide as 0, so numbers of one form are measured once.
export function width(text, font = "13px") {
  const form = `${font} ${text.replace(/\d/g, "0")}`;
  if (!widths.has(form)) {
    family ||= getComputedStyle(document.body).fontFamily;
    context.font = `${font} ${family}`;
    widths.set(form, Math.ceil(context.measureText(form.slice(font.length + 1)).width * 1.02));
  }
  return widths.get(form);
}

// Returns the width of a scroll bar of a grid; each system has its own width.
export function barWidth() {
  if (bar === undefined) {
    const probe = document.createElement("div");
    probe.className = "grid probe";
    document.body.append(probe);
    bar = probe.offsetWidth - probe.clientWidth;
    probe.remove();
  }
  return bar;
}
