// Plots as SVG. The points are answers of the program; here they are only put in their places, for which double precision is enough.

import { draw } from "./dom.js";
import { number, shown } from "./numbers.js";

const [WIDE, HIGH, LEFT, BELOW, ABOVE] = [440, 190, 56, 20, 10];
const BARS = 60; // of more points a line is drawn
const DOTS = 40; // of more points a line has none
const SHORT = [[1e12, "T"], [1e9, "G"], [1e6, "M"], [1e4, "k"]];

// points: rows of texts; for pieces, the least and the greatest item of each. names: of the rows. titles: of the items.
export function plot({ points, shape, pieces, decimals = 0, names, titles }) {
  const numbers = points.map((rows) => rows.map((row) => row.map(number)));
  const svg = draw("svg", { viewBox: `0 0 ${WIDE} ${HIGH}`, class: "chart", role: "img" });
  if (shape.length === 2 && points.length === 1 && points[0].length > 8) return heat(svg, points[0], numbers[0], pieces, decimals);
  const all = numbers.flat(2);
  const y = scale(all.reduce((a, b) => Math.min(a, b), 0), all.reduce((a, b) => Math.max(a, b), 0));
  const count = numbers[0][0].length;
  const x = (at) => LEFT + ((at + 0.5) * (WIDE - LEFT - 6)) / count;
  const chart = { svg, x, y, count, decimals, title: (at) => titles?.[at] ?? shown(String(at * pieces.at(-1)[0] + 1)) };
  ticks(chart);
  if (numbers.length === 2) numbers[0].forEach((low, row) => envelope(chart, low, numbers[1][row], row));
  else if (numbers[0].length === 1 && count <= BARS) bars(chart, numbers[0][0], points[0][0]);
  else numbers[0].forEach((row, at) => line(chart, row, points[0][at], names?.[at] ?? String(at + 1), at));
  if (shape.length === 2) legend(svg, numbers[0].length, names);
  return svg;
}

function ticks({ svg, x, y, count, decimals, title }) {
  for (const tick of y.ticks) {
    svg.append(draw("line", { x1: LEFT, x2: WIDE - 6, y1: y(tick), y2: y(tick), class: tick === 0 ? "zero" : "tick" }));
    svg.append(draw("text", { x: LEFT - 6, y: y(tick) + 3.5, class: "side" }, short(tick / 10 ** decimals)));
  }
  const longest = Math.max(...Array.from({ length: Math.min(count, 60) }, (_, at) => title(count - 1 - at).length));
  const step = Math.ceil((count * (longest * 6 + 8)) / (WIDE - LEFT));
  for (let at = 0; at < count; at += step) svg.append(draw("text", { x: x(at), y: HIGH - 6, class: "under" }, title(at)));
}

function bars({ svg, x, y, count, decimals, title }, row, texts) {
  const wide = Math.max(Math.min(((WIDE - LEFT) / count) * 0.7, 26), 1);
  row.forEach((value, at) => {
    const place = { x: x(at) - wide / 2, width: wide, y: Math.min(y(value), y(0)), height: Math.max(Math.abs(y(value) - y(0)), 0.5) };
    svg.append(draw("rect", { ...place, class: value < 0 ? "bar below" : "bar" }, draw("title", {}, `${title(at)}: ${shown(texts[at], decimals)}`)));
  });
}

function line({ svg, x, y, decimals, title }, row, texts, name, at) {
  svg.append(draw("polyline", { points: row.map((value, place) => `${x(place)},${y(value)}`).join(" "), class: `line s${(at % 8) + 1}` }));
  if (row.length > DOTS) return;
  row.forEach((value, place) => {
    const told = draw("title", {}, `${name}, ${title(place)}: ${shown(texts[place], decimals)}`);
    svg.append(draw("circle", { cx: x(place), cy: y(value), r: 2.6, class: `dot s${(at % 8) + 1}` }, told));
  });
}

function envelope({ svg, x, y }, low, high, at) {
  const path = [...high.map((value, place) => `${x(place)},${y(value)}`), ...low.map((value, place) => `${x(place)},${y(value)}`).reverse()];
  svg.append(draw("polygon", { points: path.join(" "), class: `band s${(at % 8) + 1}` }));
}

function legend(svg, count, names) {
  for (let at = 0, x = LEFT; at < count && x < WIDE - 40; at++) {
    const name = (names?.[at] ?? String(at + 1)).trim().slice(0, 14);
    svg.append(draw("rect", { x, y: 0, width: 8, height: 8, rx: 2, class: `key s${(at % 8) + 1}` }), draw("text", { x: x + 11, y: 8, class: "legend" }, name));
    x += 24 + name.length * 6;
  }
}

// A map of the greatest item of each piece.
function heat(svg, texts, rows, pieces, decimals) {
  const all = rows.flat();
  const [least, greatest] = [all.reduce((a, b) => Math.min(a, b)), all.reduce((a, b) => Math.max(a, b))];
  const [wide, high] = [(WIDE - LEFT - 6) / rows[0].length, (HIGH - BELOW) / rows.length];
  const shade = (value) => (greatest > least ? 0.06 + (0.94 * (value - least)) / (greatest - least) : 0.3);
  const places = (at, axis) => `${at * pieces[axis][0] + 1}${pieces[axis][0] > 1 ? `–${(at + 1) * pieces[axis][0]}` : ""}`;
  const most = pieces[0][0] * pieces[1][0] > 1 ? "at most " : "";
  rows.forEach((row, r) =>
    row.forEach((value, c) => {
      const told = draw("title", {}, `rows ${places(r, 0)}, columns ${places(c, 1)}: ${most}${shown(texts[r][c], decimals)}`);
      svg.append(draw("rect", { x: LEFT + c * wide, y: r * high, width: wide + 0.3, height: high + 0.3, class: "heat", "fill-opacity": shade(value) }, told));
    }),
  );
  for (const at of [0, rows.length - 1]) svg.append(draw("text", { x: LEFT - 6, y: at ? HIGH - BELOW - 2 : 10, class: "side" }, String(at * pieces[0][0] + 1)));
  for (const at of [0, rows[0].length - 1]) svg.append(draw("text", { x: LEFT + (at + 0.5) * wide, y: HIGH - 6, class: "under" }, String(at * pieces[1][0] + 1)));
  return svg;
}

// A function from values to pixels, with round values for ticks.
function scale(least, greatest) {
  const span = greatest - least || 1;
  const rough = span / 4;
  const power = 10 ** Math.floor(Math.log10(rough));
  const step = [1, 2, 5, 10].map((factor) => factor * power).find((size) => size >= rough);
  const [from, to] = [Math.floor(least / step) * step, Math.ceil(greatest / step) * step || step];
  const y = (value) => ABOVE + 6 + (HIGH - BELOW - ABOVE - 6) * (1 - (value - from) / (to - from));
  y.ticks = Array.from({ length: Math.round((to - from) / step) + 1 }, (_, at) => from + at * step);
  return y;
}

function short(value) {
  const [size, sign] = SHORT.find(([size]) => Math.abs(value) >= size) ?? [1, ""];
  const scaled = sign === "k" ? value / 1e3 : value / size;
  return `${+scaled.toPrecision(3)}${sign}`.replace("-", "−");
}
