// A solution: a chart where tasks are known, and a table; where the names make one, a table of rows and columns.

import { by, draw, make } from "./dom.js";

const LANE = 26;

export class Solution {
  constructor(page) {
    this.page = page;
  }

  show(told) {
    const { store } = this.page;
    const values = told.values ?? told.best;
    by("solution").hidden = !values;
    if (!values) return;
    const checked = told.satisfied && "✓ a second process finds every constraint satisfied";
    const old = told.revision !== store.revision && "of the session before its latest change";
    by("solution-said").textContent = [checked, old].filter(Boolean).join("; ");
    const key = JSON.stringify([store.session, values]);
    if (key === this.key) return;
    this.key = key;
    by("chart").replaceChildren(...chart(store.notes.tasks, values));
    by("table").replaceChildren(table(store, values));
    by("solution").scrollIntoView({ block: "nearest" });
  }
}

// A bar for each task, in lanes: what stands before a slash in its name, or the whole name.
function chart(tasks, values) {
  const long = (length) => (typeof length === "number" ? length : values[length]);
  const bars = tasks.map(({ name, start, length }) => ({ name, from: values[start], length: long(length) }));
  if (!bars.length || bars.some((bar) => bar.from === undefined || bar.length === undefined)) return [];
  const laneOf = (bar) => bar.name.split("/")[0];
  const lanes = [...new Set(bars.map(laneOf))];
  const kinds = [...new Set(bars.map((bar) => bar.name.split("/")[1] ?? bar.name))];
  const first = Math.min(...bars.map((bar) => bar.from));
  const last = Math.max(...bars.map((bar) => bar.from + bar.length));
  const left = Math.max(...lanes.map((lane) => lane.length)) * 7.5 + 14;
  const room = by("chart").clientWidth - left - 14;
  const unit = Math.max(6, Math.min(34, room / (last - first)));
  const size = { width: left + (last - first) * unit + 12, height: lanes.length * LANE + 26 };
  const box = { viewBox: `0 0 ${size.width} ${size.height}`, ...size, role: "img", "aria-label": words(bars) };
  const heads = lanes.map((lane, at) => draw("text", { x: left - 8, y: at * LANE + 18, class: "lane" }, lane));
  const picture = draw("svg", { class: "chart", ...box }, ...scale(first, last, left, unit, lanes.length), ...heads);
  for (const bar of bars) picture.append(task(bar, lanes.indexOf(laneOf(bar)), kinds, left + (bar.from - first) * unit, unit));
  return [make("div", { class: "scroll", tabindex: "0", role: "region", "aria-label": "Chart of the tasks" }, picture)];
}

function words(bars) {
  return `Chart of tasks: ${bars.map(({ name, from, length }) => `${name} from ${from} to ${from + length}`).join("; ")}`;
}

function scale(first, last, left, unit, lanes) {
  const step = [1, 2, 5, 10, 20, 50, 100].find((one) => one * unit >= 28) ?? 1000;
  const lines = [];
  for (let at = Math.ceil(first / step) * step; at <= last; at += step) {
    const x = left + (at - first) * unit;
    lines.push(draw("path", { class: "rule", d: `M${x} 2V${lanes * LANE + 4}` }));
    lines.push(draw("text", { x, y: lanes * LANE + 20, class: "tick" }, String(at)));
  }
  return lines;
}

function task(bar, lane, kinds, x, unit) {
  const label = bar.name.split("/")[1] ?? "";
  const kind = kinds.indexOf(label || bar.name) % 8;
  const width = Math.max(2, bar.length * unit - 1);
  const title = draw("title", {}, `${bar.name}: ${bar.from} to ${bar.from + bar.length}`);
  const frame = draw("rect", { x, y: lane * LANE + 3, width, height: LANE - 6, rx: 3 });
  const text = width > label.length * 8 + 2 ? draw("text", { x: x + width / 2, y: lane * LANE + 18, class: "label" }, label) : null;
  return draw("g", { class: `task kind${kind}` }, title, frame, text);
}

function table(store, values) {
  const shown = Object.keys(values).filter((name) => !store.isBackground(name));
  const matrix = matrixOf(shown);
  const word = (name) => store.byName.get(name)?.wordOf(values[name]) ?? String(values[name]);
  const rest = shown.filter((name) => !matrix?.names.has(name));
  const parts = [matrix ? matrixTable(matrix, word) : null, rest.length ? plainTable(rest, word) : null];
  return make("div", { class: "tables" }, ...parts.filter(Boolean));
}

// Where names are of the form row_column or rIcJ, and every row has every column: these.
function matrixOf(names) {
  for (const form of [/^(r\d+)(c\d+)$/, /^(.+)_([^_]+)$/]) {
    const found = names.map((name) => form.exec(name)).filter(Boolean);
    const rows = [...new Set(found.map((match) => match[1]))];
    const columns = [...new Set(found.map((match) => match[2]))];
    if (rows.length > 1 && columns.length > 1 && found.length === rows.length * columns.length) {
      const at = new Map(found.map((match) => [`${match[1]} ${match[2]}`, match[0]]));
      return { rows, columns, at, names: new Set(at.values()) };
    }
  }
  return null;
}

function matrixTable({ rows, columns, at }, word) {
  const head = make("tr", {}, make("td", {}), ...columns.map((column) => make("th", { scope: "col" }, column)));
  const cells = (row) => columns.map((column) => make("td", {}, word(at.get(`${row} ${column}`))));
  const body = rows.map((row) => make("tr", {}, make("th", { scope: "row" }, row), ...cells(row)));
  return make("table", { class: "matrix" }, make("thead", {}, head), make("tbody", {}, ...body));
}

function plainTable(names, word) {
  const rows = names.map((name) => make("div", {}, make("dt", {}, name), make("dd", {}, word(name))));
  return make("dl", { class: "values" }, ...rows);
}
