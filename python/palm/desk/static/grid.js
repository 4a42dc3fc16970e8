// The grid: a row for each variable, and a cell for each value; where there are many values, bars of runs that open on a click.

import { button, draw, make } from "./dom.js";
import * as runs from "./runs.js";

const CELLS = 24;

class Row {
  constructor(variable) {
    this.variable = variable;
    this.cells = [];
    this.name = make("span", { role: "rowheader", class: "name", title: variable.name }, variable.name);
    this.body = make("span", { class: "body", role: "presentation" });
    this.element = make("div", { role: "row", class: "row" }, this.name, this.body);
    if (variable.size <= CELLS) this.fill(this.body);
    else this.makeBar();
    this.show();
  }

  fill(element) {
    const { variable } = this;
    let longest = 0;
    for (let place = 0; place < variable.size; place++) longest = Math.max(longest, variable.word(place).length);
    this.width = longest * 0.6 + 0.6;
    for (let place = 0; place < variable.size; place++) {
      const cell = make("span", { role: "gridcell", tabindex: "-1", class: "cell" }, variable.word(place));
      cell.place = place;
      cell.style.minWidth = `${this.width}em`;
      this.cells.push(cell);
    }
    element.append(...this.cells);
  }

  makeBar() {
    this.paths = ["track", "present", "back", "gone"].map((kind) => draw("path", { class: kind }));
    const box = { viewBox: `0 0 ${this.variable.size} 24`, preserveAspectRatio: "none", "aria-hidden": "true" };
    const picture = draw("svg", box, ...this.paths);
    this.paths[0].setAttribute("d", runs.path([[0, this.variable.size - 1]], 11, 13));
    this.bar = make("span", { role: "gridcell", tabindex: "-1", class: "bar", "aria-expanded": "false" }, picture);
    this.summary = make("span", { class: "summary", "aria-hidden": "true" });
    this.body.append(this.bar);
    this.element.append(this.summary);
    this.element.classList.add("long");
  }

  zoom() {
    if (!this.zoomed) {
      this.zoomed = make("span", { class: "zoomed", role: "presentation" });
      this.fill(this.zoomed);
      this.element.append(this.zoomed);
      this.show();
    } else {
      this.zoomed.remove();
      this.zoomed = null;
      this.cells = [];
    }
    this.bar.setAttribute("aria-expanded", String(Boolean(this.zoomed)));
  }

  show() {
    const { variable } = this;
    this.element.classList.toggle("empty", variable.present.length === 0);
    if (this.bar) this.showBar();
    for (const cell of this.cells) this.showCell(cell);
  }

  showBar() {
    const { present, back, gone, name, size } = this.variable;
    this.paths[1].setAttribute("d", runs.path(present, 4, 20));
    this.paths[2].setAttribute("d", runs.path(back, 0, 24));
    this.paths[3].setAttribute("d", runs.path(gone, 7, 17));
    const number = runs.count(present);
    const text = number ? this.variable.summary() : "no value left";
    this.summary.textContent = number ? `${number}: ${text}` : text;
    this.summary.title = text;
    const changes = [gone.length ? `${runs.count(gone)} just gone` : "", back.length ? `${runs.count(back)} just back` : ""];
    const parts = [`${name}: ${number} of ${size} values`, ...changes.filter(Boolean), text.slice(0, 200)];
    this.bar.setAttribute("aria-label", parts.join("; "));
  }

  showCell(cell) {
    const { present, back, gone, name } = this.variable;
    const is = runs.has(present, cell.place);
    const just = runs.has(is ? back : gone, cell.place);
    const kind = `cell ${is ? "present" : "gone"}${just ? " just" : ""}`;
    if (cell.kind === kind) return;
    cell.kind = kind;
    cell.className = kind + (cell.classList.contains("asked") ? " asked" : "");
    const state = is ? (just ? "just back" : "present") : just ? "just gone" : "gone";
    cell.setAttribute("aria-label", `${name} ${cell.textContent}: ${state}`);
  }

  // What the keys walk over.
  stops() {
    return this.bar ? [this.bar, ...this.cells] : this.cells;
  }
}

export class Grid {
  constructor(element, ask) {
    this.element = element;
    this.ask = ask;
    this.rows = [];
    element.addEventListener("click", (event) => this.act(event.target.closest("[role=gridcell]")));
    element.addEventListener("keydown", (event) => this.key(event));
    element.addEventListener("focusin", (event) => this.stay(event.target.closest("[role=gridcell]")));
  }

  // All rows anew.
  rebuild(store) {
    const zoomed = new Set(this.rows.filter((row) => row.zoomed).map((row) => row.variable.name));
    this.rows = store.variables.map((variable) => new Row(variable));
    this.byName = new Map(this.rows.map((row) => [row.variable.name, row]));
    this.rows.filter((row) => row.bar && zoomed.has(row.variable.name)).forEach((row) => row.zoom());
    const hidden = this.rows.filter((row) => store.isBackground(row.variable.name));
    const shown = this.rows.filter((row) => !hidden.includes(row));
    this.element.replaceChildren(...shown.map((row) => row.element), ...this.fold(hidden));
    this.measure(shown);
    this.tab = null;
    const first = shown[0]?.stops()[0];
    if (first) this.stay(first);
    if (!this.rows.length) this.element.append(nothing());
  }

  // Rows of the background, below the others and folded.
  fold(rows) {
    if (!rows.length) return [];
    const group = make("div", { role: "rowgroup", class: "background", hidden: true }, ...rows.map((row) => row.element));
    const toggle = button(`${rows.length} background variables`, () => {
      group.hidden = !group.hidden;
      toggle.setAttribute("aria-expanded", String(!group.hidden));
    }, { class: "fold", "aria-expanded": "false" });
    return [make("div", { role: "row", class: "toggle" }, make("span", { role: "presentation" }, toggle)), group];
  }

  // As many columns of rows as there is room for.
  measure(rows) {
    const names = Math.min(15, Math.max(3, ...rows.map((row) => row.variable.name.length)) * 0.58 + 0.8);
    const bodies = rows.map((row) => (row.bar ? 17 : row.variable.size * (row.width + 0.2)));
    this.element.style.setProperty("--name", `${names}em`);
    this.element.style.columnWidth = `${Math.min(60, names + Math.max(5, ...bodies) + 1)}em`;
  }

  update(variables) {
    for (const variable of variables) this.byName.get(variable.name).show();
  }

  // Marks the value that was asked about.
  mark(name, value) {
    this.element.querySelectorAll(".asked").forEach((cell) => cell.classList.remove("asked"));
    const row = name && this.byName.get(name);
    const cell = row && row.cells.find((one) => row.variable.values[one.place] === value);
    if (cell) cell.classList.add("asked");
  }

  act(cell) {
    if (!cell) return;
    const row = this.rowOf(cell);
    if (cell === row.bar) row.zoom();
    else this.ask(row.variable, cell.place);
    cell.focus();
  }

  rowOf(cell) {
    return this.byName.get(cell.closest(".row").firstChild.textContent);
  }

  stay(cell) {
    if (!cell) return;
    if (this.tab) this.tab.tabIndex = -1;
    this.tab = cell;
    cell.tabIndex = 0;
  }

  key(event) {
    const cell = event.target.closest("[role=gridcell]");
    if (!cell || event.ctrlKey || event.altKey || event.metaKey) return;
    if (event.key === "Enter" || event.key === " ") this.act(cell);
    else if (!this.walk(cell, event.key)) return;
    event.preventDefault();
  }

  walk(cell, key) {
    const rows = this.rows.filter((row) => row.element.offsetParent);
    const row = this.rowOf(cell);
    const stops = row.stops();
    const at = stops.indexOf(cell);
    const other = rows[rows.indexOf(row) + { ArrowDown: 1, ArrowUp: -1 }[key]];
    const targets = {
      ArrowRight: stops[at + 1],
      ArrowLeft: stops[at - 1],
      Home: stops[0],
      End: stops[stops.length - 1],
      ArrowDown: other?.stops()[Math.min(at, other.stops().length - 1)],
      ArrowUp: other?.stops()[Math.min(at, other.stops().length - 1)],
    };
    if (!(key in targets)) return false;
    targets[key]?.focus();
    return true;
  }
}

function nothing() {
  return make("p", { class: "empty-text" }, "No variables yet: send a line such as ", make("code", {}, "var x 1..9"), ".");
}
