// The list: each constraint with a tick, a weight and its text, in groups by the prefix of its name.

import { button, make } from "./dom.js";

const prefixOf = (name) => (name.includes("_") ? name.slice(0, name.indexOf("_")) : name.replace(/[0-9]+$/, "")) || name;

class Item {
  constructor(constraint, act) {
    const { name, text } = constraint;
    this.tick = make("input", { type: "checkbox", onchange: () => act(`${this.tick.checked ? "enforce" : "relax"} ${name}`) });
    const range = { min: "1", max: "1000000", placeholder: "hard" };
    this.weight = make("input", { type: "number", class: "weight", ...range, "aria-label": `weight of ${name}` });
    this.weight.addEventListener("change", () => act(`prefer ${name} ${this.weight.value.trim() || "none"}`));
    const label = make("label", {}, this.tick, make("span", { class: "name" }, name));
    const told = make("code", { class: "text", title: text }, text);
    const cross = { class: "retract", "aria-label": `retract ${name}`, title: "retract" };
    const retract = button("×", () => act(`retract ${name}`), cross);
    this.element = make("li", { class: "constraint" }, label, told, this.weight, retract);
    this.element.dataset.name = name;
    this.show(constraint);
  }

  show(constraint) {
    this.constraint = constraint;
    this.tick.checked = constraint.active;
    this.weight.value = constraint.weight ?? "";
    this.element.classList.toggle("relaxed", !constraint.active);
    this.element.classList.toggle("soft", constraint.weight !== null);
  }

  light(lit) {
    this.element.classList.toggle("lit", lit);
    if (lit) this.element.setAttribute("aria-current", "true");
    else this.element.removeAttribute("aria-current");
  }
}

export class List {
  constructor(element, act) {
    this.element = element;
    this.act = act;
    this.clear();
  }

  clear() {
    this.items = new Map();
    this.groups = new Map();
    this.order = "";
    this.names = [];
    this.element.replaceChildren();
  }

  show(store) {
    for (const [number, constraint] of store.constraints) {
      const item = this.items.get(number);
      if (!item) this.items.set(number, new Item(constraint, this.act));
      else if (item.constraint !== constraint) item.show(constraint);
    }
    for (const number of this.items.keys()) if (!store.constraints.has(number)) this.items.delete(number);
    const order = [...this.items.keys()].join() + store.notes.background.join();
    if (order !== this.order) this.arrange(store);
    this.order = order;
    this.light(this.names, false);
  }

  // Each tick and weight as it is, behind a line that was refused.
  restore() {
    for (const item of this.items.values()) item.show(item.constraint);
  }

  // Groups of two and more, where the first of each stands.
  arrange(store) {
    const members = new Map();
    for (const item of this.items.values()) {
      const prefix = prefixOf(item.constraint.name);
      if (!members.has(prefix)) members.set(prefix, []);
      members.get(prefix).push(item);
    }
    const before = this.groups;
    this.groups = new Map();
    const parts = [...members].map(([prefix, items]) => this.part(prefix, items, before.get(prefix), store));
    this.element.replaceChildren(...parts);
  }

  part(prefix, items, before, store) {
    if (items.length === 1 && !store.isBackground(items[0].constraint.name)) {
      return make("ul", { class: "alone" }, items[0].element);
    }
    const background = items.every((item) => store.isBackground(item.constraint.name));
    const open = before ? before.element.open : !background;
    const counts = make("span", { class: "counts" });
    const summary = make("summary", {}, make("span", { class: "prefix" }, prefix), counts);
    const rows = make("ul", {}, ...items.map((item) => item.element));
    const element = make("details", { class: background ? "group background" : "group", open }, summary, rows);
    this.groups.set(prefix, { element, counts, items, background, opened: before?.opened ?? false });
    return element;
  }

  // Lights the constraints of these names; groups that are folded open for them, and fold again behind them.
  light(names, scroll = true) {
    this.names = names;
    const lit = new Set(names);
    let first = null;
    for (const item of this.items.values()) {
      const is = lit.has(item.constraint.name);
      item.light(is);
      if (is && !first) first = item.element;
    }
    for (const group of this.groups.values()) this.lightGroup(group, lit);
    if (first && scroll) this.reveal(first);
  }

  // Scrolls the list, and not the page, as far as is needed.
  reveal(item) {
    const { scrollTop, clientHeight } = this.element;
    const hidden = item.offsetTop < scrollTop || item.offsetTop + item.offsetHeight > scrollTop + clientHeight;
    if (hidden) this.element.scrollTop = item.offsetTop - 40;
  }

  lightGroup(group, lit) {
    const many = group.items.filter((item) => lit.has(item.constraint.name)).length;
    const relaxed = group.items.filter((item) => !item.constraint.active).length;
    const notes = [relaxed && `${relaxed} relaxed`, many && `${many} lit`, group.background && "background"];
    const told = [`${group.items.length}`, ...notes];
    group.counts.textContent = told.filter(Boolean).join(" · ");
    if (many && !group.element.open) {
      group.element.open = true;
      group.opened = true;
    } else if (!many && group.opened) {
      group.element.open = false;
      group.opened = false;
    }
  }
}
