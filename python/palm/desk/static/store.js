// The session as the page knows it. Each change says which variables to show anew.

import * as runs from "./runs.js";

export class Variable {
  constructor([name, universe, present], words) {
    this.name = name;
    this.size = runs.count(universe);
    this.values = [];
    for (const [first, last] of universe) for (let value = first; value <= last; value++) this.values.push(value);
    this.words = words;
    this.present = present;
    this.back = [];
    this.gone = [];
  }

  // What a value is called.
  word(place) {
    return this.words ? this.words[place] : String(this.values[place]);
  }

  wordOf(value) {
    const place = this.values.indexOf(value);
    return place < 0 ? String(value) : this.word(place);
  }

  // Takes the present places of a new state; says whether there is anything to show.
  become(present) {
    const had = this.back.length > 0 || this.gone.length > 0;
    this.back = runs.minus(present, this.present);
    this.gone = runs.minus(this.present, present);
    this.present = present;
    return had || this.back.length > 0 || this.gone.length > 0;
  }

  // The present values, for people: runs of them, or words.
  summary() {
    if (this.words) return this.present.flatMap(([first, last]) => this.words.slice(first, last + 1)).join(", ");
    const values = [];
    for (const [first, last] of this.present) values.push(...this.values.slice(first, last + 1));
    return runs.text(runs.of(values));
  }
}

const constraintOf = ([number, name, text, active, weight]) => ({ number, name, text, active, weight });

export class Store {
  constructor() {
    this.clear();
  }

  clear() {
    this.session = null;
    this.revision = -1;
    this.variables = [];
    this.byName = new Map();
    this.constraints = new Map();
    this.contradiction = null;
    this.notes = { tasks: [], words: {}, background: [] };
  }

  // All of a session.
  take(said) {
    const before = said.session === this.session ? this.byName : new Map();
    this.heading(said);
    this.variables = [];
    this.byName = new Map();
    said.variables.forEach((told) => this.add(told, before.get(told[0])));
    this.constraints = new Map(said.constraints.map((told) => [told[0], constraintOf(told)]));
  }

  add(told, before) {
    const variable = new Variable(told, this.notes.words[told[0]]);
    if (before && before.size === variable.size) {
      const present = variable.present;
      variable.present = before.present;
      variable.become(present);
    }
    this.variables.push(variable);
    this.byName.set(variable.name, variable);
  }

  // What changed. Gives the variables to show anew, or null where the whole grid has to be.
  change(said) {
    if (said.whole) {
      this.take({ ...said, ...said.whole });
      return null;
    }
    const words = JSON.stringify(said.notes) !== JSON.stringify(this.notes);
    this.heading(said);
    const shown = [];
    this.variables.forEach((variable, at) => {
      if (variable.become(said.domains[at] ?? variable.present)) shown.push(variable);
    });
    for (const number of said.retracted) this.constraints.delete(number);
    for (const told of said.constraints) this.constraints.set(told[0], constraintOf(told));
    if (words) this.variables.forEach((variable) => (variable.words = this.notes.words[variable.name]));
    said.variables.forEach((told) => this.add(told));
    return words || said.variables.length ? null : shown;
  }

  heading(said) {
    for (const name of ["session", "name", "revision", "undo", "redo", "paused", "contradiction", "notes"]) this[name] = said[name];
    if (said.whole) Object.assign(this, { paused: said.whole.paused, contradiction: said.whole.contradiction });
  }

  constraint(name) {
    for (const constraint of this.constraints.values()) if (constraint.name === name) return constraint;
    return null;
  }

  isBackground(name) {
    return this.notes.background.some((one) => name === one || name.startsWith(`${one}_`));
  }
}
