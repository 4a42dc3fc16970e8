// The panel that says why: the constraints that keep a value out, their steps, and a certificate of it.

import * as api from "./api.js";
import { button, by, make } from "./dom.js";
import { stepsPicture } from "./steps.js";

export class Why {
  constructor(page) {
    this.page = page;
    this.clear();
  }

  clear() {
    this.goal = null;
    by("why-text").textContent = "Click a value that is gone, or press Enter on it, to see which constraints keep it out.";
    this.show([], [], null);
    by("why-actions").replaceChildren();
    this.page.grid?.mark(null);
  }

  // A value was clicked.
  async ask(variable, place, minimal = false) {
    const { store, grid } = this.page;
    const value = variable.values[place];
    const word = variable.word(place);
    const goal = (this.goal = { variable: variable.name, value });
    grid.mark(variable.name, value);
    const said = await api.why(store.session, { name: variable.name, value, ...(minimal ? { minimal: 1 } : {}) });
    if (this.goal !== goal) return;
    if (!said.names.length) {
      by("why-text").textContent = said.said ?? `${variable.name} can be ${word}: no constraint keeps it out.`;
      by("why-actions").replaceChildren();
      this.show([], [], goal);
      return;
    }
    const many = said.names.length === 1 ? "this constraint" : `these ${said.names.length} constraints`;
    const none = minimal ? ", of which none can be left out" : "";
    by("why-text").textContent = `${variable.name} cannot be ${word}, because of ${many}${none}:`;
    const more = button("Minimal", () => this.page.act(() => this.ask(variable, place, true)));
    this.offer(minimal || store.contradiction ? null : more, { name: variable.name, value });
    this.show(said.names, minimal ? [] : said.steps, goal);
  }

  // The steps of the contradiction.
  async askConflict() {
    const goal = (this.goal = {});
    this.page.grid.mark(null);
    const said = await api.conflict(this.page.store.session);
    if (this.goal !== goal || !said.names.length) return;
    goal.variable = said.variable;
    by("why-text").textContent = `${said.variable} has no value left, because of these ${said.names.length} constraints:`;
    this.offer(null, {});
    this.show(said.names, said.steps, goal);
    by("why-title").scrollIntoView({ block: "nearest" });
  }

  show(names, steps, goal) {
    const { store, list } = this.page;
    by("why-names").replaceChildren(...names.map((name) => make("li", {}, name)));
    by("steps").replaceChildren(...(steps.length ? stepsPicture(store, steps, goal, (some) => list.light(some)) : []));
    list?.light(names);
    if (names.length && matchMedia("(max-width: 60rem)").matches) by("why").scrollIntoView({ block: "nearest" });
  }

  offer(more, query) {
    const certify = button("Certificate", () => this.page.act(() => this.certify(query)));
    by("why-actions").replaceChildren(...[more, this.page.store.contradiction && query.name ? null : certify].filter(Boolean));
  }

  async certify(query) {
    const { session } = this.page.store;
    const said = await api.certificate(session, query);
    if (!said.document) return this.page.say(said.said);
    by("why-actions").append(verdict(session, said, "certificate"));
  }
}

// A document to download, with what a second process says of it.
export function verdict(session, said, what) {
  if (!said.document) return make("span", { class: "verdict" }, said.verdict ?? "");
  const address = api.documentAddress(session, said.document);
  const link = make("a", { class: "button", href: address, download: true }, `Download the ${what}`);
  const text = said.accepted ? "✓ accepted by a second process" : `✗ ${said.verdict}`;
  const mark = make("span", { class: said.accepted ? "verdict accepted" : "verdict refused", title: said.verdict }, text);
  return make("span", { class: "document" }, link, mark);
}
