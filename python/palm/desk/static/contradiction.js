// The panel of a contradiction: what cannot hold together, a button to relax each, and what to leave by the weights.

import * as api from "./api.js";
import { button, by, make } from "./dom.js";

export class Contradiction {
  constructor(page) {
    this.page = page;
    this.revision = null;
    by("conflict-steps").addEventListener("click", () => page.act(() => page.why.askConflict()));
    by("ask-preferred").addEventListener("click", () => page.act(() => this.prefer()));
  }

  // Shows the conflict that there is, and asks for a minimal one.
  show() {
    const { contradiction, revision, session } = this.page.store;
    const panel = by("contradiction");
    if (!contradiction && panel.contains(document.activeElement)) by("constraints").focus({ preventScroll: true });
    panel.hidden = !contradiction;
    by("preferred").hidden = true;
    this.asked = `${session} ${revision}`;
    if (!contradiction) return;
    const { variable, names } = contradiction;
    const looking = "Looking for the fewest constraints to choose from …";
    by("contradiction-text").textContent = `${variable ?? "A variable"} has no value left. ${looking}`;
    this.list(names);
    const whole = by("whole-conflict");
    whole.firstElementChild.textContent = `The conflict as it was found: ${names.length} constraints`;
    whole.lastElementChild.replaceChildren(...names.map((name) => make("li", {}, name)));
    this.page.list.light(names);
    this.reduce(this.asked, variable);
  }

  async reduce(asked, variable) {
    try {
      const { names } = await api.conflict(this.page.store.session, { minimal: 1 });
      if (this.asked !== asked || !names.length) return;
      const together = `These ${names.length} cannot hold together, and none can be left out`;
      const many = names.length === 1 ? "This constraint cannot hold" : together;
      by("contradiction-text").textContent = `${variable ?? "A variable"} has no value left. ${many}: one has to go.`;
      if (names.length < this.page.store.contradiction.names.length) this.list(names);
      this.page.list.light(names);
    } catch (error) {
      this.page.say(error.message);
    }
  }

  // The members, the lightest first and the hard ones last.
  list(names) {
    const { store } = this.page;
    const members = names.map((name) => store.constraint(name)).filter(Boolean);
    members.sort((one, other) => (one.weight ?? Infinity) - (other.weight ?? Infinity) || one.number - other.number);
    by("members").replaceChildren(...members.map((member) => this.member(member)));
  }

  member({ name, text, weight }) {
    const relax = button("Relax", () => this.page.send([`relax ${name}`]), { "aria-label": `relax ${name}` });
    const told = make("span", { class: "weight" }, weight === null ? "hard" : `weight ${weight}`);
    return make("li", {}, relax, make("span", { class: "name" }, name), make("code", { class: "text" }, text), told);
  }

  async prefer() {
    const said = await api.preferred(this.page.store.session);
    const panel = by("preferred");
    panel.hidden = false;
    if (said.leave) panel.replaceChildren(...this.advice(said));
    else panel.replaceChildren(make("p", {}, said.hard ? hard(said.hard) : said.said));
  }

  advice({ keep, leave }) {
    const rows = leave.map(({ name, conflict }) => {
      const others = conflict.filter((other) => other !== name).join(", ");
      return make("li", {}, make("strong", {}, name), others ? `, in the way of ${others}` : ", which cannot hold");
    });
    const lines = leave.map(({ name }) => `relax ${name}`);
    const text = leave.length === 1 ? "Relax it" : `Relax these ${leave.length}`;
    const apply = button(text, () => this.page.send(lines), { id: "apply-preferred", class: "main" });
    return [make("p", {}, `Keep ${keep.length}, and leave:`), make("ul", {}, ...rows), apply];
  }
}

function hard(names) {
  return `No weight helps: ${names.join(", ")} are hard, and cannot hold together. Relax one, or give it a weight.`;
}
