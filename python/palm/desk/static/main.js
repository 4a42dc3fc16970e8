// The page: brings its parts together. Each call waits for the one before it.

import * as api from "./api.js";
import { Contradiction } from "./contradiction.js";
import { by } from "./dom.js";
import { Grid } from "./grid.js";
import { Line } from "./line.js";
import { List } from "./list.js";
import { Menu } from "./menu.js";
import { Search } from "./search.js";
import { Store } from "./store.js";
import { Why } from "./why.js";

class Page {
  constructor() {
    this.store = new Store();
    this.before = Promise.resolve();
    this.grid = new Grid(by("grid"), (variable, place) => this.act(() => this.why.ask(variable, place)));
    this.list = new List(by("list"), (line) => this.send([line]));
    this.why = new Why(this);
    this.contradiction = new Contradiction(this);
    this.line = new Line(this);
    this.menu = new Menu(this);
    this.search = new Search(this);
    by("resume").addEventListener("click", () => this.send(["resume"]));
  }

  async begin() {
    const told = await api.desk();
    this.menu.overview(told);
    const last = told.sessions[told.sessions.length - 1];
    if (last) await this.open(last.session);
    else this.nothing();
  }

  // Does some work behind what was begun before; what goes wrong is said.
  act(work) {
    this.before = this.before.then(work).catch((error) => {
      this.say(error.message);
      this.list.restore();
      if (!(error instanceof api.Refusal)) throw error;
    });
    return this.before;
  }

  send(lines) {
    return this.change(() => api.send(this.store.session, lines));
  }

  // A change of the session: what changed is shown.
  change(call) {
    return this.act(async () => {
      if (this.store.session === null) throw new api.Refusal(0, { error: "open a session first" });
      const said = await call();
      if (said.before !== this.store.revision || said.session !== this.store.session) {
        await this.show({ ...(await api.whole(said.session)), replies: said.replies, refused: said.refused, said: said.said });
        return said;
      }
      this.timed(() => this.shown(said));
      return said;
    });
  }

  shown(said) {
    const before = this.store.revision;
    const had = this.store.contradiction;
    const variables = this.store.change(said);
    if (variables) this.grid.update(variables);
    else {
      this.grid.rebuild(this.store);
      this.search.targets();
    }
    this.list.show(this.store);
    this.heading();
    this.line.show(said);
    if (said.refused.length) this.list.restore();
    if (this.store.revision === before) return;
    this.why.clear();
    if (had || this.store.contradiction) this.contradiction.show();
    this.say(this.news(had));
  }

  // What a change has done, for those who do not see it.
  news(had) {
    const { contradiction, paused, variables } = this.store;
    if (contradiction) return `Contradiction: ${contradiction.variable ?? "a variable"} has no value left.`;
    if (paused) return "Paused.";
    const sum = (runs) => runs.reduce((all, [first, last]) => all + last - first + 1, 0);
    const gone = variables.reduce((all, variable) => all + sum(variable.gone), 0);
    const back = variables.reduce((all, variable) => all + sum(variable.back), 0);
    const values = [gone ? `${gone} gone` : "", back ? `${back} back` : ""].filter(Boolean).join(", ");
    return `${had ? "No contradiction any longer. " : ""}Values: ${values || "none changed"}.`;
  }

  // Another session.
  async open(session) {
    await this.show(await api.whole(session));
  }

  async show(said) {
    const other = said.session !== this.store.session;
    if (other) {
      this.store.clear();
      this.list.clear();
    }
    this.store.take(said);
    this.grid.rebuild(this.store);
    this.list.show(this.store);
    this.heading();
    this.line.show(said);
    this.why.clear();
    this.contradiction.show();
    if (other) await this.search.open();
  }

  nothing() {
    this.store.clear();
    this.list.clear();
    this.grid.rebuild(this.store);
    this.heading();
    this.why.clear();
    this.contradiction.show();
    this.search.show({});
    by("menu").open = true;
  }

  heading() {
    const { constraints, variables, paused, session, name } = this.store;
    const active = [...constraints.values()].filter((constraint) => constraint.active).length;
    by("counts").textContent = session === null ? "" : `${active} of ${constraints.size} active`;
    by("paused").hidden = !paused;
    by("grid").classList.toggle("paused", Boolean(paused));
    document.title = session === null ? "palm desk" : `${name} · palm desk`;
    by("values-title").textContent = session === null ? "Values" : `Values of ${variables.length} variables`;
    this.menu.show();
  }

  say(text) {
    by("status").textContent = text ?? "";
  }

  // Measures the time from here to the next frame.
  timed(work) {
    const begun = performance.now();
    work();
    requestAnimationFrame(() => {
      const channel = new MessageChannel();
      channel.port1.onmessage = () => performance.measure("paint", { start: begun });
      channel.port2.postMessage(null);
    });
  }
}

const page = new Page();
page.act(() => page.begin());
