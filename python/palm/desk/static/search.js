// The search: begins it, shows how it goes, stops it, and shows what it found.

import * as api from "./api.js";
import { by, make } from "./dom.js";
import { Solution } from "./solution.js";
import { verdict } from "./why.js";

const EVERY = 250;
const FEW = 12;

export class Search {
  constructor(page) {
    this.page = page;
    this.solution = new Solution(page);
    by("search-form").addEventListener("submit", (event) => {
      event.preventDefault();
      page.act(() => this.begin());
    });
    by("stop").addEventListener("click", () => page.act(async () => this.show(await api.stop(page.store.session))));
    by("kind").addEventListener("change", () => (by("target-label").hidden = by("kind").value === "solve"));
  }

  // The variables that may be a target; the one that was chosen stays.
  targets() {
    const chosen = by("target").value;
    const names = this.page.store.variables.map((variable) => variable.name);
    by("target").replaceChildren(...names.map((name) => make("option", { value: name }, name)));
    const usual = ["done", "total", "cost", "handover"].find((name) => names.includes(name));
    if (names.includes(chosen)) by("target").value = chosen;
    else if (usual) by("target").value = usual;
  }

  // Another session is shown.
  async open() {
    this.targets();
    this.show(await api.progress(this.page.store.session));
  }

  async begin() {
    const given = { kind: by("kind").value, target: by("target").value, seconds: Number(by("seconds").value) };
    this.show(await api.search(this.page.store.session, given));
  }

  show(told) {
    clearTimeout(this.timer);
    const { session } = this.page.store;
    by("start").disabled = Boolean(told.running);
    by("stop").disabled = !told.running;
    this.say(told);
    by("rounds").replaceChildren(...(told.rounds?.length ? [rounds(told)] : []));
    this.solution.show(told);
    if (told.running) this.timer = setTimeout(() => this.poll(session), EVERY);
  }

  // Says it anew where it is something else: a reader for the blind would say it four times a second.
  say(told) {
    by("search-time").textContent = told.running ? `${told.seconds} s` : "";
    const said = told.kind ? this.outcome(told) : [];
    const text = said.map((part) => part.textContent ?? part).join("");
    if (text !== by("search-said").textContent) by("search-said").replaceChildren(...said);
  }

  async poll(session) {
    if (session !== this.page.store.session) return;
    try {
      this.show(await api.progress(session));
    } catch (error) {
      this.page.say(error.message);
    }
  }

  outcome(told) {
    const { outcome, target, values, said } = told;
    const aim = { solve: "a solution", minimize: `the least ${told.target}`, maximize: `the greatest ${told.target}` }[told.kind];
    const best = told.best?.[told.target];
    if (told.running) return [`Looking for ${aim}${best === undefined ? "" : `; the best so far is ${best}`} …`];
    const seconds = ` (${told.seconds} s)`;
    const proof = told.outcome === "none" || told.outcome === "best" ? [" ", verdict(this.page.store.session, told, "proof")] : [];
    if (told.outcome === "found") return [`Found ${aim}${seconds}`];
    const first = `${aim[0].toUpperCase()}${aim.slice(1)} is ${values?.[target]}${seconds}.`;
    if (outcome === "best") return [first, ...names("None is better, because of", told.names), ...proof];
    const none = `There is no solution${seconds}.`;
    if (outcome === "none") return [none, ...names("These have none in common:", told.names), ...proof];
    const known = best === undefined ? "" : ` The best so far is ${best}; better ones may be there.`;
    return [`Not finished${seconds}: ${said}.${known}`];
  }
}

// Names of constraints: many of them are folded.
function names(text, some) {
  if (!some.length) return [];
  const told = make("span", { class: "inline-names" }, some.join(", "));
  if (some.length <= FEW) return [` ${text} `, told];
  return [` ${text} `, make("details", { class: "told" }, make("summary", {}, `${some.length} constraints`), told)];
}

function rounds(told) {
  const heads = ["Guide", "Budget", "Turns spent", "Seconds", "Answer", ...(told.kind === "solve" ? [] : ["Best"])];
  const rows = told.rounds.map(({ guide, budget, turns, seconds, answer, best }) => {
    const spent = turns ? turns.toLocaleString("en") : "–";
    return [guide, budget.toLocaleString("en"), spent, seconds, answer, ...(told.kind === "solve" ? [] : [best ?? ""])];
  });
  const head = make("tr", {}, ...heads.map((text) => make("th", { scope: "col" }, text)));
  const body = rows.map((row) => make("tr", {}, ...row.map((text) => make("td", {}, String(text)))));
  const caption = make("caption", {}, "What was tried");
  return make("table", { class: "rounds" }, caption, make("thead", {}, head), make("tbody", {}, ...body));
}
