// The line: any line of a session, its reply, and what to do where it is refused.

import { by, make, prose } from "./dom.js";

const SHOWN = 12;

export class Line {
  constructor(page) {
    this.page = page;
    this.before = [];
    this.at = 0;
    by("line-form").addEventListener("submit", (event) => {
      event.preventDefault();
      this.submit();
    });
    by("line").addEventListener("keydown", (event) => this.recall(event));
  }

  async submit() {
    const field = by("line");
    const text = field.value;
    if (!text.trim()) return;
    this.before.push(text);
    this.at = this.before.length;
    const said = await this.page.send([text]);
    if (said && !said.refused.length) field.value = "";
  }

  // Up and down go through the lines that were sent.
  recall(event) {
    const step = { ArrowUp: -1, ArrowDown: 1 }[event.key];
    if (!step) return;
    this.at = Math.max(0, Math.min(this.before.length, this.at + step));
    by("line").value = this.before[this.at] ?? "";
    event.preventDefault();
  }

  // What came of lines: each refused one with its reason, or the last reply.
  show({ replies = [], refused = [], said = [] }) {
    const last = replies[replies.length - 1];
    const reply = !refused.length && last ? [this.reply(last)] : [];
    const notices = said.map((text) => make("p", { class: "notice" }, text));
    by("line-said").replaceChildren(...refused.slice(0, SHOWN).map((row) => this.refusal(row)), ...reply, ...notices);
  }

  reply({ line, reply }) {
    const sent = make("code", {}, line);
    const isShort = !reply.length || ["ok", "contradiction"].includes(reply[0]);
    if (isShort) return make("p", { class: "taken" }, sent, ` ${reply[0] ?? ""}`);
    return make("div", { class: "taken" }, sent, make("pre", { tabindex: "0" }, reply.slice(0, 200).join("\n")));
  }

  refusal({ line, reply, advice, number }) {
    const place = number ? `line ${number}: ` : "";
    const sent = make("code", {}, line.slice(0, 200));
    return make("p", { class: "refusal" }, place, sent, make("strong", {}, ` ${reply}`), make("br"), ...prose(advice));
  }
}
