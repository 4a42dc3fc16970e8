// The head of the page: which session, scenes, files, undo and redo.

import * as api from "./api.js";
import { button, by, make } from "./dom.js";

export class Menu {
  constructor(page) {
    this.page = page;
    by("sessions").addEventListener("change", () => page.act(() => page.open(Number(by("sessions").value))));
    by("undo").addEventListener("click", () => page.change(() => api.undo(page.store.session)));
    by("redo").addEventListener("click", () => page.change(() => api.redo(page.store.session)));
    by("close").addEventListener("click", () => page.act(() => this.close()));
    by("empty").addEventListener("click", () => this.begin(() => api.upload("empty", new Blob([]))));
    by("upload").addEventListener("change", () => this.upload());
    document.addEventListener("keydown", (event) => this.key(event));
    document.addEventListener("click", (event) => {
      if (!by("menu").contains(event.target) && this.page.store.session !== null) by("menu").open = false;
    });
  }

  // What is open, and what can be opened.
  overview({ sessions, scenes }) {
    const options = sessions.map(({ session, name }) => make("option", { value: session }, `${session}: ${name}`));
    by("sessions").replaceChildren(...options);
    const open = (scene, name) => button(name, () => this.begin(() => api.open(scene)), { "data-scene": scene });
    by("scenes").replaceChildren(...Object.entries(scenes).map(([scene, name]) => make("li", {}, open(scene, name))));
  }

  // What belongs to the session that is shown.
  show() {
    const { session, undo, redo } = this.page.store;
    by("sessions").value = session ?? "";
    for (const [name, line] of [["undo", undo], ["redo", redo]]) {
      by(name).disabled = !line;
      by(name).title = line ?? "";
    }
    by("close").disabled = session === null;
    by("save").toggleAttribute("aria-disabled", session === null);
    if (session === null) by("save").removeAttribute("href");
    else by("save").href = api.fileAddress(session);
  }

  begin(open) {
    by("menu").open = false;
    return this.page.act(async () => {
      const said = await open();
      this.overview(await api.desk());
      await this.page.show(said);
    });
  }

  upload() {
    const [file] = by("upload").files;
    by("upload").value = "";
    if (file) this.begin(() => api.upload(file.name, file));
  }

  async close() {
    if (this.page.store.undo && !window.confirm("Close the session? What was not saved is lost.")) return;
    const told = await api.close(this.page.store.session);
    this.overview(told);
    const next = told.sessions[told.sessions.length - 1];
    if (next) await this.page.open(next.session);
    else this.page.nothing();
  }

  key(event) {
    if (event.key === "Escape" && by("menu").open) {
      by("menu").open = false;
      by("menu").firstElementChild.focus();
    }
    if (!(event.ctrlKey || event.metaKey) || event.key.toLowerCase() !== "z") return;
    if (event.target.matches("input[type=number], #line")) return;
    event.preventDefault();
    by(event.shiftKey ? "redo" : "undo").click();
  }
}
