// The form of a new net: which lane of which part drives which other one, and how late it comes there.

import { escaped } from "../core/texts.js";
import { rangeFault, readTyped } from "../core/typed.js";
import { partChoice } from "./part_choice.js";

/** A lane of a sheet: its name, and the names of the parts of which one is meant.
 * @typedef {{ title: string, parts: string[] }} End */

export class NetForm {
  /** `done` is called when the form is closed.
   * @param {HTMLFormElement} form
   * @param {() => void} done */
  constructor(form, done) {
    this.form = form;
    this.done = done;
    this.asked = null;
    form.addEventListener("submit", (event) => this.submit(event));
    form.addEventListener("click", (event) => /** @type {Element} */ (event.target).closest(".cancel") && this.close());
    form.addEventListener("keydown", (event) => event.key === "Escape" && this.close());
  }

  /** Asks for a net from a lane to another one. `take` gets the net as its name, its two pins and its two ends.
   * @param {{ start: End, end: End, unit: { name: string, size: number }, take: (net: object) => void }} asked */
  open(asked) {
    this.asked = asked;
    const { start, end, unit } = asked;
    const isOne = start.parts.join() === end.parts.join();
    this.form.innerHTML =
      `<span>net from ${partChoice("first", start.parts, 0)}<b>${escaped(start.title)}</b> to ${partChoice("second", end.parts, isOne ? 1 : 0)}<b>${escaped(end.title)}</b>:</span> ` +
      `<label>name <input name="title" size="8" value="${escaped(start.title)}" autocomplete="off"></label> ` +
      '<label>delay min <input name="low" size="6" value="0" autocomplete="off"></label> ' +
      `<label>max <input name="high" size="6" value="0" autocomplete="off"></label> ${escaped(unit.name)} ` +
      '<button type="submit">add</button> <button type="button" class="cancel">cancel</button> <span role="alert"></span>';
    this.form.hidden = false;
    this.field("title").focus();
  }

  /** A field of the form by its name.
   * @returns {any} */
  field(name) {
    return this.form.elements.namedItem(name);
  }

  close() {
    this.asked = null;
    this.form.hidden = true;
    this.done();
  }

  submit(event) {
    event.preventDefault();
    const { start, end, unit, take } = this.asked;
    const [low, high] = ["low", "high"].map((name) => readTyped(this.field(name).value, unit.size));
    const fault = rangeFault(low, high);
    this.form.querySelector("[role=alert]").textContent = fault;
    if (fault) return;
    const pins = [`${this.field("first").value}.${start.title}`, `${this.field("second").value}.${end.title}`];
    const name = this.field("title").value.trim();
    this.close();
    take({ name, pins, low: low.number, high: high.number });
  }
}
