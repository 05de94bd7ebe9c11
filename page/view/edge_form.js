// The form of a new edge, in plain words: what comes after what, within which times.

import { edgeText, wireText } from "../core/edits.js";
import { lastPart } from "../core/files.js";
import { escaped } from "../core/texts.js";
import { rangeFault, readTyped } from "../core/typed.js";
import { partChoice } from "./part_choice.js";

const KINDS = [
  ["lin", "delay"],
  ["late", "delay after the latest of several"],
  ["early", "delay after the earliest of several"],
  ["req", "requirement"],
  ["ask", "question"],
];
/** The most cycles that may be between the marks of an edge. */
const MOST_CYCLES = 64;

/** A mark of a sheet: its lane's name, the sheet's file, and the names of the parts of that sheet; none where no board is shown.
 * @typedef {{ mark: string, title: string, file: string, parts: string[] }} End */

export class EdgeForm {
  /** `done` is called when the form is closed.
   * @param {HTMLFormElement} form
   * @param {() => void} done */
  constructor(form, done) {
    this.form = form;
    this.done = done;
    this.asked = null;
    form.addEventListener("submit", (event) => this.submit(event));
    form.addEventListener("input", () => this.showChosen());
    form.addEventListener("click", (event) => /** @type {Element} */ (event.target).closest(".cancel") && this.close());
    form.addEventListener("keydown", (event) => event.key === "Escape" && this.close());
  }

  /** Asks for an edge between two marks. `take` gets the text of the edge, and whether it is one of the board.
   * @param {{ start: End, end: End, unit: { name: string, size: number }, take: (text: string, isOnBoard: boolean) => void }} asked */
  open(asked) {
    this.asked = asked;
    const { start, end, unit } = asked;
    const [from, to] = [start, end].map(({ mark, title }) => `<b>${escaped(`${title} ${mark}`.trim())}</b>`);
    const options = KINDS.map(([kind, words]) => `<option value="${kind}">${words}</option>`).join("");
    const [first, second] = [partChoice("first", start.parts, 0), partChoice("second", end.parts, start.file === end.file && start.mark !== end.mark ? 1 : 0)];
    this.form.innerHTML =
      `<span>from <span class="of-board">${first}</span>${from} to <span class="of-board">${second}</span>${to}:</span> ${placeChoice(start, end)}` +
      `<label>kind <select name="kind">${options}</select></label> ` +
      `<span class="ends"><label>min <input name="low" size="6" value="0" autocomplete="off"></label> ` +
      `<label>max <input name="high" size="6" placeholder="no limit" autocomplete="off"></label> ${escaped(unit.name)}</span> ` +
      `<label>cycles later <input name="shift" type="number" min="0" max="${MOST_CYCLES}" value="${start.file === end.file && start.mark === end.mark ? 1 : 0}"></label> ` +
      '<label>note <input name="note" size="10" placeholder="tSU" autocomplete="off"></label> ' +
      '<button type="submit">add</button> <button type="button" class="cancel">cancel</button> <span role="alert"></span>';
    this.form.hidden = false;
    this.showChosen();
    this.field("kind").focus();
  }

  /** A field of the form by its name.
   * @returns {any} */
  field(name) {
    return this.form.elements.namedItem(name);
  }

  /** Whether the edge is to be one of the board. */
  get isOnBoard() {
    const { start, end } = this.asked;
    const place = this.field("place");
    return place ? place.value === "board" : start.file !== end.file;
  }

  /** A question has no ends, and an edge of a sheet no parts. */
  showChosen() {
    /** @type {HTMLElement} */ (this.form.querySelector(".ends")).hidden = this.field("kind").value === "ask";
    const isOnBoard = this.isOnBoard;
    for (const part of this.form.querySelectorAll(".of-board")) part.toggleAttribute("hidden", !isOnBoard);
  }

  close() {
    this.asked = null;
    this.form.hidden = true;
    this.done();
  }

  submit(event) {
    event.preventDefault();
    const { start, end, unit, take } = this.asked;
    const kind = this.field("kind").value;
    const [low, high] = ["low", "high"].map((name) => readTyped(this.field(name).value, unit.size));
    const fault = kind === "ask" ? "" : rangeFault(low, high);
    this.form.querySelector("[role=alert]").textContent = fault;
    if (fault) this.field(low.fault || !high.fault ? "low" : "high").focus();
    if (fault) return;
    const shift = Number(this.field("shift").value) || 0;
    const edge = { start: start.mark, end: end.mark, kind, shift, low: low.number, high: high.number, note: this.field("note").value.trim() };
    const isOnBoard = this.isOnBoard;
    const pins = { start: `${this.field("first").value}.${start.mark}`, end: `${this.field("second").value}.${end.mark}` };
    take(isOnBoard ? wireText({ ...edge, ...pins }) : edgeText(edge), isOnBoard);
    this.close();
  }
}

/** The choice whether an edge between two marks of one sheet is one of the sheet or of the board that is shown; empty where there is no choice.
 * @param {End} start
 * @param {End} end */
function placeChoice(start, end) {
  if (start.file !== end.file || !start.parts.length) return "";
  const sheet = `<option value="sheet">in ${escaped(lastPart(start.file))}${start.parts.length > 1 ? ", for each of its parts" : ""}</option>`;
  return `<label>drawn <select name="place">${sheet}<option value="board">on the board</option></select></label> `;
}
