// The drawing under the hand: marks are moved, renamed and taken away, levels are clicked, lanes are added. All of it is edits of the text.

import { addLane, addMark, laneName, marksOfLane, moveMark, removeEdge, removeLane, removeMark, renameLane, renameMark, setLevel } from "../core/edits.js";
import { removeOfBoard } from "../core/board.js";
import { askFor } from "./field.js";
import { Joining } from "./joining.js";

/** How far the hand moves before it counts as a drag, in pixels. */
const STILL = 5;
const ONLY = "a drawing keeps one lane";

const TOOLS =
  '<span class="modes" role="group" aria-label="what a click does">' +
  '<button type="button" class="small" data-mode="join" aria-pressed="true" title="click a mark, then another one: a rule or a requirement from the first to the second; drag a mark to move it">join marks</button>' +
  '<button type="button" class="small" data-mode="mark" aria-pressed="false" title="click where a transition is">add marks</button>' +
  '<button type="button" class="small" data-mode="level" aria-pressed="false" title="click a brick: low, high, unknown, value, floating">draw levels</button>' +
  '<button type="button" class="small" data-mode="net" aria-pressed="false" title="click the lane that drives, then a lane of another part that it drives: a net of the board">join lanes</button></span>' +
  '<button type="button" class="small" data-act="lane">add a lane</button><button type="button" class="small" data-act="part" title="a part of a board, with a sheet of its own; of a sheet alone it makes a board">add a part</button><button type="button" class="small" data-act="delete" title="takes the mark, arrow or lane away that was clicked last">delete</button>' +
  '<button type="button" class="small" data-act="undo" title="takes the last edit back, in whichever file it was (Ctrl-Z)">undo</button>';

export class Pointing {
  /** `box` has the drawings, `tools` gets the buttons, and `forms` are those of an edge and of a net. `page` has `readOf(file)`; `board()`, what was read of the
   * netlist whose drawings are shown, or null; `edit(file, changes, followed)` takes changes of a file, and what has changed in a sheet for the netlists to
   * follow; `addPart(name)`, `undo(again)`, `say(text)` and `unit()`. */
  constructor(box, tools, forms, page) {
    this.box = box;
    this.tools = tools;
    this.page = page;
    this.mode = "join";
    /** The lane or the arrow that was clicked last.
     * @type {any} */
    this.chosen = null;
    this.drag = null;
    this.joining = new Joining(forms, { ...page, change: (...of) => this.change(...of) }, () => this.show());
    tools.innerHTML = TOOLS;
    tools.hidden = false;
    this.listen();
  }

  listen() {
    this.box.addEventListener("pointerdown", (event) => this.down(event));
    document.addEventListener("pointermove", (event) => this.moved(event));
    document.addEventListener("pointerup", (event) => this.up(event));
    document.addEventListener("pointercancel", () => this.drop());
    // A finger that holds a mark moves it, and does not scroll.
    this.box.addEventListener("touchmove", (event) => this.drag && this.drag.element && event.preventDefault(), { passive: false });
    this.box.addEventListener("keydown", (event) => this.key(event));
    this.box.addEventListener("dblclick", (event) => this.rename(event.target));
    this.tools.addEventListener("click", (event) => this.tool(event.target.closest("button")));
  }

  /** Edits a file: `edit` gives the changes of what was read of it, or null where there are none, and then the fault is said. */
  change(file, edit, fault, followed = null) {
    const read = this.page.readOf(file);
    const changes = read && read.value ? edit(read) : null;
    if (changes) this.page.edit(file, changes, followed);
    else if (fault) this.page.say(fault);
  }

  /** Where in the drawing an event is: the lane and the brick, and the nearest edge of a brick. */
  placeOf(event, svg) {
    const at = new DOMPoint(event.clientX, event.clientY).matrixTransform(svg.getScreenCTM().inverse());
    const [left, brick, top, lane, lanes] = ["left", "brick", "top", "lane", "lanes"].map((key) => Number(svg.dataset[key]));
    const number = Math.floor((at.y - top) / lane);
    const along = (at.x - left) / brick;
    return { lane: number >= 0 && number < lanes ? number : -1, place: Math.floor(along), near: Math.round(along), isInside: along >= 0 };
  }

  // The hand.

  down(event) {
    const item = event.target.closest(".board-item");
    if (item && event.button === 0) {
      this.joining.picked = null;
      this.chosen = boardItemOf(item);
      this.show();
      return;
    }
    const svg = event.target.closest("svg.drawing");
    if (event.button !== 0 || !svg || !svg.dataset.file) return;
    const mark = event.target.closest("[data-mark]");
    const arrow = mark ? null : event.target.closest("[data-edge]");
    if (arrow) {
      this.joining.picked = null;
      this.chosen = { file: svg.dataset.file, edge: Number(arrow.dataset.edge), text: arrow.firstElementChild.textContent };
      this.show();
      return;
    }
    if (mark) event.preventDefault();
    this.drag = { svg, element: mark, x: event.clientX, y: event.clientY, isMoved: false };
  }

  moved(event) {
    const { drag } = this;
    if (!drag || !drag.element) return;
    if (Math.hypot(event.clientX - drag.x, event.clientY - drag.y) > STILL) drag.isMoved = true;
    if (drag.isMoved) drag.element.setAttribute("transform", `translate(${event.clientX - drag.x} ${event.clientY - drag.y})`);
  }

  drop() {
    if (this.drag && this.drag.element) this.drag.element.removeAttribute("transform");
    this.drag = null;
  }

  up(event) {
    const { drag } = this;
    if (!drag) return;
    this.drop();
    const { file } = drag.svg.dataset;
    const at = this.placeOf(event, drag.svg);
    const isStill = Math.hypot(event.clientX - drag.x, event.clientY - drag.y) <= STILL;
    if (drag.element && drag.isMoved) this.moveTo(file, drag.element.dataset.mark, at.lane, at.near);
    else if (at.lane >= 0 && isStill && this.mode === "net") this.joining.pickLane(file, at.lane);
    else if (drag.element) this.joining.pickMark(file, drag.element.dataset.mark);
    else if (at.lane >= 0 && isStill) this.clickLane(file, at);
  }

  moveTo(file, mark, lane, place) {
    this.change(file, (read) => (lane < 0 ? null : moveMark(read, mark, lane, place)), `mark ${mark} can't be there`);
  }

  clickLane(file, { lane, place, near, isInside }) {
    this.chosen = { file, lane };
    if (isInside && this.mode === "mark") this.change(file, (read) => addMark(read, lane, near), "a mark is there already");
    else if (isInside && this.mode === "level") this.change(file, (read) => setLevel(read, lane, place), "");
    this.show();
  }

  // Names.

  rename(target) {
    const mark = target.closest("[data-mark]");
    const lane = target.closest("[data-lane-title]");
    const svg = target.closest("svg.drawing");
    if (!svg || (!mark && !lane)) return;
    this.joining.close();
    this.joining.picked = null;
    if (mark) this.renameMark(svg.dataset.file, mark);
    else this.renameLane(svg.dataset.file, lane);
  }

  renameMark(file, element) {
    const { mark } = element.dataset;
    const take = (other) => this.change(file, (read) => renameMark(read, mark, other), "a mark is one character that no other mark has", { mark, other });
    askFor(element, "another character for the mark", mark, take);
  }

  renameLane(file, element) {
    const number = Number(element.dataset.laneTitle);
    const name = element.textContent;
    askFor(element, "another name for the lane", name, (other) => this.change(file, (read) => renameLane(read, number, other), "", { lane: name, other }));
  }

  // Keys.

  key(event) {
    const mark = event.target.closest("[data-mark]");
    const lane = event.target.closest("[data-lane-title]");
    const svg = event.target.closest("svg.drawing");
    const item = event.target.closest(".board-item");
    if (item && event.key === "Delete") this.removeOfBoard(boardItemOf(item));
    if (this.keyAnywhere(event) || (svg && mark && this.keyAtMark(event, svg.dataset.file, mark)) || (svg && lane && this.keyAtLane(event, svg.dataset.file, lane))) {
      event.preventDefault();
      this.show();
    }
  }

  keyAnywhere(event) {
    const isUndo = (event.ctrlKey || event.metaKey) && event.key.toLowerCase() === "z";
    const isAgain = (event.ctrlKey || event.metaKey) && event.key.toLowerCase() === "y";
    if (isUndo || isAgain) this.page.undo(isAgain || event.shiftKey);
    else if (event.key === "Escape") this.joining.picked = null;
    else return false;
    return true;
  }

  keyAtMark(event, file, element) {
    const { mark, lane, place } = element.dataset;
    const [step, across] = [{ ArrowLeft: -1, ArrowRight: 1 }[event.key], { ArrowUp: -1, ArrowDown: 1 }[event.key]];
    if (event.key === "Enter" || event.key === " ") this.joining.pickMark(file, mark);
    else if (event.key === "Delete") this.removeMark(file, mark);
    else if (event.key === "F2") this.rename(element);
    else if (step) this.moveTo(file, mark, Number(lane), Number(place) + step);
    else if (across) this.moveTo(file, mark, Number(lane) + across, Number(place));
    else return false;
    return true;
  }

  keyAtLane(event, file, element) {
    if (event.key === "F2") this.rename(element);
    else if (event.key === "Enter" && this.mode === "net") this.joining.pickLane(file, Number(element.dataset.laneTitle));
    else if (event.key === "Delete") this.removeLane(file, Number(element.dataset.laneTitle));
    else return false;
    return true;
  }

  removeOfBoard({ file, what, number }) {
    this.change(file, (read) => removeOfBoard(read, what, number), "");
  }

  removeMark(file, mark) {
    this.change(file, (read) => removeMark(read, mark), "", { gone: [mark] });
  }

  removeLane(file, number) {
    const read = this.page.readOf(file);
    const followed = read && read.value ? { gone: marksOfLane(read, number), lane: laneName(read, number) } : null;
    this.change(file, (now) => removeLane(now, number), ONLY, followed);
  }

  // The tools beside the drawing.

  tool(button) {
    if (!button) return;
    const { mode, act } = button.dataset;
    if (mode) this.mode = mode;
    if (mode) this.joining.picked = null;
    if (act === "lane") this.addLane(button);
    if (act === "part") askFor(button, "the name of the new part", "", (name) => this.page.addPart(name));
    if (act === "undo") this.page.undo(false);
    if (act === "delete") this.removeChosen();
    this.show();
  }

  addLane(button) {
    const svg = this.box.querySelector("svg.drawing");
    const file = (this.chosen && this.chosen.file) || (svg && svg.dataset.file);
    if (file) askFor(button, "the name of the new lane", "", (name) => name && this.change(file, (read) => addLane(read, name, "0."), ""));
  }

  removeChosen() {
    const { chosen } = this;
    const { picked } = this.joining;
    this.joining.picked = this.chosen = null;
    if (picked && picked.mark !== undefined) this.removeMark(picked.file, picked.mark);
    else if (chosen && chosen.what) this.removeOfBoard(chosen);
    else if (chosen && chosen.edge !== undefined) this.change(chosen.file, (read) => removeEdge(read, chosen.edge), "");
    else if (chosen) this.removeLane(chosen.file, chosen.lane);
    else this.page.say("click a mark, an arrow, the name of a lane, or a net or an edge of the board first");
  }

  // What is picked, in each new drawing.

  /** Shows what is picked and chosen. */
  show() {
    for (const element of this.box.querySelectorAll(".picked, .chosen")) element.classList.remove("picked", "chosen");
    const { chosen } = this;
    const { picked } = this.joining;
    const mark = picked && (picked.mark === undefined ? this.elementOf(picked.file, "laneTitle", String(picked.lane)) : this.elementOf(picked.file, "mark", picked.mark));
    const other = chosen && this.elementOfChosen(chosen);
    if (mark) mark.classList.add("picked");
    if (other) other.classList.add("chosen");
    else this.chosen = null;
    const isBoard = this.page.board() !== null;
    if (!isBoard && this.mode === "net") this.mode = "join";
    this.tools.querySelector("[data-mode=net]").hidden = !isBoard;
    for (const button of this.tools.querySelectorAll("[data-mode]")) button.setAttribute("aria-pressed", String(button.dataset.mode === this.mode));
  }

  /** The element of what was chosen; null where it is gone. */
  elementOfChosen(chosen) {
    if (chosen.what) return [...this.box.querySelectorAll(".board-item")].find((item) => isSame(boardItemOf(item), chosen)) || null;
    return chosen.edge === undefined ? this.elementOf(chosen.file, "laneTitle", String(chosen.lane)) : this.arrowOf(chosen);
  }

  /** The drawing of a file. */
  drawingOf(file) {
    return [...this.box.querySelectorAll("svg.drawing")].find((svg) => svg.dataset.file === file);
  }

  /** The arrow of an edge; null where the edge of this number is another one now. */
  arrowOf({ file, edge, text }) {
    const svg = this.drawingOf(file);
    const arrow = svg && svg.querySelector(`[data-edge="${edge}"]`);
    return arrow && arrow.firstElementChild.textContent === text ? arrow : null;
  }

  /** The mark or the lane of a file's drawing that has a word in its data. */
  elementOf(file, key, word) {
    const svg = this.drawingOf(file);
    return svg && [...svg.querySelectorAll("[tabindex]")].find((element) => element.dataset[key] === word);
  }

  /** What has the focus in the drawing: a mark or a lane of a file; null where nothing has. */
  held() {
    /** @type {any} */
    const element = this.box.contains(document.activeElement) && document.activeElement.closest("[data-mark], [data-lane-title]");
    if (!element) return null;
    const key = element.dataset.mark ? "mark" : "laneTitle";
    return { file: element.closest("svg").dataset.file, key, word: element.dataset[key] };
  }

  /** Shows what is picked in a new drawing, and gives the focus back to what had it. */
  drawn(held) {
    this.show();
    const element = held && this.elementOf(held.file, held.key, held.word);
    if (element) element.focus({ preventScroll: true });
  }
}

/** What a line of the list of a board is: a net or an edge of a netlist's file, its number and its text. */
function boardItemOf(item) {
  const what = item.dataset.net === undefined ? "edge" : "net";
  return { file: item.closest("[data-board]").dataset.board, what, number: Number(item.dataset[what]), text: item.textContent };
}

function isSame(one, other) {
  return one.file === other.file && one.what === other.what && one.number === other.number && one.text === other.text;
}
