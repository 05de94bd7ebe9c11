// Zooms and moves the diagrams to scale: by buttons, by keys, by the wheel with Ctrl or Shift, and by the hand.

import { forgetFilled } from "./fill.js";
import { svgOf } from "../draw/picture.js";

const FACTOR = 1.5;
const WHEEL = 1.2;
/** The share of its width by which a diagram moves at a key or a turn of the wheel. */
const PART = 0.1;
/** The least time between the edges of a diagram, in picoseconds. */
const LEAST = 20;
/** How far the hand moves before it counts as a drag, in pixels. */
const STILL = 3;

export class Zoom {
  /** `box` has the diagrams; `analysisOf` gives the answer that they draw. `views` are the times at the edges of each diagram that was zoomed, by its row
   * and bound. */
  constructor(box, analysisOf) {
    this.analysisOf = analysisOf;
    this.views = new Map();
    this.drag = null;
    box.addEventListener("wheel", (event) => this.wheel(event), { passive: false });
    box.addEventListener("pointerdown", (event) => this.down(event));
    document.addEventListener("pointermove", (event) => this.moved(event));
    document.addEventListener("pointerup", () => (this.drag = null));
    document.addEventListener("pointercancel", () => (this.drag = null));
    box.addEventListener("keydown", (event) => this.key(event));
    box.addEventListener("click", (event) => this.click(event));
  }

  /** The figure, the diagram and the name of what an element is in; null where it is in no diagram. */
  partsOf(target) {
    const figure = target.closest("figure[data-row]");
    const svg = figure && figure.querySelector("svg.diagram");
    return svg ? { figure, svg, key: `${figure.dataset.row} ${figure.dataset.which}` } : null;
  }

  /** The times at the edges of a diagram, and the pixels between them. */
  stateOf(svg) {
    const [low, high, left, right] = ["low", "high", "left", "right"].map((key) => Number(svg.dataset[key]));
    const box = svg.getBoundingClientRect();
    const scale = box.width / Number(svg.getAttribute("width"));
    return { low, high, left: box.left + left * scale, right: box.left + right * scale };
  }

  /** Zooms around a place, which is a share of the width. */
  zoom(parts, factor, share = 0.5) {
    const { low, high } = this.stateOf(parts.svg);
    const middle = low + share * (high - low);
    const span = Math.max((high - low) / factor, LEAST);
    this.set(parts, [middle - share * span, middle + (1 - share) * span]);
  }

  /** Moves a diagram by a share of its width. */
  pan(parts, share) {
    const { low, high } = this.stateOf(parts.svg);
    this.set(parts, [low + share * (high - low), high + share * (high - low)]);
  }

  /** Draws a diagram between two times, or as it was drawn first where they are null. */
  set(parts, view) {
    if (view) this.views.set(parts.key, view);
    else this.views.delete(parts.key);
    this.redraw(parts);
  }

  redraw({ figure, svg }) {
    const analysis = this.analysisOf();
    const entry = analysis && analysis.entries.find(({ row }) => row.number === Number(figure.dataset.row));
    if (!entry) return;
    const hadFocus = document.activeElement === svg;
    const bound = entry.row.bounds[figure.dataset.which];
    const { design, report, matrix, unit, width, lanes } = analysis;
    const box = document.createElement("div");
    box.innerHTML = svgOf({ design, report, matrix, unit, width, lanes, views: this.views }, entry.row, bound, svg.getAttribute("aria-label"));
    svg.replaceWith(box.firstChild);
    forgetFilled(figure.parentElement);
    if (hadFocus) figure.querySelector("svg.diagram").focus({ preventScroll: true });
  }

  wheel(event) {
    const parts = (event.ctrlKey || event.metaKey || event.shiftKey) && event.target.closest("svg.diagram") && this.partsOf(event.target);
    if (!parts) return;
    event.preventDefault();
    const { left, right } = this.stateOf(parts.svg);
    const share = Math.min(Math.max((event.clientX - left) / (right - left), 0), 1);
    if (event.shiftKey) this.pan(parts, Math.sign(event.deltaY || event.deltaX) * PART);
    else this.zoom(parts, event.deltaY < 0 ? WHEEL : 1 / WHEEL, share);
  }

  down(event) {
    const isFree = event.button === 0 && event.target.closest("svg.diagram") && !event.target.closest("[data-edge], [data-net]");
    const parts = isFree && this.partsOf(event.target);
    if (parts) this.drag = { parts, x: event.clientX, ...this.stateOf(parts.svg) };
  }

  moved(event) {
    const { drag } = this;
    if (!drag || Math.abs(event.clientX - drag.x) < STILL) return;
    event.preventDefault();
    const by = ((drag.x - event.clientX) / (drag.right - drag.left)) * (drag.high - drag.low);
    this.set({ ...drag.parts, svg: drag.parts.figure.querySelector("svg.diagram") }, [drag.low + by, drag.high + by]);
  }

  key(event) {
    const parts = event.target.closest("svg.diagram") && this.partsOf(event.target);
    if (!parts || event.ctrlKey || event.metaKey || event.altKey) return;
    const acts = {
      "+": () => this.zoom(parts, FACTOR),
      "=": () => this.zoom(parts, FACTOR),
      "-": () => this.zoom(parts, 1 / FACTOR),
      0: () => this.set(parts, null),
      ArrowLeft: () => this.pan(parts, -PART),
      ArrowRight: () => this.pan(parts, PART),
    };
    if (!Object.hasOwn(acts, event.key)) return;
    acts[event.key]();
    event.preventDefault();
  }

  click(event) {
    const button = event.target.closest("button[data-zoom]");
    const parts = button && this.partsOf(button);
    if (!parts) return;
    if (button.dataset.zoom === "all") this.set(parts, null);
    else this.zoom(parts, button.dataset.zoom === "in" ? FACTOR : 1 / FACTOR);
  }
}
