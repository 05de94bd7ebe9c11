// The bars that part the page: between the files and the answer, and between the drawing and the numbers. The browser keeps where they were put.

import { byId } from "./elements.js";
import { keep, kept } from "./storage.js";

// How far a key moves a bar, and the least and the greatest share of a part, in percent.
const STEP = 3;
const [LEAST, GREATEST] = [12, 85];

/** A bar that sets a style of the page to a share of an element, along one axis. */
class Divider {
  constructor(bar, { within, style, first, isAcross, onMove }) {
    this.bar = bar;
    this.within = within;
    this.style = style;
    this.first = first;
    this.isAcross = isAcross;
    this.onMove = onMove;
    const before = Number(kept(style));
    if (before) this.put(before);
    bar.addEventListener("pointerdown", (event) => this.down(event));
    bar.addEventListener("pointermove", (event) => bar.hasPointerCapture(event.pointerId) && this.moved(event));
    bar.addEventListener("pointerup", () => this.done());
    bar.addEventListener("keydown", (event) => this.key(event));
    bar.addEventListener("dblclick", () => this.drop());
  }

  /** The share of the part before the bar, as it is drawn. */
  get share() {
    const [part, all] = [this.first.getBoundingClientRect(), this.within.getBoundingClientRect()];
    return (100 * (this.isAcross ? part.width : part.height)) / (this.isAcross ? all.width : all.height);
  }

  put(share) {
    const put = Math.min(Math.max(share, LEAST), GREATEST);
    document.body.style.setProperty(`--${this.style}`, `${put}%`);
    this.bar.setAttribute("aria-valuenow", String(Math.round(put)));
    return put;
  }

  down(event) {
    event.preventDefault();
    this.bar.setPointerCapture(event.pointerId);
    this.offset = this.placeOf(event) - this.share;
  }

  /** Where an event is, as a share of the element that is parted. */
  placeOf(event) {
    const box = this.within.getBoundingClientRect();
    return this.isAcross ? (100 * (event.clientX - box.left)) / box.width : (100 * (event.clientY - box.top)) / box.height;
  }

  moved(event) {
    this.put(this.placeOf(event) - this.offset);
  }

  done() {
    keep(this.style, String(this.share));
    this.onMove();
  }

  /** Lets the bar be where it was at first. */
  drop() {
    document.body.style.removeProperty(`--${this.style}`);
    keep(this.style, null);
    this.onMove();
  }

  key(event) {
    const [less, more] = this.isAcross ? ["ArrowLeft", "ArrowRight"] : ["ArrowUp", "ArrowDown"];
    if (event.key !== less && event.key !== more) return;
    event.preventDefault();
    this.put(this.share + (event.key === less ? -STEP : STEP));
    this.done();
  }
}

/** Makes the bars of the page. `onMove` is called when one was moved. */
export function putDividers(onMove) {
  const [input] = document.getElementsByClassName("input");
  const [main] = document.getElementsByTagName("main");
  new Divider(byId("splitter"), { within: main, style: "files-width", first: input, isAcross: true, onMove });
  new Divider(byId("divider"), { within: input, style: "drawing-height", first: byId("drawings"), isAcross: false, onMove });
}
