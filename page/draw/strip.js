// Draws the wave of one lane: levels, buses, floating and unknown values, clocks, gaps, and the transitions between them.

import { point } from "./canvas.js";
import { fitted, room } from "../core/texts.js";
import { isClock } from "../core/waves.js";

// How high a wave is.
export const WAVE = 18;

const LINES = { none: "none", up: "wave weak", down: "wave weak" };

/** A wave on a canvas, with its high level at the height `high`. */
export class Strip {
  constructor(canvas, high) {
    this.canvas = canvas;
    this.high = high;
    this.low = high + WAVE;
    this.middle = high + WAVE / 2;
    this.level = { low: this.low, down: this.low, high: this.high, up: this.high, floating: this.middle, none: this.middle };
  }

  /** Draws what `runsOf` gives. */
  draw({ runs, gaps }) {
    const seen = runs.filter((run) => this.isSeen(run));
    seen.forEach((run, number) => {
      if (isClock(run.kind)) this.putBrick(run);
      else this.putRun(run, seen[number - 1], seen[number + 1]);
    });
    seen.slice(1).forEach((run, number) => {
      if (this.canvas.holds(this.canvas.x(run.start))) this.putTransition(seen[number], run);
    });
    for (const time of gaps) this.putGap(this.canvas.x(time));
  }

  /** Whether a run has a place on the canvas. */
  isSeen(run) {
    return (run.start === null || run.start <= this.canvas.high) && (run.end === null || run.end >= this.canvas.low);
  }

  /** The left and the right edge of a run on the canvas. */
  edgesOf(run) {
    const left = run.start === null ? this.canvas.left : this.canvas.clip(this.canvas.x(run.start));
    const right = run.end === null ? this.canvas.right : this.canvas.clip(this.canvas.x(run.end));
    return [left, right];
  }

  /** The heights of the lines of a run, at its start or at its end. */
  levels(run, atEnd = false) {
    if (isClock(run.kind)) return [(run.kind === "rise") !== atEnd ? this.high : this.low];
    return run.kind in this.level ? [this.level[run.kind]] : [this.high, this.low];
  }

  /** Half the width of a transition at an end of a run. */
  slant(run) {
    const [left, right] = this.edgesOf(run);
    return Math.min(3, (right - left) / 4);
  }

  /** The lines of a run between its transitions, and where it has two of them its shade and its text. */
  putRun(run, before, after) {
    const [left, right] = this.edgesOf(run);
    const first = left + (before && !isClock(before.kind) ? this.slant(run) : 0);
    const last = right - (after && !isClock(after.kind) ? this.slant(run) : 0);
    const levels = this.levels(run);
    if (levels.length === 2) {
      const corners = [[first, this.high], [last, this.high], [last, this.low], [first, this.low]];
      this.canvas.path(run.kind === "bus" ? "bus" : "unknown", corners, { closed: true });
      const text = fitted(run.text, last - first - 6);
      if (room(text) <= last - first - 6) this.putText((first + last) / 2, text);
    }
    for (const y of levels) this.canvas.path(LINES[run.kind] || "wave", [[first, y], [last, y]]);
  }

  putText(x, text) {
    if (text) this.canvas.text(x, this.low - 5, text, "data");
  }

  /** A brick of a clock: a level, a transition in its middle, and the other level. */
  putBrick(run) {
    const [first] = this.levels(run);
    const [second] = this.levels(run, true);
    const middle = this.canvas.x((run.start + run.end) / 2);
    const [left, right] = this.edgesOf(run);
    if (left < middle) this.canvas.path("wave", [[left, first], [this.canvas.clip(middle), first]]);
    if (this.canvas.holds(middle)) this.canvas.path(this.canvas.plain ? "wave" : "wave free", [[middle, first], [middle, second]]);
    if (middle < right) this.canvas.path("wave", [[this.canvas.clip(middle), second], [right, second]]);
  }

  /** The lines from the end of a run to the start of the next one: upright for a clock, crossed between two buses. */
  putTransition(before, run) {
    const x = this.canvas.x(run.start);
    const ends = this.levels(before, true);
    const starts = this.levels(run);
    const upright = isClock(run.kind) || isClock(before.kind);
    const left = upright ? x : x - this.slant(before);
    const right = upright ? x : x + this.slant(run);
    const crossed = ends.length === 2 && starts.length === 2;
    const pairs = crossed ? [[ends[0], starts[1]], [ends[1], starts[0]]] : ends.flatMap((end) => starts.map((start) => [end, start]));
    for (const [end, start] of pairs) this.canvas.path(run.marked ? "wave" : "wave free", [[left, end], [right, start]]);
    if (run.char && "PNHL".includes(run.char)) this.putHead(x, "PH".includes(run.char) ? -4 : 4);
  }

  /** The arrow head that capitals put on their edge, upwards or downwards. */
  putHead(x, tip) {
    this.canvas.path("head", [[x, this.middle + tip], [x - 3, this.middle - tip / 2], [x + 3, this.middle - tip / 2]], { closed: true });
  }

  /** Two bows, with nothing between them. */
  putGap(x) {
    if (!this.canvas.holds(x - 8) || !this.canvas.holds(x + 8)) return;
    for (const [kind, moves] of [["gap", [0]], ["wave", [-2.5, 2.5]]]) {
      for (const move of moves) {
        const [left, right, top, bottom] = [point(x + move - 3), point(x + move + 3), this.high - 3, this.low + 3];
        this.canvas.put(`<path class="${kind}" d="M${left} ${bottom}C${right} ${bottom - 6} ${left} ${top + 6} ${right} ${top}"/>`);
      }
    }
  }
}
