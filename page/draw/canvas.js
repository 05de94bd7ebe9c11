// What a picture is drawn on: a scale of times from the left to the right, and the elements of SVG that are put on it.

import { escaped, fitted, room } from "../core/texts.js";

export const WIDTH = 760;
export const PAD = 10;

/** A coordinate as text. */
export function point(number) {
  const text = number.toFixed(2).replace(/\.?0+$/, "");
  return text === "-0" ? "0" : text;
}

/** A path through the points, which are pairs of coordinates. */
export function pathOf(...points) {
  return `M${points.map(([x, y]) => `${point(x)} ${point(y)}`).join("L")}`;
}

/** The lines of a picture, and where times are in it: from `low` after the gutter to `high` at the right edge of its width. */
export class Canvas {
  constructor(gutter, low, high, width = WIDTH) {
    this.width = width;
    this.left = gutter;
    this.right = width - PAD;
    this.low = low;
    this.high = high;
    this.lines = [];
    /** Whether all transitions are drawn alike, as in the drawing of a sheet; where it is false those without a mark are dashed. */
    this.plain = false;
  }

  x(time) {
    return this.left + ((time - this.low) * (this.right - this.left)) / (this.high - this.low);
  }

  clip(x) {
    return Math.min(Math.max(x, this.left), this.right);
  }

  holds(x) {
    return this.left <= x && x <= this.right;
  }

  put(line) {
    this.lines.push(line);
  }

  /** A path through points, closed where `closed` is true, with the event that it belongs to where there is one. */
  path(kind, points, { closed = false, event = null } = {}) {
    this.paths(kind, [points], { closed, event });
  }

  /** One path through several lists of points. */
  paths(kind, lists, { closed = false, event = null } = {}) {
    const mark = event === null ? "" : ` data-event="${escaped(event)}"`;
    this.put(`<path class="${kind}"${mark} d="${lists.map((points) => pathOf(...points)).join("")}${closed ? "Z" : ""}"/>`);
  }

  text(x, y, text, kind, anchor = "middle") {
    this.put(`<text class="${kind}" x="${point(x)}" y="${point(y)}" text-anchor="${anchor}">${escaped(text)}</text>`);
  }

  /** A text in the middle of a span, or beside it where it is too long: on the side that has more room. */
  beside(y, span, text, kind) {
    const [left, right] = span.map((x) => this.clip(x));
    if (right - left >= room(text) + 36) {
      const [middle, half] = [(left + right) / 2, room(text) / 2 + 4];
      this.put(`<rect class="paper" x="${point(middle - half)}" y="${y + 6}" width="${point(2 * half)}" height="12"/>`);
      this.text(middle, y + 16, text, kind);
      return;
    }
    const [freeRight, freeLeft] = [this.right - right - 6, left - this.left - 6];
    if (freeRight >= room(text) || freeRight >= freeLeft) this.textOnPaper(right + 6, y, fitted(text, freeRight + PAD - 2), kind, "start");
    else this.textOnPaper(left - 6, y, fitted(text, freeLeft), kind, "end");
  }

  /** A text on the paper's colour, so that no line goes through it. */
  textOnPaper(x, y, text, kind, anchor) {
    const width = room(text) + 4;
    this.put(`<rect class="paper" x="${point(anchor === "end" ? x - width + 2 : x - 2)}" y="${y + 6}" width="${point(width)}" height="12"/>`);
    this.text(x, y + 16, text, kind, anchor);
  }

  /** A shaded span between two times; an open end, which is null, goes to the edge. The edges of the span come back. */
  span(y, low, high, kind) {
    const left = low === null ? this.left : this.clip(this.x(low));
    const right = high === null ? this.right : this.clip(this.x(high));
    this.put(`<rect class="${kind}" x="${point(left)}" y="${y + 5}" width="${point(Math.max(right - left, 1))}" height="14"/>`);
    return [left, right];
  }

  /** An arrow between the places of two events, which are named in the element. Its left and its right end come back. */
  arrow(y, first, last, start, end, kind, link = "") {
    const size = Math.min(7, Math.abs(last - first));
    const back = last >= first ? last - size : last + size;
    // An end beyond the edge of the canvas, where it was zoomed, has neither head nor stop.
    const head = this.holds(last) ? `${pathOf([last, y], [back, y - size / 2], [back, y + size / 2])}Z` : "";
    const stops = [first, last].filter((x) => this.holds(x)).map((x) => pathOf([x, y - 5], [x, y + 5])).join("");
    const [from, to] = [this.clip(first), this.clip(last)];
    this.put(
      `<g class="${kind}" data-from="${escaped(start)}" data-to="${escaped(end)}"${link}><line x1="${point(from)}" y1="${y}" x2="${point(to)}" y2="${y}"/>` +
        `<path d="${head}"/><path d="${stops}"/></g>`,
    );
    return [Math.min(first, last), Math.max(first, last)];
  }
}
