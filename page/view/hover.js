// What belongs together: while the hand is at one drawing of an edge or of a net, all that is drawn of it is lit.

/** Elements that are drawn of an edge or a net. */
const DRAWN = "[data-edge], [data-net]";

export class Hover {
  /** `boxes` are the elements in which edges are drawn. `page` has `design()`, the name of the design's file; `lightTable(file, what, number)` and
   * `lightText(file, number)` light the lines of the table and of the text, with null in place of a file where none is lit. */
  constructor(boxes, page) {
    this.page = page;
    this.lit = "";
    for (const box of boxes) {
      box.addEventListener("mouseover", (event) => this.lightElement(event.target.closest(DRAWN)));
      box.addEventListener("focusin", (event) => this.lightElement(event.target.closest(DRAWN)));
      box.addEventListener("mouseleave", () => this.lightElement(null));
    }
  }

  /** Lights what an element draws; nothing where it is null. */
  lightElement(element) {
    if (!element) this.lightAt(null, "", 0);
    else if (element.dataset.net) this.lightAt(this.page.design(), "net", Number(element.dataset.net));
    else this.lightAt(element.dataset.file || this.page.design(), "edge", Number(element.dataset.edge));
  }

  /** Lights what is at a place of the text: a file and a way; nothing where it is null. A parameter of a grade lights nothing else. */
  light(place) {
    if (!place || place.way.what === "grade") this.lightAt(null, "", 0);
    else this.lightAt(place.file, place.way.what === "net" ? "net" : "edge", place.way.number);
  }

  lightAt(file, what, number) {
    const key = file === null ? "" : `${file} ${what} ${number}`;
    if (key === this.lit) return;
    this.lit = key;
    for (const element of document.querySelectorAll(".hot")) element.classList.remove("hot");
    for (const element of key ? document.querySelectorAll(DRAWN) : []) if (this.keyOf(element) === key) element.classList.add("hot");
    this.page.lightTable(file, what, number);
    this.page.lightText(what === "edge" ? file : null, number);
  }

  /** The name of what an element draws.
   * @param {any} element */
  keyOf({ dataset }) {
    return dataset.net ? `${this.page.design()} net ${dataset.net}` : `${dataset.file || this.page.design()} edge ${dataset.edge}`;
  }

  /** Lights again what was lit, in parts of the page that are drawn anew. */
  again() {
    const key = this.lit;
    for (const element of key ? document.querySelectorAll(DRAWN) : []) if (this.keyOf(element) === key) element.classList.add("hot");
  }
}
