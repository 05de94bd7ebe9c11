// The three steps above the page, which lead to its parts, and the start of an own drawing.

import { NEW_SHEET } from "../core/files.js";
import { byId } from "./elements.js";
import { keep, kept } from "./storage.js";

// How long a part of the page is lit, in milliseconds.
const LIT = 900;

/** The part of the page of each step, and what in it gets the focus. */
const PARTS = {
  draw: { part: "drawings", focus: "#drawings [data-mark]" },
  numbers: { part: "numbers", focus: '#numbers td[tabindex="0"]' },
  answer: { part: "sentence", focus: "#sentence" },
};

export class FirstScreen {
  constructor(app) {
    this.app = app;
    byId("start").hidden = kept("start") === "hidden";
    byId("start-close").addEventListener("click", () => this.hide());
    byId("start-own").addEventListener("click", () => this.startOwn());
    for (const button of byId("start").querySelectorAll("[data-start]")) button.addEventListener("click", () => this.goTo(button.dataset.start));
  }

  hide() {
    byId("start").hidden = true;
    keep("start", "hidden");
  }

  /** Opens a small sheet to begin with. */
  startOwn() {
    this.app.open({ design: "sheet.json", files: { "sheet.json": NEW_SHEET } });
    this.app.say("a small sheet of your own: change the drawing, or the numbers below it");
  }

  /** Leads the eye and the focus to the part of the page of a step. */
  goTo(step) {
    const { part, focus } = PARTS[step];
    if (step === "numbers") this.app.showView("numbers");
    const element = byId(part);
    element.scrollIntoView({ block: "nearest", behavior: "smooth" });
    element.classList.add("flash");
    setTimeout(() => element.classList.remove("flash"), LIT);
    const target = document.querySelector(focus);
    if (target) target.focus({ preventScroll: true });
  }
}
