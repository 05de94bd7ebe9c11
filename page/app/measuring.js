// A capture that was opened beside the design: it is read, and each answer is compared with it.

import { Capture } from "../core/capture.js";
import { readTyped } from "../core/typed.js";
import { Ended } from "./runner.js";

/** The greatest file that is read, in bytes: a greater one is for the tool on the command line. */
const MOST_BYTES = 256 << 20;

export class Measuring {
  /** `app` has the answer. */
  constructor(app) {
    this.app = app;
    /** The capture; null where none is open.
     * @type {Capture | null} */
    this.capture = null;
    /** The number of the line whose run is drawn; null for the one that is broken first. */
    this.shown = null;
    /** How long the last comparison took, in milliseconds. */
    this.spent = 0;
  }

  /** Why a file is not read as a capture; empty where it may be. */
  static faultOf(file) {
    return file.size > MOST_BYTES ? `${file.name} has more than 256 MB: use tools/trace` : "";
  }

  /** Opens a capture, and shows what it says of the answer. */
  async open(name, text) {
    this.shown = null;
    this.capture = new Capture(name, text);
    this.app.answers.job = "measured";
    await this.again();
  }

  /** Closes the capture, as where other files are opened. */
  forget() {
    this.capture = null;
    this.shown = null;
  }

  /** Closes the capture, and shows the answer alone. */
  close() {
    this.forget();
    const { analysis, answers } = this.app;
    analysis.capture = analysis.measured = null;
    answers.choose("bounds");
  }

  /** Compares the answer that is shown with the capture. */
  async again() {
    const { analysis } = this.app;
    if (!analysis || !analysis.report) return;
    const held = document.activeElement instanceof HTMLInputElement || document.activeElement instanceof HTMLSelectElement ? document.activeElement.name : "";
    try {
      await this.find(analysis);
    } catch (error) {
      if (!(error instanceof Ended)) throw error;
      return;
    }
    if (this.app.analysis !== analysis) return;
    this.app.answers.showJobTabs();
    this.app.answers.showJob();
    const field = held && document.querySelector(`form.capture [name="${CSS.escape(held)}"]`);
    if (field instanceof HTMLElement) field.focus();
  }

  /** Finds what the capture shows of an answer. */
  async find(analysis) {
    analysis.capture = this.capture;
    analysis.shownLine = this.shown;
    const began = performance.now();
    await analysis.findMeasured();
    this.spent = performance.now() - began;
  }

  /** Draws the first broken run of a line. */
  draw(line) {
    this.shown = this.app.analysis.shownLine = line;
    this.app.answers.showJob();
  }

  /** Takes a field of the form: what was typed or chosen, or the reason why it is not taken is said. */
  async take({ name, value }) {
    const { unit } = this.app;
    const taken = settingOf(name, value, unit.size, this.capture.settings);
    if (taken.fault) {
      this.app.say(taken.fault);
      return;
    }
    this.capture = this.capture.readAs(taken);
    await this.again();
  }
}

/** A field of the form as a setting, or why it is none.
 * @returns {any} */
function settingOf(name, value, size, settings) {
  if (name.startsWith("signal ")) return { signals: { ...settings.signals, [name.slice("signal ".length)]: value } };
  if (name === "levels") return levelsOf(value);
  if (name === "unit" || name === "cycle") return { [name]: value || null };
  const { number, fault } = readTyped(value || "0", size);
  return fault || number === null || number < 0 ? { fault: fault || `"${value}" is not a time from 0 on` } : { [name]: number };
}

/** One voltage or two, or none. */
function levelsOf(text) {
  const numbers = text.split(/[,;\s]+/).filter((word) => word).map(Number);
  if (!numbers.length) return { levels: null };
  const [low, high = low] = numbers;
  const isRight = numbers.length <= 2 && numbers.every(Number.isFinite) && low <= high;
  return isRight ? { levels: { low, high } } : { fault: `"${text}" is not a voltage, or two of them, the lower one first` };
}
