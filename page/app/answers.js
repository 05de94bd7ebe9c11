// The answer: what is run after an edit, in which order, and what of it is shown when.

import { Analysis } from "../core/analysis.js";
import { answerOf } from "../core/answer.js";
import { lastPart } from "../core/files.js";
import { escaped } from "../core/texts.js";
import { fill, fillBlocks } from "../view/fill.js";
import { identityOf } from "../view/answer_pane.js";
import { jobTabs, paneOf, rawOf } from "../view/jobs.js";
import { fillTabs } from "../view/tabs.js";
import { byId } from "./elements.js";
import { fillFigures } from "./export.js";
import { Ended } from "./runner.js";

// How long the page waits after a key press for the next one, and after how long it shows that it searches, in milliseconds.
const WAIT = 20;
const SHOWN_AFTER = 300;
// After how many milliseconds the bounds are drawn without their steps.
const EARLY = 60;
// After how many milliseconds of comparing with a capture the page waits before the next time, and how long.
const LONG = 50;
const REST = 300;
// The tabs for which no further job is run.
const OWN = ["bounds", "measured"];
// After how many milliseconds the answer to an earlier text fades.
const LATE = 200;

export class Answers {
  /** `app` has the files, the runner, and what is shown of an answer beside the answer's own part of the page. */
  constructor(app) {
    this.app = app;
    this.analysis = null;
    this.pending = null;
    this.identity = "";
    /** The titles of the lanes that the diagrams show; null where none were chosen. */
    this.lanes = null;
    /** The rows whose lines of the table are unfolded, by the number of the first of each. */
    this.unfolded = new Set();
    this.job = "bounds";
    /** How many answers were drawn, and how many of them have all that is shown of them, or were ended. */
    this.drawn = 0;
    this.finished = 0;
    this.waiting = 0;
    this.clock = 0;
    this.fading = 0;
  }

  /** Drops the answer, as where other files are opened. */
  forget() {
    this.analysis = null;
    this.lanes = null;
    this.unfolded.clear();
    delete byId("job").dataset.of;
  }

  // The runs.

  /** Looks at the files as they are when no key follows for a moment. */
  beginSoon() {
    clearTimeout(this.waiting);
    this.waiting = setTimeout(() => this.begin(), WAIT);
  }

  /** Ends what is searched for, and looks at the files as they are now. */
  async begin() {
    clearTimeout(this.waiting);
    this.app.numbers.stop();
    this.app.runner.end();
    const analysis = new Analysis(this.app.runner, this.app.files, this.app.chosenUnit);
    analysis.capture = this.app.measuring.capture;
    this.pending = analysis;
    this.fadeLater();
    this.showProgress();
    try {
      await this.find(analysis);
      await this.findMore(analysis);
      await this.findMeasured(analysis);
    } catch (error) {
      if (!(error instanceof Ended)) throw error;
      if (this.pending === analysis) this.showStopped();
      return;
    }
    this.finished++;
    this.hideProgress();
    this.app.numbers.rest(analysis);
  }

  /** Finds the answer and draws it: the bounds, and the steps that sum to them. Where the bounds took long they are drawn before their steps are known. */
  async find(analysis) {
    const began = performance.now();
    await analysis.findReport();
    this.showSentence(analysis);
    const isEarly = analysis.report !== null && performance.now() - began > EARLY;
    if (isEarly) {
      this.show(analysis);
      this.drawn++;
    }
    if (analysis.report) await analysis.findSteps();
    this.show(analysis);
    if (!isEarly) this.drawn++;
  }

  /** Finds what is shown beside the answer: the warnings, the job whose tab is shown, bounds that were left open, and the windows of the marks. */
  async findMore(analysis) {
    if (!analysis.report) return;
    await analysis.findWarnings();
    if (analysis.report.isOpen && (await analysis.settle())) this.show(analysis);
    else if (analysis.warnings.length) this.show(analysis);
    const isShown = jobTabs(analysis, this.app.jobs).some(({ id }) => id === this.job);
    if (isShown && !OWN.includes(this.job) && (this.job !== "settle" || analysis.report.isOpen)) {
      await analysis.run(this.job);
      this.showJob();
    }
    if (await analysis.findWindows()) fillFigures(analysis, byId("job"));
  }

  /** Finds what the capture that is open shows of the answer, if its tab is shown. What takes long waits until no key follows. */
  async findMeasured(analysis) {
    const { measuring } = this.app;
    if (!analysis.capture || this.job !== "measured") return;
    if (measuring.spent > LONG) await new Promise((done) => setTimeout(done, REST));
    if (this.pending !== analysis) return;
    await measuring.find(analysis);
    if (this.job === "measured") this.showJob();
  }

  /** Runs the job whose tab is shown, and shows what it printed. */
  async runShown() {
    const { analysis, job } = this;
    this.showProgress();
    try {
      await analysis.run(job);
    } catch (error) {
      if (!(error instanceof Ended)) throw error;
    }
    this.hideProgress();
    if (this.analysis === analysis && this.job === job) this.showJob();
  }

  // What is shown.

  show(analysis) {
    this.analysis = analysis;
    analysis.width = widthOfDiagrams();
    analysis.views = this.app.zoom.views;
    analysis.lanes = this.lanes;
    analysis.unfolded = this.unfolded;
    this.setStale(false);
    this.showIdentity(analysis);
    this.showSentence(analysis);
    this.showJobTabs();
    this.showJob();
    this.app.showAnswered();
  }

  showSentence(analysis) {
    const sentence = byId("sentence");
    const { refusal } = analysis;
    const settled = analysis.settled ? ' <small class="remark">(settled by job settle)</small>' : "";
    const { kind, says } = refusal
      ? { kind: "fail", says: `✗ ${escaped(lastPart(analysis.refusedName))}: ${escaped(refusal.says)}` }
      : answerOf(analysis.report, analysis.entries, analysis.unit);
    const isNoted = kind === "pass" && analysis.warnings.length;
    sentence.className = isNoted ? "undecided" : kind;
    fill(sentence, `${says}${settled}`);
  }

  /** Says that the search was ended. */
  showStopped() {
    this.hideProgress();
    // What is below is the answer to an earlier text.
    byId("job").classList.add("stale");
    const sentence = byId("sentence");
    sentence.className = "undecided";
    fill(sentence, "? You ended the search before it had an answer.");
    this.finished++;
  }

  showProgress() {
    clearInterval(this.clock);
    const began = performance.now();
    byId("progress").hidden = true;
    this.clock = setInterval(() => {
      byId("progress").hidden = false;
      byId("elapsed").textContent = `searching for ${Math.round((performance.now() - began) / 1000)} s`;
    }, SHOWN_AFTER);
  }

  hideProgress() {
    clearInterval(this.clock);
    byId("progress").hidden = true;
    this.setStale(false);
  }

  /** Lets the answer to an earlier text fade, if the next one is late. */
  fadeLater() {
    clearTimeout(this.fading);
    this.fading = setTimeout(() => this.setStale(true), LATE);
  }

  setStale(isStale) {
    clearTimeout(this.fading);
    for (const id of ["job", "sentence", "of"]) byId(id).classList.toggle("stale", isStale);
  }

  /** Says of what the page is: the files with their grades, their checksum, and the program. */
  async showIdentity(analysis) {
    const date = new Date().toISOString().slice(0, 10);
    this.identity = `<span class="date">${date} · </span>${await identityOf(analysis, this.app.program)}`;
    fill(byId("of"), this.identity);
    document.title = `${lastPart(analysis.name)} – itv`;
  }

  // The jobs.

  showJobTabs() {
    if (!this.analysis) return;
    const tabs = jobTabs(this.analysis, this.app.jobs);
    if (!tabs.some(({ id }) => id === this.job)) this.job = "bounds";
    fillTabs(byId("job-tabs"), tabs, this.job, (id) => this.choose(id));
    byId("job").setAttribute("aria-label", tabs.find(({ id }) => id === this.job).label);
  }

  /** Shows the tab of a job, which is run now if it was not. */
  async choose(job) {
    if (!this.analysis) return;
    this.job = job;
    this.showJobTabs();
    if (job === "measured") await this.app.measuring.again();
    else if (job === "settle" || job === "bounds") this.showJob();
    else await this.runShown();
  }

  showJob() {
    const pane = byId("job");
    // Until an answer is compared with the capture, that of the answer before stays.
    if (this.job === "measured" && !this.analysis.measured && this.analysis.capture.trace) return;
    // What was folded or opened by hand stays so while the same design is edited.
    const of = `${this.job} ${this.analysis.name}`;
    const isRefused = this.analysis.refusal && this.job === "bounds";
    const blocks = isRefused ? [["refusal", this.refusalPane()]] : paneOf(this.analysis, this.job);
    fillBlocks(pane, blocks, pane.dataset.of === of);
    pane.dataset.of = of;
    fillFigures(this.analysis, pane);
  }

  /** Unfolds the lines that are like a row's, or folds them. */
  unfold(row) {
    if (!this.unfolded.delete(row)) this.unfolded.add(row);
    this.showJob();
    const button = byId("job").querySelector(`button.unfold[data-row="${row}"]`);
    if (button) button.focus();
  }

  /** Shows these lanes in all diagrams; null for those that are shown at first. */
  chooseLanes(lanes) {
    this.lanes = this.analysis.lanes = lanes;
    fillFigures(this.analysis, byId("job"));
    if (lanes === null) this.showJob();
  }

  refusalPane() {
    const { refusal, refusedName } = this.analysis;
    const report = this.analysis.texts.get("bounds");
    const raw = report && report.text.startsWith("itv report ") ? rawOf(report, true) : "";
    const printed = refusal.line.trim() ? `<p>The program says: <code>${escaped(refusal.line)}</code></p>` : "";
    return `<p><a href="#" id="to-fault">Go to the place in ${escaped(lastPart(refusedName))}</a></p>${printed}${raw}`;
  }

  /** Draws the diagrams anew where the window has got another size. */
  resize() {
    if (!this.analysis || this.analysis.width === widthOfDiagrams()) return;
    this.analysis.width = widthOfDiagrams();
    this.showJob();
  }
}

/** How wide the diagrams are, in steps of 20 pixels: as wide as their part of the page, within limits. */
function widthOfDiagrams() {
  return Math.floor(Math.min(Math.max(byId("job").clientWidth, 440), 1100) / 20) * 20;
}
