// The answer beside an earlier one: one that was kept, or that of older files.

import { Analysis } from "../core/analysis.js";
import { isNetlist } from "../core/design.js";
import { Files, lastPart } from "../core/files.js";
import { Kept } from "../core/kept.js";
import { fill } from "../view/fill.js";
import { sinceOf } from "../view/since.js";
import { byId } from "./elements.js";
import { Ended } from "./runner.js";

export class Compare {
  constructor(app) {
    this.app = app;
    /** The answer to compare with; null where there is none.
     * @type {Kept | null} */
    this.kept = null;
  }

  /** Keeps the answer of now, with the files, to be compared with later ones. */
  keep() {
    const { analysis, files } = this.app;
    if (!analysis || !analysis.report) return;
    const now = new Date();
    this.take(new Kept(analysis, files.packed(), [now.getHours(), now.getMinutes()].map((part) => String(part).padStart(2, "0")).join(":")));
  }

  /** Opens the files of the earlier answer, which stays there to be compared with. */
  putBack() {
    const { kept } = this;
    this.app.open(kept.files);
    this.take(kept);
  }

  /** @param {Kept | null} kept */
  take(kept) {
    this.kept = kept;
    this.show();
  }

  show() {
    const { analysis } = this.app;
    fill(byId("since"), this.kept && analysis ? sinceOf(this.kept, analysis) : "");
    byId("keep").hidden = byId("older").hidden = this.kept !== null;
  }

  /** Compares with older files: each takes the place of the open file that has its name. Where none is the design's, the first one of its kind is the design. */
  async withOlder(list) {
    const texts = await Promise.all([...list].map(async (file) => [file.name, await file.text()]));
    if (!texts.length) return;
    const older = this.olderFiles(texts);
    const analysis = new Analysis(this.app.runner, older, this.app.chosenUnit);
    try {
      await analysis.findReport();
      if (analysis.report && analysis.report.isOpen) await analysis.settle();
    } catch (error) {
      if (!(error instanceof Ended)) throw error;
      this.app.say("an edit has ended the comparison: begin it again");
      return;
    }
    const names = texts.map(([name]) => lastPart(name)).join(", ");
    if (analysis.report) this.take(new Kept(analysis, older.packed(), `the older ${names}`));
    else this.app.say(`the older ${names} can't be compared with. ${analysis.refusal.says}`);
  }

  /** The open files with older ones in their places. */
  olderFiles(texts) {
    const { files } = this.app;
    const older = new Files(files.json5);
    older.replace(files.packed().files, files.design);
    const put = texts.map(([name, text]) => older.put(older.names.find((other) => lastPart(other) === lastPart(name)) || name, text));
    const isOfKind = (name) => isNetlist(older.readOf(name).tree) === isNetlist(files.readOf(files.design).tree);
    const design = put.find((name) => !files.find(name) && isOfKind(name));
    if (design && !put.includes(files.design)) older.design = design;
    return older;
  }
}
