// No work is lost: the browser keeps the open files while they are not saved, and files that others took the place of, until they are put back.

import { MOST_FORMER, draftOf, draftsIn, draftsText, nameOfFiles } from "../core/drafts.js";
import { byId } from "./elements.js";
import { keep, kept } from "./storage.js";

// How long no key came before the draft is kept, in milliseconds.
const REST = 400;

export class Draft {
  /** `app` has the files. */
  constructor(app) {
    this.app = app;
    this.resting = 0;
    this.place = "draft";
    /** The files that others took the place of, while they were not saved: several sets, the last one last. */
    this.former = [];
    /** Whether the browser has taken all that was to be kept. */
    this.isKept = true;
    window.addEventListener("pagehide", () => this.keep());
    document.addEventListener("visibilitychange", () => document.visibilityState === "hidden" && this.keep());
  }

  /** The files to open: those that were not saved when the page was here last, or else those with which it opens. A page that was saved with a design, or that is
   * opened by a link, has drafts of its own. */
  filesOf(first) {
    this.place = first.isOwn ? `draft ${nameOfFiles(first)}` : "draft";
    const { now, former } = draftsIn(kept(this.place));
    this.former = former;
    this.show();
    if (now) this.app.say("your files are as you left them");
    return now || first;
  }

  /** Keeps the draft when no key follows for a moment. */
  keepSoon() {
    clearTimeout(this.resting);
    this.resting = setTimeout(() => this.keep(), REST);
  }

  /** Keeps all files if one of them is not saved, and those that can be put back; drops the draft if there is nothing to keep. */
  keep() {
    clearTimeout(this.resting);
    const { files, current } = this.app;
    if (!files.list.length) return;
    const text = draftsText(draftOf(files, current), this.former);
    this.isKept = keep(this.place, text) || text === null;
  }

  /** Whether work is lost if the page is left now. */
  get isLost() {
    this.keep();
    return !this.isKept;
  }

  /** Remembers the files before others take their place, if one of them is not saved, and offers to put them back. */
  beforeReplacing() {
    const { files, current } = this.app;
    if (!files.list.some((file) => file.changed)) return;
    this.former = [...this.former, draftOf(files, current)].slice(-MOST_FORMER);
    this.show();
    this.app.say("the files before were not saved, and can be put back");
  }

  /** Puts the files back that others took the place of last. If what is there now is not saved, it can be put back in turn, after all others. */
  putBack() {
    const last = this.former.at(-1);
    if (!last) return;
    const others = this.former.slice(0, -1);
    this.former = [];
    this.beforeReplacing();
    this.former = [...this.former, ...others];
    // What is there now has been put aside.
    for (const file of this.app.files.list) file.changed = false;
    this.app.open(last);
    this.show();
  }

  show() {
    byId("put-back").hidden = !this.former.length;
  }
}
