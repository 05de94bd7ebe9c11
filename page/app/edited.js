// Edits of the texts, those that are typed and those that the page makes, as steps in one order over all files.
//
// CodeMirror keeps the steps of each file. This says which file's turn it is when the last step is taken back. A file that was begun is a step too.

/** The beginning of a file: its name, the number of its act or undefined, and what takes it back and makes it again.
 * @typedef {{ name: string, act: number | undefined, back: () => void, again: () => void }} Begun */

export class Edited {
  /** `onChange` is called when a text has changed. */
  constructor(files, editor, onChange) {
    this.files = files;
    this.editor = editor;
    this.onChange = onChange;
    /** The number of acts that have several steps, whether one is going on, and of which of them a step of a file is a part. */
    this.acts = 0;
    this.isTogether = false;
    this.actOf = new Map();
    this.forget();
  }

  /** Drops the steps and the shown texts of a file, or of all files. */
  forget(name = null) {
    this.editor.forget(name);
    const isKept = (other) => name !== null && other !== name;
    /** The steps that can be taken back, and those that can be made again: the name of the file of each, or a file that was begun.
     * @type {(string | Begun)[]} */
    this.done = (this.done || []).filter((step) => isKept(nameOf(step)));
    /** @type {(string | Begun)[]} */
    this.undone = (this.undone || []).filter((step) => isKept(nameOf(step)));
    this.steps = new Map([...(this.steps || [])].filter(([other]) => isKept(other)));
  }

  rename(name, other) {
    const renamed = (file) => (file === name ? other : file);
    const renamedStep = (step) => (typeof step === "string" ? renamed(step) : { ...step, name: renamed(step.name) });
    this.done = this.done.map(renamedStep);
    this.undone = this.undone.map(renamedStep);
    this.steps = new Map([...this.steps].map(([file, count]) => [renamed(file), count]));
  }

  /** Changes parts of a file's text, as one step. Changes with the same `merge` one after another are one step together. */
  change(name, changes, merge = "") {
    const file = this.files.find(name);
    if (!file || !changes.length) return;
    this.take(name, this.editor.edit(name, file.text, changes, merge));
    if (this.isTogether) this.actOf.set(`${name} ${this.editor.steps(name)}`, this.acts);
  }

  /** Changes several files as one step: pairs of a name and its changes. */
  changeAll(list) {
    this.together(() => list.forEach(([name, changes]) => this.change(name, changes)));
  }

  /** Makes one step of all the steps that an act has. */
  together(act) {
    this.acts++;
    this.isTogether = true;
    act();
    this.isTogether = false;
  }

  /** Begins a file, as a step, and gives its name. It is checked from now on if `isDesign` is true. When the step is taken back the file goes, and what was there
   * before comes back. */
  begin(name, text, { isDesign = false, isChanged = true } = {}) {
    const { files } = this;
    const [list, design] = [files.list, files.design];
    files.list = [...list];
    const kept = files.put(name, text);
    const file = files.find(kept);
    file.changed = isChanged;
    if (isDesign) files.design = kept;
    this.forget(kept);
    const back = () => {
      const before = list.find((other) => other.name === kept);
      files.list = files.list.flatMap((other) => (other !== file ? [other] : before ? [before] : []));
      files.design = design;
    };
    const again = () => {
      files.list = [...files.list.filter((other) => other.name !== file.name), file];
      if (isDesign || !design) files.design = file.name;
    };
    this.done.push({ name: kept, act: this.isTogether ? this.acts : undefined, back, again });
    this.undone = [];
    this.onChange();
    return kept;
  }

  /** The number of the act of which the next step back, or again, is a part; undefined where it is a step alone. */
  actAt(step, again) {
    if (typeof step !== "string") return step && step.act;
    return this.actOf.get(`${step} ${this.editor.steps(step) + (again ? 1 : 0)}`);
  }

  /** Takes the last step back, or makes the one again that was taken back last, in whichever file it was. */
  undo(again = false) {
    const list = () => (again ? this.undone : this.done);
    const act = this.actAt(list().at(-1), again);
    do {
      const step = list().at(-1);
      if (typeof step === "string") this.undoIn(step, again);
      else if (step) this.undoBegun(step, again);
    } while (act !== undefined && this.actAt(list().at(-1), again) === act);
  }

  /** Takes the last step of a file back, or makes it again. */
  undoIn(name, again) {
    const text = this.editor.undo(name, again);
    if (text !== null) this.take(name, text, again ? "redo" : "undo");
  }

  /** Takes the beginning of a file back, or begins it again. */
  undoBegun(step, again) {
    const [from, to] = again ? [this.undone, this.done] : [this.done, this.undone];
    to.push(from.pop());
    if (again) step.again();
    else step.back();
    this.onChange();
  }

  /** Takes the text that a file has now, which was typed, or which a step back (`undo`) or again (`redo`) has made. */
  take(name, text, origin = "") {
    this.count(name, origin);
    const file = this.files.find(name);
    if (!file || file.text === text) return;
    file.text = text;
    file.changed = true;
    this.onChange(name);
  }

  /** Puts the steps of a file that are new into the order of all steps, and those that were taken back out of it. */
  count(name, origin) {
    const before = this.steps.get(name) || 0;
    const now = this.editor.steps(name);
    this.steps.set(name, now);
    for (let step = now; step < before; step++) moveLast(name, this.done, this.undone);
    for (let step = before; step < now; step++) moveLast(name, this.undone, this.done);
    if (now > before && origin !== "redo") {
      this.undone = [];
      this.actOf.delete(`${name} ${now}`);
    }
  }
}

/** The name of the file of a step. */
function nameOf(step) {
  return typeof step === "string" ? step : step.name;
}

/** Takes the last item with a name out of a list, if there is one, and puts it at the end of another list. */
function moveLast(name, from, to) {
  const place = from.lastIndexOf(name);
  if (place >= 0) from.splice(place, 1);
  to.push(name);
}
