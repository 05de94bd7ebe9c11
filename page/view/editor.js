// The editor: one text for each file, with its own history, and marks at the places of which the answer speaks.

const SIGN = { fail: "✗", pass: "✓", undecided: "?", warning: "!" };

export class Editor {
  /** `onChange` gets the name of the file whose text has changed, the text, and what changed it (`undo`, `redo`, or another word of CodeMirror). */
  constructor(CodeMirror, parent, onChange) {
    this.CodeMirror = CodeMirror;
    this.docs = new Map();
    this.name = null;
    this.widgets = [];
    this.lines = [];
    this.edits = 0;
    this.lit = null;
    this.marked = "";
    this.view = CodeMirror(parent, {
      mode: { name: "javascript", json: true },
      lineNumbers: true,
      lineWrapping: false,
      matchBrackets: true,
      autoCloseBrackets: true,
      gutters: ["CodeMirror-linenumbers", "signs"],
      inputStyle: "contenteditable",
      spellcheck: false,
      screenReaderLabel: "the text of the file",
      // Tab leads on to the next part of the page.
      extraKeys: { Tab: false, "Shift-Tab": false, "Ctrl-]": "indentMore", "Ctrl-[": "indentLess" },
    });
    // An editor that screen readers can read waits 80 ms before it takes what was typed. The answer needs it at once.
    this.view.getInputField().addEventListener("input", () => setTimeout(() => takeTyped(this.view.display.input), 0));
    this.view.on("change", (view, change) => {
      if (change.origin !== "setValue" && this.name !== null) onChange(this.name, view.getValue(), change.origin);
    });
  }

  /** Shows a file. Where its text is another one than was shown last, it is put in. */
  show(name, text) {
    this.clear();
    this.name = name;
    const doc = this.docOf(name, text);
    if (this.view.getDoc() !== doc) this.view.swapDoc(doc);
    if (doc.getValue() !== text) doc.setValue(text);
  }

  /** The document of a file, which is begun with its text where there is none. */
  docOf(name, text) {
    if (!this.docs.has(name)) this.docs.set(name, this.CodeMirror.Doc(text, { name: "javascript", json: true }));
    return this.docs.get(name);
  }

  /** Changes parts of the text of a file, in one step of its history: each change has a start, an end and a text. Changes with the same `merge` become one
   * step together. The text of the file comes back. */
  edit(name, text, changes, merge = "") {
    const doc = this.docOf(name, text);
    this.edits++;
    // CodeMirror makes one step of all changes with one origin that begins with a star.
    const origin = `*${merge || `step ${this.edits}`}`;
    const fromTheEnd = [...changes].sort((a, b) => b.start - a.start);
    const put = () => fromTheEnd.forEach((change) => doc.replaceRange(change.text, doc.posFromIndex(change.start), doc.posFromIndex(change.end), origin));
    if (this.view.getDoc() === doc) this.view.operation(put);
    else put();
    return doc.getValue();
  }

  /** How many steps of a file can be taken back. */
  steps(name) {
    return this.docs.has(name) ? this.docs.get(name).historySize().undo : 0;
  }

  /** Takes the last step of a file back, or makes it again. The text comes back; null where the file was never edited. */
  undo(name, again = false) {
    const doc = this.docs.get(name);
    if (!doc) return null;
    if (again) doc.redo();
    else doc.undo();
    return doc.getValue();
  }

  /** Drops the text and the history of a file, or of all files. */
  forget(name = null) {
    if (name === null) this.docs.clear();
    else this.docs.delete(name);
  }

  rename(name, other) {
    if (this.docs.has(name)) this.docs.set(other, this.docs.get(name));
    this.docs.delete(name);
    if (this.name === name) this.name = other;
  }

  clear() {
    this.marked = "";
    this.view.clearGutter("signs");
    for (const mark of this.view.getAllMarks()) if (mark.isOurs) mark.clear();
    for (const widget of this.widgets) widget.clear();
    this.widgets = [];
    for (const line of this.lines) this.view.removeLineClass(line, "background");
    this.lines = [];
  }

  /** Puts marks: each has where it begins and ends in the text, its kind (`fail`, `pass`, `undecided`, `warning`), what it says, and whether that is
   * below its line. */
  setMarks(marks) {
    const shown = JSON.stringify([this.name, marks]);
    if (this.marked === shown) return;
    this.view.operation(() => {
      this.clear();
      for (const mark of marks) this.putMark(mark);
    });
    this.marked = shown;
  }

  putMark({ start, end, kind, says, below }) {
    const [from, to] = [this.view.posFromIndex(start), this.view.posFromIndex(Math.max(end, start + 1))];
    const line = this.view.getLineHandle(from.line);
    if (!line) return;
    const sign = document.createElement("span");
    sign.className = `sign sign-${kind}`;
    sign.textContent = SIGN[kind];
    sign.title = says;
    sign.setAttribute("role", "img");
    sign.setAttribute("aria-label", says);
    this.view.setGutterMarker(line, "signs", sign);
    if (kind === "fail" || kind === "warning") {
      this.lines.push(line);
      this.view.addLineClass(line, "background", `line-${kind}`);
    }
    if (below || kind === "warning") this.view.markText(from, to, { className: `marked-${kind}`, attributes: { title: says } }).isOurs = true;
    if (below) this.putReason(line, says, below);
  }

  /** Puts the reason of a refusal below its line, with the program's line after it. */
  putReason(line, says, printed) {
    const element = document.createElement("div");
    element.className = "reason";
    element.textContent = `${says} `;
    const code = document.createElement("code");
    code.textContent = printed;
    element.append(code);
    this.widgets.push(this.view.addLineWidget(line, element));
  }

  /** Lights a part of the text while the hand is at what it draws; nothing where it is null. */
  light(part) {
    if (this.lit) this.lit.clear();
    this.lit = null;
    if (!part) return;
    const [from, to] = [this.view.posFromIndex(part.start), this.view.posFromIndex(part.end)];
    this.lit = this.view.markText(from, to, { className: "lit" });
    this.view.scrollIntoView({ from, to }, 40);
  }

  /** Selects a part of the text and shows it. */
  reveal(start, end) {
    const [from, to] = [this.view.posFromIndex(start), this.view.posFromIndex(end)];
    this.view.setSelection(from, to);
    this.view.scrollIntoView({ from, to }, 60);
    this.view.focus();
  }
}

/** Lets CodeMirror take what was typed now, and not after its own delay, unless a character is still being composed. */
function takeTyped(input) {
  if (input.composing || !input.readDOMTimeout || !input.updateFromDOM) return;
  clearTimeout(input.readDOMTimeout);
  input.readDOMTimeout = null;
  input.updateFromDOM();
}
