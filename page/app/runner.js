// Runs of the program, one after another in a worker. A run that is going on can be ended at once; what waits after it is then dropped.

// After how long a spare worker is begun anew, in milliseconds: when the next answer is there, as a rule.
const SPARE_AFTER = 250;

/** A run that was ended before its answer came. */
export class Ended extends Error {}

export class Runner {
  /** `source` is the text of the worker's script, and `module` the compiled program. */
  constructor(source, module) {
    this.url = URL.createObjectURL(new Blob([source], { type: "text/javascript" }));
    this.module = module;
    this.number = 0;
    this.waiting = [];
    this.current = null;
    this.worker = this.begun();
    this.spare = this.begun();
  }

  /** A worker that has the program. */
  begun() {
    const worker = new Worker(this.url);
    worker.onmessage = ({ data }) => worker === this.worker && this.take(data);
    worker.onerror = (event) => worker === this.worker && this.take({ number: this.number, status: null, text: "", fault: event.message });
    worker.postMessage({ module: this.module });
    return worker;
  }

  /** Ends the worker. The spare one takes its place at once, so that the next run does not wait until a worker has begun. */
  change() {
    this.worker.terminate();
    this.worker = this.spare || this.begun();
    this.spare = null;
    clearTimeout(this.beginning);
    this.beginning = setTimeout(() => (this.spare = this.spare || this.begun()), SPARE_AFTER);
  }

  /** Runs the program on words and files, which are texts by their names. The promise gives the status, the text, and the reason of a refusal. It is refused
   * with `Ended` where the run was ended. */
  run(words, files) {
    return new Promise((resolve, reject) => {
      this.waiting.push({ words, files, resolve, reject });
      this.next();
    });
  }

  /** Whether a run goes on. */
  get isAtWork() {
    return this.current !== null;
  }

  /** Begins the run that waits first, where none is going on. */
  next() {
    if (this.current || !this.waiting.length) return;
    this.current = this.waiting.shift();
    this.number++;
    this.worker.postMessage({ number: this.number, words: this.current.words, files: this.current.files });
  }

  /** Takes an answer of the worker. */
  take(data) {
    if (!this.current || data.number !== this.number) return;
    const { resolve } = this.current;
    this.current = null;
    resolve({ status: data.status, text: data.text, reason: data.reason || "", fault: data.fault || null });
    this.next();
  }

  /** Ends the run that is going on and drops those that wait. The worker is changed only if it was at work. */
  end() {
    const dropped = [...(this.current ? [this.current] : []), ...this.waiting];
    if (this.current) this.change();
    this.current = null;
    this.waiting = [];
    for (const { reject } of dropped) reject(new Ended());
  }
}
