// A capture beside a design: its trace, how it is read, and what its runs show of each rule and row.

import { Tracks, runsIn } from "./measured.js";
import { constraintsOf, rulesOf } from "./rules.js";
import { lookAt, numbered, tallyOf, verdictOf } from "./separations.js";
import { TraceFault, traceOf } from "./traces.js";

/** How a capture is read at first. `within` and `shortest` are picoseconds: how much a rule may be missed by, and how long a value has to last. `unit` is that of the
 * times of a table that names none, `levels` are voltages or null, `cycle` is the mark that begins a cycle or null, and `signals` are the paths of the signals that
 * were chosen, by the titles of their lanes. */
export const AS_IT_IS = { within: 0, shortest: 0, unit: null, levels: null, cycle: null, signals: {} };

/** A file of a capture, and how it is read. Of a text that is not understood `trace` is null, and `fault` says why. */
export class Capture {
  constructor(name, text, settings = AS_IT_IS) {
    this.name = name;
    this.text = text;
    this.settings = settings;
    this.trace = null;
    this.fault = "";
    try {
      this.trace = traceOf(text, settings.unit, settings.levels);
    } catch (error) {
      if (!(error instanceof TraceFault)) throw error;
      this.fault = error.message;
    }
  }

  /** The same capture, read otherwise. */
  readAs(settings) {
    return new Capture(this.name, this.text, { ...this.settings, ...settings });
  }

  /** The signals that were chosen for lanes, by the titles of the lanes. */
  get chosen() {
    const signalOf = (path) => this.trace.signals.find((signal) => signal.path === path);
    return Object.fromEntries(Object.entries(this.settings.signals).flatMap(([title, path]) => (signalOf(path) ? [[title, [signalOf(path)]]] : [])));
  }
}

/** What a capture shows of a rule, or of the rows of an entry of the answer. */
class MeasuredLine {
  constructor({ title, kind, constraints, entry = null }, runs, numbers, within) {
    this.title = title;
    this.kind = kind;
    this.constraints = constraints;
    this.entry = entry;
    this.tally = tallyOf(constraints, runs, numbers, within);
  }

  /** The verdict; null for a question. */
  get verdict() {
    return this.kind === "ask" ? null : verdictOf(this.tally);
  }

  /** Whether it has one cause, so that its separations say how it is kept. */
  get isLinear() {
    return this.constraints[0].causes.length === 1;
  }

  /** The range of its first cause. */
  get range() {
    return this.constraints[0].causes[0];
  }
}

/** What a capture that is understood shows of a design. */
export class Measured {
  /** `nets` are those of the netlist's tree, `entries` the entries of the answer, and `matrix` what job matrix printed, or null. */
  constructor(capture, { design, entries }, nets, matrix) {
    this.capture = capture;
    const { cycle, shortest, within } = capture.settings;
    const tracks = new Tracks(design, nets, capture.trace, capture.chosen);
    const { start, runs } = runsIn(tracks, capture.trace, { cycle, shortest, matrix });
    this.tracks = tracks.all;
    this.start = start;
    this.runs = runs;
    this.numbers = new Map([...design.places.keys()].map((event, number) => [event, number]));
    this.lines = [...linesOfRules(design), ...entries.map(lineOfEntry)].map((line) => new MeasuredLine(line, runs, this.numbers, within));
  }

  /** The lines that are judged. */
  get judged() {
    return this.lines.filter(({ verdict }) => verdict !== null);
  }

  /** The line that is broken first: in the earliest run, and in that one by the most; null where none is. */
  get broken() {
    const lines = this.lines.filter(({ verdict }) => verdict === "fail");
    const first = Math.min(...lines.map(({ tally }) => tally.first));
    const slackOf = (line) => this.caseOf(line, first).look.slack;
    return lines.filter(({ tally }) => tally.first === first).sort((a, b) => slackOf(a) - slackOf(b))[0] || null;
  }

  /** The worst constraint of a line in a run that shows it, what the run shows of it, the cause that decides, and the times of all events, in picoseconds from that
   * cause on. An event that was not seen has null. */
  caseOf(line, run) {
    const times = this.runs[run - 1];
    const looks = line.constraints.flatMap((constraint) => {
      const look = lookAt(numbered(constraint, this.numbers), times);
      return look ? [{ constraint, look }] : [];
    });
    const { constraint, look } = looks.sort((a, b) => a.look.slack - b.look.slack)[0];
    const cause = constraint.causes[look.cause];
    const begin = times[this.numbers.get(cause.event)];
    return { constraint, look, cause, times: times.map((time) => (time === null ? null : time - begin)) };
  }
}

function linesOfRules(design) {
  return rulesOf(design).flatMap((rule) => {
    const constraints = constraintsOf(rule, design.cycles);
    return constraints.length ? [{ title: rule.title, kind: rule.kind, constraints }] : [];
  });
}

/** An entry of the answer as a line: its rows have one cause, and a question is open on both sides. */
function lineOfEntry(entry) {
  const { row, drawn } = entry;
  const origin = { kind: drawn.part === null ? "wire" : "edge", number: drawn.edge.number, note: drawn.edge.note, text: "" };
  const constraints = entry.ends.map(({ start, end }) => ({ kind: "lin", end, causes: [{ event: start, low: row.low, high: row.high, origin }] }));
  return { title: entry.title, kind: row.kind, constraints, entry };
}

/** Whether a file is a capture, and not a design: by its name, or as a dump begins. */
export function isCapture(name, text) {
  return /\.(?:vcd|csv)$/i.test(name) || /^\s*\$(?:date|version|timescale|comment|scope)\b/.test(text.slice(0, 200));
}
