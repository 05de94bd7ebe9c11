// What is said of a report: its rows in the order of the page, with rows of equal cycles joined, and the answer in a sentence.

import { counted, escaped, inUnit, unitFor } from "./texts.js";

/** The words of a verdict, each with a sign. */
export const SIGNS = { pass: "✓ pass", fail: "✗ fail", undecided: "? undecided" };

/** How many times a number of a page may be above the greatest one for which its unit would be chosen. */
const MOST_OF_A_UNIT = 1000;
const NANOSECOND = 1000;

/** Numbers in their order as ranges: `0 to 6, 9`. */
export function rangesOf(numbers) {
  const ranges = [];
  for (const number of numbers) {
    const last = ranges[ranges.length - 1];
    if (last && last[1] === number - 1) last[1] = number;
    else ranges.push([number, number]);
  }
  return ranges.map(([first, last]) => (first === last ? `${first}` : `${first} to ${last}`)).join(", ");
}

/** A row of the report beside the row of the drawing that it answers, with the rows of other cycles that say the same. It is called by its note or its
 * parameter and its cycles, or else by its events; by its part, if several parts have its sheet; and by the speed grade of its part. */
export class Entry {
  constructor(design, row, drawn) {
    this.row = row;
    this.drawn = drawn;
    this.cycles = [drawn.cycle];
    /** The numbers of its rows, and their events. */
    this.rows = [row.number];
    this.ends = [{ start: row.start, end: row.end }];
    this.design = design;
  }

  /** The name without the cycles, with the speed grade of the part after it if it has one. */
  get name() {
    const part = this.drawn.part === null ? null : this.design.parts[this.drawn.part];
    const { title } = this.drawn.edge;
    const name = title ? `${title}${part && isShared(this.design, part) ? ` of ${part.name}` : ""}` : this.eventsText;
    return part && part.grade ? `${name} (${part.grade})` : name;
  }

  /** The row by its two events, without their cycles if it is of several. */
  get eventsText() {
    const [start, end] = [this.row.start, this.row.end].map((event) => this.design.eventTitle(event));
    if (this.cycles.length === 1) return `${start} to ${end}`;
    const { shift } = this.drawn.edge;
    const later = shift ? ` ${shift} cycle${shift > 1 ? "s" : ""} later` : "";
    return `${start} to ${end}`.replace(/ in cycle \d+(?= to |$)/g, "") + later;
  }

  /** The cycles in words; empty where the name has the cycle or there is one cycle alone. */
  get cyclesText() {
    if (this.design.cycles === 1 || (!this.drawn.edge.title && this.cycles.length === 1)) return "";
    return `${this.cycles.length === 1 ? "cycle" : "cycles"} ${rangesOf(this.cycles)}`;
  }

  /** The name and the cycles, as a text. */
  get title() {
    return this.cyclesText ? `${this.name} in ${this.cyclesText}` : this.name;
  }

  /** Why its worst slack is not a number: nothing bounds its broken side, or a search that ended too early. Null where it is a number. */
  get lack() {
    const broken = this.row.brokenBound;
    if (broken && broken.kind === "unbounded") return "unbounded";
    return this.row.verdict === "undecided" || (broken && broken.isOpen) ? "not known" : null;
  }

  /** The place of the row in the page: failed rows come first, unbounded ones before them. Undecided rows follow, then the others by slack, and
   * questions last. */
  get rank() {
    const kind = ["fail", "undecided", "pass", null].indexOf(this.row.verdict);
    const lack = ["unbounded", "not known", null].indexOf(this.lack);
    const slack = this.row.leastSlack;
    return [kind, lack, slack === null ? 1 : 0, slack || 0, this.row.number];
  }

  /** The bound that says more of the row, `max` or `min`: on the side that fails, or else on the side with less to spare. For a question it is the
   * greatest separation. */
  get mainBound() {
    const [low, high] = this.row.slack;
    if (this.row.side) return this.row.side === "low" ? "min" : "max";
    if (this.row.verdict === "undecided") return this.row.bounds.max.isOpen ? "max" : "min";
    if (this.row.kind === "ask") return "max";
    if (high === null) return low === null && this.row.low === null ? "max" : "min";
    return low === null || high < low ? "max" : "min";
  }
}

/** Whether other parts have the sheet of a part too. */
function isShared(design, part) {
  return part.file !== null && design.parts.some((other) => other !== part && other.file === part.file);
}

function compareRanks(first, second) {
  for (let place = 0; place < first.length; place++) {
    if (first[place] !== second[place]) return first[place] - second[place];
  }
  return 0;
}

/** The rows in the order of the page. Rows of one edge of one part that have equal numbers are one entry, the entry of the first of them. */
export function entriesOf(design, report) {
  const drawn = design.rows();
  const entries = new Map();
  report.rows.forEach((row, number) => {
    const key = `${drawn[number].part} ${drawn[number].edge.number} ${row.numbers}`;
    if (entries.has(key)) {
      entries.get(key).cycles.push(drawn[number].cycle);
      entries.get(key).rows.push(number);
      entries.get(key).ends.push({ start: row.start, end: row.end });
    } else entries.set(key, new Entry(design, row, drawn[number]));
  });
  return [...entries.values()].sort((first, second) => compareRanks(first.rank, second.rank));
}

/** From how many entries on those that are alike are one line. */
const LEAST_ALIKE = 3;

/** The entries in lists, each of one or of several that are alike: rows of one edge of one sheet with one verdict, of other parts or cycles. The worst of a list
 * is its first, and the lists are in the order of these. */
export function alikeOf(entries) {
  const lists = new Map();
  for (const entry of entries) {
    const part = entry.drawn.part === null ? null : entry.design.parts[entry.drawn.part];
    const key = JSON.stringify([entry.row.verdict, part && part.file, part && part.grade, entry.drawn.edge.number]);
    lists.set(key, [...(lists.get(key) || []), entry]);
  }
  return [...lists.values()].flatMap((list) => (list.length < LEAST_ALIKE ? list.map((entry) => [entry]) : [list])).sort(([a], [b]) => compareRanks(a.rank, b.rank));
}

/** The unit of a page: one for the greatest number that its rows show, or a smaller one where the least of them would be below a hundredth of it. */
export function unitOf(report) {
  let [least, greatest] = [Infinity, 0];
  for (const row of report.rows) {
    for (const number of [row.low, row.high, ...row.slack, ...Object.values(row.bounds).map((bound) => bound.value)]) {
      if (!number) continue;
      least = Math.min(least, Math.abs(number));
      greatest = Math.max(greatest, Math.abs(number));
    }
  }
  if (!greatest) return unitFor(NANOSECOND);
  const fit = Math.max(100 * least, greatest / MOST_OF_A_UNIT, NANOSECOND);
  return unitFor(Math.min(greatest, fit));
}

/** The name of an entry as a part of a page. */
export function nameOf(entry) {
  return `<span class="name">${escaped(entry.name)}</span>${entry.cyclesText ? ` in ${entry.cyclesText}` : ""}`;
}

/** The answer: its class (`pass`, `fail`, `undecided` or `plain`) and its sentences, as a part of a page. */
export function answerOf(report, entries, unit) {
  const asked = report.rows.filter((row) => row.kind === "req");
  const questions = report.rows.length - asked.length;
  if (report.finding === "inconsistent") return { kind: "fail", says: "✗ The rules contradict each other: no times satisfy them all." };
  if (report.finding !== "consistent") return { kind: "undecided", says: "? The search ended before it was known whether any times satisfy the rules." };
  if (!report.rows.length) return { kind: "undecided", says: "? Nothing is asked: there is no question and no requirement." };
  if (!asked.length) return { kind: "plain", says: `${counted(questions, "question")} answered; there is no requirement.` };
  const passed = asked.filter((row) => row.verdict === "pass").length;
  const open = asked.filter((row) => row.verdict === "undecided").length;
  const kind = asked.some((row) => row.verdict === "fail") ? "fail" : open ? "undecided" : "pass";
  const count = `${passed} of ${asked.length} requirement${asked.length === 1 ? " passes" : "s pass"}${open ? `, ${open} undecided` : ""}.`;
  const worst = worstOf(entries, unit);
  return { kind, says: kind === "pass" ? `✓ ${count}${worst && ` ${worst}`}` : `${kind === "fail" ? "✗" : "?"} ${worst && `${worst} `}${count}` };
}

/** What is said of the worst requirement, as a sentence; empty where there is nothing to say. */
function worstOf(entries, unit) {
  const asked = entries.filter((entry) => entry.row.kind === "req");
  const [first] = asked;
  if (first.lack === "unbounded") return `${nameOf(first)} fails: nothing bounds it.`;
  if (first.lack) return first.row.verdict === "fail" ? `${nameOf(first)} fails; by how much is not known.` : `The search ended before ${nameOf(first)} was settled.`;
  const known = asked.filter((entry) => entry.row.leastSlack !== null);
  if (!known.length) return "";
  const worst = known.reduce((least, entry) => (entry.row.leastSlack < least.row.leastSlack ? entry : least));
  const slack = worst.row.leastSlack;
  const name = `<span class="name">${escaped(worst.name)}</span>`;
  const when = worst.cyclesText ? ` in ${worst.cyclesText}` : "";
  return slack < 0 ? `${name} fails by ${inUnit(-slack, unit)}${when}.` : `The least slack is ${inUnit(slack, unit)}: ${name}${when}.`;
}
