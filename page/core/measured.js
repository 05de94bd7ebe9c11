// Measured times: the events of a design in a trace, found as tools/trace finds them.

import { isFloating, isValid, waveOf } from "./traces.js";

// ---- what is looked for at a mark

const LEVELS = { z: "z", u: "1", d: "0" };
for (const char of "0lL") LEVELS[char] = "0";
for (const char of "1hH") LEVELS[char] = "1";
for (const char of "=23456789") LEVELS[char] = "valid";
// What a brick begins with and ends with, if it is one of a clock.
const CLOCKS = { p: ["1", "0"], P: ["1", "0"], n: ["0", "1"], N: ["0", "1"] };

/** The last brick of a wave that is neither `.` nor `|`. */
function lastDrawn(wave) {
  return wave.replace(/[.|]+$/, "").slice(-1);
}

/** What is looked for at a brick of a wave, and what its wave has before: `0`, `1` or `z`, when the signal gets this level; `gone`, when it leaves what it had;
 * `valid`, when it gets a value. `what` is null if the wave does not say. */
function soughtAt(wave, brick) {
  const nothing = { what: null, before: null };
  if (brick >= wave.length) return nothing;
  const clock = CLOCKS[lastDrawn(wave.slice(0, brick + 1))];
  if (clock) return { what: clock[0], before: clock[1] };
  if (brick === 0 || /[.|]/.test(wave[brick])) return nothing;
  const last = lastDrawn(wave.slice(0, brick));
  const before = CLOCKS[last] ? CLOCKS[last][1] : LEVELS[last] || "gone";
  const what = LEVELS[wave[brick]] || "gone";
  if (before === what && what !== "valid") return nothing;
  return { what, before };
}

/** The times at which a level comes. An edge goes from the opposite level; unknown and floating values between do not count. */
function timesOfLevel(wave, { what, before }) {
  const isEdge = before === "0" || before === "1";
  let level = null;
  return wave.values.flatMap((value, k) => {
    const comes = value === what && (isEdge ? level !== null && level !== value : k > 0);
    if (value === "0" || value === "1") level = value;
    return comes ? [wave.begins[k]] : [];
  });
}

/** The times at which a mark happens in a wave. The beginning of a trace is no change. */
function timesIn(wave, mark) {
  const { begins, ends, values } = wave;
  if (mark.what === "gone") {
    const fits = mark.before === "z" ? isFloating : isValid;
    return ends.filter((end, k) => end !== null && fits(values[k]));
  }
  if (mark.what === "valid") return begins.filter((_, k) => k > 0 && isValid(values[k]));
  if (mark.what === "z") return begins.filter((_, k) => k > 0 && isFloating(values[k]));
  return timesOfLevel(wave, mark);
}

// ---- which signal is which lane

/** The letters and digits of a name up to its first comma, in small letters: `CE#`, `/CE`, `nCE`, `CE_N` and `ce_n` are one name. */
function plainName(name) {
  const first = name.split(",")[0].trim().replace(/^(?:[/!~]|n(?=[A-Z]))\{?(.*?)\}?$/, "$1n");
  return first.replaceAll("#", "n").toLowerCase().replace(/[^a-z0-9]/g, "");
}

/** The innermost scope of a signal. */
function scopeOf(signal) {
  return plainName(signal.scope.split(".").pop());
}

/** The signals of different codes whose names fit. */
function fitting(signals, fits) {
  const found = new Map();
  for (const signal of signals) if (fits(scopeOf(signal), plainName(signal.name)) && !found.has(signal.code)) found.set(signal.code, signal);
  return [...found.values()];
}

/** The signals whose names fit without a number at their end, the greatest number first. */
function bitsOf(signals, fits) {
  const found = new Map();
  for (const signal of signals) {
    const match = /^(.*?)[_[<(]?([0-9]{1,4})[\]>)]?$/.exec(signal.name);
    if (match && (signal.width ?? 1) === 1 && fits(scopeOf(signal), plainName(match[1])) && !found.has(Number(match[2]))) found.set(Number(match[2]), signal);
  }
  return [...found.keys()].sort((a, b) => b - a).map((number) => found.get(number));
}

/** The lanes of a design that have marks, each with its part, its title, its marks and its signals; `others` are signals that it may be too. `nets` are those
 * of the netlist's tree, and `chosen` gives signals by the title of a lane. */
export class Tracks {
  constructor(design, nets, trace, chosen = {}) {
    this.design = design;
    this.firstPins = new Map();
    for (const { pins } of nets.filter((net) => !net.delay || net.delay.every((end) => end === 0))) {
      for (const pin of pins) this.firstPins.set(pin, this.firstPins.get(pin) ?? pins[0]);
    }
    this.all = design.parts.flatMap(({ name, sheet }, part) =>
      sheet.lanes.flatMap((lane, number) => {
        if (!lane.marks.length) return [];
        const marks = lane.marks.map(({ place, mark }) => ({ name: mark, event: `${name}.${mark}`, ...soughtAt(lane.wave, place) }));
        return [{ part: name, lane, title: design.laneTitle(part, number), short: lane.title || `lane ${number}`, marks, signals: [], others: [] }];
      }),
    );
    for (const track of this.all) this.name(track, trace.signals, chosen[track.title]);
    for (const track of this.all) this.share(track);
  }

  /** The pin whose times a lane has: the one from which nets without a delay lead to it. */
  pinOf({ part, lane }) {
    const seen = new Set();
    let pin = `${part}.${lane.name}`;
    while (this.firstPins.has(pin) && !seen.has(pin)) {
      seen.add(pin);
      pin = this.firstPins.get(pin);
    }
    return pin;
  }

  /** Gives a lane the signals that are chosen for it, or those of its name. */
  name(track, signals, chosen) {
    if (chosen) {
      track.signals = chosen;
      return;
    }
    const [part, title] = [plainName(track.part), plainName(track.short)];
    const isLevel = track.marks.some(({ what }) => what === "0" || what === "1");
    for (const fits of title ? this.rules(part, title) : []) {
      const found = fitting(signals, fits);
      track.signals = found.length || isLevel ? found.slice(0, 1) : bitsOf(signals, fits);
      track.others = found.slice(1);
      if (track.signals.length) return;
    }
  }

  /** Which scopes and names of signals fit a lane, the best ones first: in a netlist those with the part, and without it if no other part has such a lane. */
  rules(part, title) {
    const bare = (_, name) => name === title;
    if (this.design.alone) return [bare];
    const isOne = new Set(this.all.filter(({ short }) => plainName(short) === title).map((other) => this.pinOf(other))).size === 1;
    return [(scope, name) => (scope === part && name === title) || name === part + title, ...(isOne ? [bare] : [])];
  }

  /** Gives a lane without a signal that of a lane which a net without a delay joins to it. */
  share(track) {
    if (track.signals.length || !track.lane.name) return;
    const other = this.all.find((one) => one.signals.length && !one.over && this.pinOf(one) === this.pinOf(track));
    if (other) Object.assign(track, { signals: other.signals, over: other.title });
  }
}

// ---- runs

/** The place of the first time that is not before a time. */
function placeOf(times, time) {
  let [low, high] = [0, times.length];
  while (low < high) {
    const middle = (low + high) >> 1;
    if (times[middle] < time) low = middle + 1;
    else high = middle;
  }
  return low;
}

/** Whether mark k is a value and the last mark of its lane. */
function isLastValue(marks, k) {
  return marks[k].what === "valid" && k + 1 === marks.length;
}

/** The time of mark k from `low` on and before `high`: the first one. Of a value that is the last mark of its lane it is the last one, and of a value after
 * which the lane floats the last one before that. */
function timeOf(marks, k, low, high) {
  const { times, what } = marks[k];
  const at = placeOf(times, low);
  if (at === times.length || times[at] >= high) return null;
  if (what !== "valid") return times[at];
  if (isLastValue(marks, k)) return times[placeOf(times, high) - 1];
  const follower = marks[k + 1];
  if (follower.what !== "z") return times[at];
  const floats = follower.times[placeOf(follower.times, times[at] + 1)] ?? Infinity;
  return times[placeOf(times, Math.min(high, floats)) - 1];
}

/** The times of the marks of a cycle, of which the first one is known, and that of the following cycle. `begins` are the beginnings of three cycles. */
function timesOfCycle(marks, first, begins, following) {
  const found = [first];
  const limit = following === null ? begins[2] : following + 1;
  let last = first;
  for (let k = 1; k < marks.length; k++) {
    const low = last === null ? begins[0] : last + 1;
    const isInside = last === null || (isLastValue(marks, k) && low < begins[1]);
    found.push(timeOf(marks, k, low, isInside ? begins[1] : limit));
    last = found[k] ?? last;
  }
  return found;
}

/** How long after a start the cycle of a lane begins: 0, or a number below 0 if its first mark may come before the start. `ends` are the least and the greatest
 * time from the start to the mark, null for one that is open. */
function offsetOf(mark, { low, high }, period) {
  if (low === null || low >= 0) return 0;
  const latest = high === null ? Math.floor(period / 2) : high;
  const isLevel = mark.what === "0" || mark.what === "1" || mark.what === "z";
  return Math.max(isLevel && high !== null ? Math.floor((low + high - period) / 2) : low, latest - period + 1);
}

/** The median of the gaps between starts, or the length of the trace. */
function periodOf(starts, end) {
  const gaps = starts.slice(1).map((start, k) => start - starts[k]).sort((a, b) => a - b);
  return gaps.length ? gaps[(gaps.length - 1) >> 1] : end - (starts[0] ?? end) + 1;
}

/** The times of the marks of a lane in each cycle, by their events without a cycle. */
function timesOfTrack(marks, starts, offset) {
  const begins = [...starts.map((start) => start + offset), Infinity, Infinity];
  const firsts = [...starts.map((_, k) => timeOf(marks, 0, begins[k], begins[k + 1])), null];
  const cycles = starts.map((_, k) => timesOfCycle(marks, firsts[k], begins.slice(k, k + 3), firsts[k + 1]));
  return marks.map(({ event }, k) => [event, cycles.map((times) => times[k])]);
}

/** The times of the events of a design in each run: for each run a list in the order of the events, with null for an event that was not seen.
 *
 * `tracks` are its lanes with their signals, `trace` is the trace, `cycle` the event that begins a cycle, without its number, or null for the first one that has
 * a signal, `shortest` is how long a value has to last, and `matrix` what job matrix printed, or null. */
export function runsIn(tracks, trace, { cycle = null, shortest = 0, matrix = null } = {}) {
  const { design } = tracks;
  const seen = tracks.all.filter(({ signals, marks }) => signals.length && marks.some(({ what }) => what));
  for (const track of seen) {
    track.sought = track.marks.filter(({ what }) => what);
    const wave = waveOf(track.signals, trace.begin, shortest);
    for (const mark of track.sought) mark.times = timesIn(wave, mark);
  }
  const first = seen.map(({ sought }) => sought[0]).find(({ event }) => cycle === null || event === cycle);
  if (!first) return { start: null, starts: [], runs: [] };
  const starts = first.times;
  const period = periodOf(starts, trace.end);
  const columns = new Map(seen.flatMap(({ sought }) => timesOfTrack(sought, starts, offsetOf(sought[0], reachOf(matrix, first.event, sought[0].event), period))));
  const events = [...design.places.keys()].map((event) => ({ column: columns.get(event.replace(/@[0-9]+$/, "")), later: design.places.get(event).cycle }));
  const runs = starts.slice(0, Math.max(starts.length - design.cycles + 1, 0)).map((_, k) => events.map(({ column, later }) => (column ? column[k + later] : null)));
  return { start: first.event, starts, runs };
}

/** How long after an event of cycle 0 another one comes, least and greatest; null for what the matrix does not say. */
function reachOf(matrix, source, target) {
  if (!matrix || !matrix.rows.length) return { low: null, high: null };
  const [from, to] = [matrix.events.indexOf(`${source}@0`), matrix.events.indexOf(`${target}@0`)];
  const least = matrix.rows[to][from];
  return { low: least === null ? null : -least, high: matrix.rows[from][to] };
}
