// The waves of lanes in time: each transition at the time of its mark, and one without a mark between its neighbours.
//
// Bricks are counted over all cycles: brick b of cycle c is c times the width of the sheet, plus b.

const KINDS = { p: "rise", P: "rise", n: "fall", N: "fall", z: "floating", u: "up", d: "down" };
for (const char of "0lL") KINDS[char] = "low";
for (const char of "1hH") KINDS[char] = "high";
for (const char of "=23456789") KINDS[char] = "bus";

// What a clock ends with.
const STILL = { p: "0", P: "0", n: "1", N: "1" };

/** Whether a run is a brick of a clock. */
export function isClock(kind) {
  return kind === "rise" || kind === "fall";
}

/** What a character of a wave draws; all that is not known is unknown. */
function kindOf(char) {
  return Object.hasOwn(KINDS, char) ? KINDS[char] : "unknown";
}

/** The time of each brick of a lane: at marks the printed ones, between two marks in proportion, and past them as wide as all bricks are.
 *
 * A lane without marks goes by the guide. A mark that comes before one on its left has no say. */
export class Clockwork {
  constructor(anchors, guide = null) {
    this.places = [];
    this.times = [];
    this.guide = guide;
    for (const [place, time] of [...anchors].sort((a, b) => a[0] - b[0])) {
      if (this.times.length && time < this.times[this.times.length - 1]) continue;
      this.places.push(place);
      this.times.push(time);
    }
    const last = this.places.length - 1;
    const span = last > 0 ? this.places[last] - this.places[0] : 0;
    if (span && this.times[last] > this.times[0]) this.width = (this.times[last] - this.times[0]) / span;
    else this.width = guide ? guide.width : 1000;
  }

  isMark(place) {
    return this.places.includes(place);
  }

  at(place) {
    if (!this.places.length) return this.guide ? this.guide.at(place) : place * this.width;
    const after = this.places.findIndex((other) => other >= place);
    const last = this.places.length - 1;
    if (after === 0) return this.times[0] + (place - this.places[0]) * this.width;
    if (after < 0) return this.times[last] + (place - this.places[last]) * this.width;
    const share = (place - this.places[after - 1]) / (this.places[after] - this.places[after - 1]);
    return this.times[after - 1] + share * (this.times[after] - this.times[after - 1]);
  }
}

/** Bricks of one width, as WaveDrom draws them: a brick begins at its number, and each is drawn as a mark is. */
export const EVEN_BRICKS = { width: 1, isMark: () => true, at: (place) => place };

/** Where the bricks of all lanes are: by the mean times of their marks, which are given as places and times. */
export function guideOf(points) {
  const times = new Map();
  for (const [place, time] of points) times.set(place, [...(times.get(place) || []), time]);
  return new Clockwork([...times].map(([place, found]) => [place, found.reduce((sum, time) => sum + time, 0) / found.length]));
}

/** The bricks of a wave over all cycles: a character, whether it begins anew, and whether it has a gap, for each.
 *
 * After its last brick a wave stays as it is, and a clock is still. */
function bricksOf(wave, bricks, cycles) {
  const drawn = [];
  let now = "x";
  for (let cycle = 0; cycle < cycles; cycle++) {
    for (let place = 0; place < bricks; place++) {
      const char = place < wave.length ? wave[place] : STILL[now] || ".";
      const fresh = char !== "." && char !== "|";
      if (fresh) now = char;
      drawn.push({ char: now, fresh, gap: char === "|" });
    }
  }
  return drawn;
}

/** The runs of a lane's wave, and the times in the middle of its gaps.
 *
 * A run is a stretch without a transition: its kind and character, where it begins and ends, whether it begins at a mark, and its text. `start` and
 * `end` are times; null where it has no start or no end. A brick of a clock is a run, and so is what goes before a first mark. */
export function runsOf(lane, bricks, cycles, clockwork) {
  if (isClockOfOneMark(lane)) return { runs: periodsOf(lane, bricks, cycles, clockwork), gaps: [] };
  const drawn = bricksOf(lane.wave, bricks, cycles);
  const gaps = drawn.flatMap(({ gap }, place) => (gap ? [clockwork.at(place + 0.5)] : []));
  const runs = [];
  let texts = [];
  drawn.forEach(({ char, fresh }, place) => {
    const kind = kindOf(char);
    if (place % bricks === 0) texts = [...lane.data];
    const text = fresh && kind === "bus" && texts.length ? texts.shift() : "";
    const last = runs[runs.length - 1];
    if (last && last.kind === kind && !isClock(kind) && !(fresh && kind === "bus")) return;
    const start = last || clockwork.isMark(place) || isClock(kind) ? clockwork.at(place) : null;
    if (last) last.end = start;
    else if (start !== null) runs.push(runBefore(kind, start));
    runs.push({ kind, char, start, end: null, marked: clockwork.isMark(place), text });
  });
  endClock(runs, clockwork.at(drawn.length));
  halveClock(runs);
  return { runs, gaps };
}

/** Whether a lane is a clock from its only mark on. Its pulses are then as many as the drawing has bricks, whatever its period, so one is drawn for each
 * time of the mark. */
function isClockOfOneMark(lane) {
  return lane.marks !== undefined && lane.marks.length === 1 && lane.marks[0].place === 0 && /^[pPnN]\.*$/.test(lane.wave);
}

/** The runs of such a lane: one period from each time of the mark to the next one. The last is as long as the one before. */
function periodsOf(lane, bricks, cycles, clockwork) {
  const char = lane.wave[0];
  const kind = kindOf(char);
  const times = Array.from({ length: cycles }, (_, cycle) => clockwork.at(cycle * bricks));
  const last = cycles > 1 ? 2 * times[cycles - 1] - times[cycles - 2] : clockwork.at(bricks);
  const ends = [...times.slice(1), last];
  const runs = [runBefore(kind, times[0]), ...times.map((start, cycle) => ({ kind, char, start, end: ends[cycle], marked: true, text: "" }))];
  endClock(runs, last);
  return runs;
}

/** What goes before a first run that begins at a time. */
function runBefore(kind, start) {
  return { kind: { rise: "low", fall: "high" }[kind] || "none", char: "", start: null, end: start, marked: false, text: "" };
}

/** Puts the level after a clock that continues to the end. */
function endClock(runs, end) {
  const last = runs[runs.length - 1];
  if (!last || !isClock(last.kind)) return;
  last.end = end;
  runs.push({ kind: last.kind === "rise" ? "low" : "high", char: "", start: end, end: null, marked: false, text: "" });
}

/** Puts an edge without a mark that is alone between two marked edges of a lane of levels in the middle between them: so a clock of which the
 * drawing marks one edge falls in the middle of its period. Past the last marked edge it comes half of the last period later. */
function halveClock(runs) {
  if (!runs.every(({ kind }) => kind === "low" || kind === "high" || kind === "none")) return;
  const isMarked = (number) => number > 0 && number < runs.length && runs[number].marked;
  for (let number = 1; number < runs.length; number++) {
    if (isMarked(number) || !isMarked(number - 1)) continue;
    const before = runs[number - 1].start;
    if (isMarked(number + 1)) moveEdge(runs, number, (before + runs[number + 1].start) / 2);
    else if (number === runs.length - 1 && isMarked(number - 3)) moveEdge(runs, number, before + (before - runs[number - 3].start) / 2);
  }
}

/** Puts the start of a run at another time. */
function moveEdge(runs, number, time) {
  runs[number].start = time;
  runs[number - 1].end = time;
}
