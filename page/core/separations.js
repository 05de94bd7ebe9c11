// What measured runs show of rules and rows: separations and slacks, counted as job measure counts them. It needs no search, and no bound is computed.
//
// A run is a list of times in whole picoseconds in the order of the events, with null for an event that was not seen. Runs are counted from 1.

/** @typedef {import("./rules.js").Constraint} Constraint */
/** A number, and the first run that shows it.
 * @typedef {{ value: number, run: number }} Found */
/** What runs show of constraints: in how many runs they were seen, broken by more than a tolerance, or kept by less than it; the first broken run; and the least slack,
 * and the least and the greatest separation from the first cause. A number is null where no run shows it, and the slack is Infinity where no end limits it.
 * @typedef {{ seen: number, broken: number, near: number, first: number | null, slack: Found | null, least: Found | null, greatest: Found | null }} Tally */

/** By how much a separation of a cause is within its range on each side; Infinity where that side is open. */
function spares({ low, high }, separation) {
  return { low: low === null ? Infinity : separation - low, high: high === null ? Infinity : high - separation };
}

/** A constraint with the numbers of its events in place of their names.
 * @param {Constraint} constraint
 * @param {Map<string, number>} numbers */
export function numbered({ kind, end, causes }, numbers) {
  return { kind, end: numbers.get(end), causes: causes.map(({ event, low, high }) => ({ event: numbers.get(event), low, high })) };
}

/** What a run shows of a numbered constraint: its separations, its slack, the side that has it, and the number of the cause that decides there. Null where an event was
 * not seen.
 *
 * The low end of a latest rule binds each cause, and its high end the cause that leaves most. Of an earliest rule it is the other way round.
 * @param {ReturnType<typeof numbered>} constraint
 * @param {(number | null)[]} times */
export function lookAt({ kind, end, causes }, times) {
  const target = times[end];
  if (target === null || causes.some(({ event }) => times[event] === null)) return null;
  const separations = causes.map(({ event }) => target - times[event]);
  if (causes.length === 1) return lookAtOne(causes[0], separations);
  const sides = causes.map((cause, number) => spares(cause, separations[number]));
  const [low, high] = ["low", "high"].map((side) => decider(sides.map((spare) => spare[side]), kind === (side === "low" ? "early" : "late")));
  const side = low.spare < high.spare ? "low" : "high";
  return { separations, side, slack: Math.min(low.spare, high.spare), cause: (side === "low" ? low : high).number };
}

/** The same of a constraint with one cause, which most have. */
function lookAtOne(cause, separations) {
  const { low, high } = spares(cause, separations[0]);
  return { separations, side: low < high ? "low" : "high", slack: Math.min(low, high), cause: 0 };
}

/** The cause that decides a side: the one that leaves most, or the one that leaves least. */
function decider(all, isMost) {
  const spare = isMost ? Math.max(...all) : Math.min(...all);
  return { spare, number: all.indexOf(spare) };
}

/** What runs show of constraints together: they are those of one rule or row in several cycles.
 * @param {Constraint[]} constraints
 * @param {(number | null)[][]} runs
 * @param {Map<string, number>} numbers the number of each event
 * @param {number} within how much more than its range a separation may be, in picoseconds
 * @returns {Tally} */
export function tallyOf(constraints, runs, numbers, within = 0) {
  /** @type {Tally} */
  const tally = { seen: 0, broken: 0, near: 0, first: null, slack: null, least: null, greatest: null };
  const all = constraints.map((constraint) => numbered(constraint, numbers));
  runs.forEach((times, place) => {
    const looks = all.map((constraint) => lookAt(constraint, times)).filter((look) => look);
    if (looks.length) take(tally, looks, place + 1, within);
  });
  return tally;
}

/** Takes what a run shows into a tally. */
function take(tally, looks, run, within) {
  const slack = Math.min(...looks.map((look) => look.slack));
  const isBroken = slack < -within;
  tally.seen++;
  if (isBroken) tally.broken++;
  else if (slack < within) tally.near++;
  if (isBroken && tally.first === null) tally.first = run;
  const separations = looks.map((look) => look.separations[0]);
  if (!tally.slack || slack < tally.slack.value) tally.slack = { value: slack, run };
  const [least, greatest] = [Math.min(...separations), Math.max(...separations)];
  if (!tally.least || least < tally.least.value) tally.least = { value: least, run };
  if (!tally.greatest || greatest > tally.greatest.value) tally.greatest = { value: greatest, run };
}

/** The verdict of a tally: `fail` where a run is broken, `near` where one is kept by less than the tolerance, `unseen` where no run shows it, or else `pass`.
 * @param {Tally} tally */
export function verdictOf({ seen, broken, near }) {
  if (!seen) return "unseen";
  return broken ? "fail" : near ? "near" : "pass";
}
