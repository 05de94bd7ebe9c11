// Times as a hand types them, and as they are shown to be typed over: exact, in picoseconds or a unit.

const SIZES = { ps: 1, ns: 1000, us: 10 ** 6, µs: 10 ** 6, ms: 10 ** 9, s: 10 ** 12 };
/** The greatest time that an end of a range may be, in picoseconds. */
const GREATEST = 10 ** 13;

/** Whether a number is one that an end of a range may be. */
export function isTime(number) {
  return Number.isInteger(number) && Math.abs(number) <= GREATEST;
}

/** A number of picoseconds as it is typed in a unit of so many picoseconds, exact and without the unit's name. `*` for an open end. */
export function typedOf(number, size) {
  if (number === null) return "*";
  const places = String(size).length - 1;
  const digits = String(Math.abs(number)).padStart(places + 1, "0");
  const cut = digits.length - places;
  const rest = digits.slice(cut).replace(/0+$/, "");
  return `${number < 0 ? "-" : ""}${digits.slice(0, cut)}${rest ? `.${rest}` : ""}`;
}

/** What was typed as whole picoseconds: `8`, `8.25 ns`, `12ps`; `*`, `-` or nothing for an open end, which is null. An object with the number, or with a
 * fault in words. A number without a unit counts in one of so many picoseconds. */
export function readTyped(text, size) {
  const words = text.trim().replace(/,/g, "").replace(/\u2212/g, "-");
  if (/^(?:\*|-|–|)$/.test(words)) return { number: null };
  const match = /^([+-]?)(\d*)(?:\.(\d*))?\s*(ps|ns|us|µs|ms|s)?$/.exec(words);
  if (!match || !(match[2] || match[3])) return { fault: `"${text}" is not a time: write 8, 8.25 ns, 300 ps, or * for no limit` };
  const [, sign, whole, part, unit] = match;
  const places = String(unit ? SIZES[unit] : size).length - 1;
  const rest = (part || "").replace(/0+$/, "");
  if (rest.length > places) return { fault: `"${text}" is finer than a picosecond` };
  const number = Number(`${sign}${whole || "0"}${rest.padEnd(places, "0")}`);
  return isTime(number) ? { number: number || 0 } : { fault: `"${text}" is more than 10 s` };
}

/** Why two ends that were typed are no range: an empty text where they are one.
 * @param {{ number?: number | null, fault?: string }} low
 * @param {{ number?: number | null, fault?: string }} high */
export function rangeFault(low, high) {
  if (low.fault || high.fault) return low.fault || high.fault;
  return low.number !== null && high.number !== null && low.number > high.number ? "min is above max" : "";
}
