// Words and numbers as they are written in the page and its pictures, and the room that they take in a font of one width.

export const FONT_SIZE = 11;
export const CHARACTER = 0.605 * FONT_SIZE;

const ENTITIES = { "&": "&amp;", "<": "&lt;", ">": "&gt;", '"': "&quot;", "'": "&#x27;" };

/** The text as it may be written in HTML and SVG, within quotes too. What XML has no place for becomes a space. */
export function escaped(text) {
  return String(text)
    .replace(/\p{Surrogate}/gu, " ")
    .replace(/[\u0000-\u001f\u007f\ufffd-\uffff]/g, " ")
    .replace(/[&<>"']/g, (char) => ENTITIES[char]);
}

/** A text of several lines as it may be in HTML. */
export function escapedText(text) {
  return text.split("\n").map(escaped).join("\n");
}

/** How many pixels a text takes at most. */
export function room(text) {
  let characters = 0;
  for (const char of text) {
    if (!/\p{M}/u.test(char)) characters += char > "\u2fff" || /\p{Emoji_Presentation}/u.test(char) ? 2 : 1;
  }
  return characters * CHARACTER;
}

/** The text, with its end cut off where it takes more pixels. */
export function fitted(text, most) {
  if (room(text) <= most) return text;
  const kept = [...text];
  while (kept.length && room(kept.join("")) + CHARACTER > most) kept.pop();
  return kept.length ? `${kept.join("")}…` : "";
}

/** The text, with its middle cut out where it takes more pixels: names of one beginning stay apart. */
export function fittedName(text, most) {
  if (room(text) <= most) return text;
  const characters = [...text];
  const count = Math.max(Math.floor(most / CHARACTER) - 1, 2);
  const last = Math.floor(count / 2);
  return `${characters.slice(0, count - last).join("")}…${characters.slice(characters.length - last).join("")}`;
}

/** A unit of time: its name, and how many picoseconds it has. */
export const UNITS = [
  { name: "s", size: 10 ** 12 },
  { name: "ms", size: 10 ** 9 },
  { name: "us", size: 10 ** 6 },
  { name: "ns", size: 1000 },
  { name: "ps", size: 1 },
];

/** A whole number with commas between its thousands. */
export function grouped(number) {
  return String(number).replace(/\B(?=(\d{3})+$)/g, ",");
}

/** A number of picoseconds in a unit, exactly, with one decimal at least where the unit is greater. */
export function inUnit(time, unit) {
  const sign = time < 0 ? "-" : "";
  const amount = Math.abs(time);
  if (unit.size === 1) return `${sign}${grouped(amount)} ps`;
  const whole = Math.floor(amount / unit.size);
  const digits = String(unit.size).length - 1;
  const rest = String(amount - whole * unit.size).padStart(digits, "0").replace(/0+$/, "");
  return `${sign}${grouped(whole)}.${rest || "0"} ${unit.name}`;
}

/** The unit for numbers of which this is the greatest: picoseconds below 1,000, and a greater one from 10,000 of a unit on. */
export function unitFor(greatest) {
  return UNITS.find((unit) => greatest >= (unit.size > 1000 ? unit.size * 10 : unit.size)) || UNITS[UNITS.length - 1];
}

/** A time of a scale, in the unit of the page. */
export function tickText(time, unit) {
  return time ? inUnit(time, unit).replace(/\.0 /, " ") : "0";
}

/** The demanded range of a requirement. */
export function demandedText(row, unit) {
  if (row.low === null && row.high === null) return "any";
  if (row.high === null) return `at least ${inUnit(row.low, unit)}`;
  if (row.low === null) return `at most ${inUnit(row.high, unit)}`;
  return `${inUnit(row.low, unit)} to ${inUnit(row.high, unit)}`;
}

/** `1 row`, `2 rows`. */
export function counted(count, word) {
  return `${grouped(count)} ${word}${count === 1 ? "" : "s"}`;
}

/** A bound in a unit: a number, `unbounded`, or `not known` if the search ended too early.
 * @param {{ kind: string, value: number | null }} bound
 * @param {{ name: string, size: number }} unit */
export function boundText({ kind, value }, unit) {
  if (kind === "number") return inUnit(value, unit);
  return kind === "unbounded" ? "unbounded" : "not known";
}
