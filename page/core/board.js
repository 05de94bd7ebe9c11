// Edits of a netlist that a hand makes: its parts and their grades, its nets, and its edges. As in edits.js each gives the changes of the text, and null where
// the edit can't be made.

import { appended, member, put, withoutItems } from "./edits.js";
import { lastPart } from "./files.js";

/** @typedef {import("./edits.js").Change} Change */
/** @typedef {import("./files.js").Read} Read */

/** The names that a part may have. */
const NAME = /^[A-Za-z0-9_]{1,16}$/;

/** The name of a part for a sheet's file, of the letters that such a name may have.
 * @param {string} file */
export function nameForSheet(file) {
  const letters = lastPart(file).replace(/\.json5?$/, "").replace(/\W/g, "").slice(0, 16);
  return letters.toUpperCase() || "PART";
}

/** The text of a netlist with parts, which are a name and the file of a sheet each.
 * @param {[string, string][]} parts */
export function boardText(parts) {
  const lines = parts.map(([name, sheet]) => `    { "name": ${JSON.stringify(name)}, "sheet": ${JSON.stringify(sheet)} }`);
  return `{\n  "itv": 1,\n  "cycles": 2,\n  "parts": [\n${lines.join(",\n")}\n  ],\n  "nets": [],\n  "edges": []\n}\n`;
}

/** Whether a part may have a name, which none of the names of other parts is.
 * @param {string} name
 * @param {string[]} others */
export function isFreeName(name, others) {
  return NAME.test(name) && !others.includes(name);
}

/** The parts of a netlist: the name, the sheet and the grade of each, and its number.
 * @param {Read} read */
export function partsIn(read) {
  const parts = read.value && read.value.get("parts");
  const textOf = (part, key) => (part.get(key) && part.get(key).kind === "text" ? part.get(key).text : "");
  return (parts ? parts.items : []).map((part, number) => ({ name: textOf(part, "name"), sheet: textOf(part, "sheet"), grade: textOf(part, "grade"), number }));
}

/** The names of a netlist's parts that are of a sheet.
 * @param {Read} read
 * @param {string} sheet */
export function partsOfSheet(read, sheet) {
  return partsIn(read).filter((part) => part.sheet === sheet && part.name).map((part) => part.name);
}

/** Adds a part, as the last one.
 * @param {Read} read
 * @param {string} name
 * @param {string} sheet
 * @returns {Change[] | null} */
export function addPart(read, name, sheet) {
  if (!isFreeName(name, partsIn(read).map((part) => part.name))) return null;
  return addTo(read, "parts", `{ "name": ${JSON.stringify(name)}, "sheet": ${JSON.stringify(sheet)} }`);
}

/** Joins a lane of one part to a lane of another one. A net that the first lane drives gets the other one too; else a net is added, with a name and a delay whose
 * ends are null where they are open.
 * @param {Read} read
 * @param {{ name: string, pins: [string, string], low: number | null, high: number | null }} net
 * @returns {Change[] | null} */
export function addNet(read, { name, pins, low, high }) {
  const net = netOf(read, pins[0]);
  if (net && net.get("pins").items.some((pin) => pin.text === pins[1])) return null;
  if (net) return appended(read, net.get("pins"), JSON.stringify(pins[1]));
  const title = name ? `"name": ${JSON.stringify(name)}, ` : "";
  return addTo(read, "nets", `{ ${title}"pins": ${JSON.stringify(pins).replace(",", ", ")}, "delay": [${low}, ${high}] }`);
}

/** The net that a pin drives; undefined where it drives none. */
function netOf(read, pin) {
  const nets = read.value.get("nets");
  const isDriven = (net) => net.kind === "object" && net.get("pins") && net.get("pins").kind === "array" && (net.get("pins").items[0] || { text: "" }).text === pin;
  return nets && nets.items.find(isDriven);
}

/** What a net that a pin drives is called; null where the pin drives none.
 * @param {Read} read
 * @param {string} pin */
export function netDrivenBy(read, pin) {
  const net = read.value ? netOf(read, pin) : undefined;
  if (!net) return null;
  return net.get("name") && net.get("name").kind === "text" ? net.get("name").text : pin;
}

/** Adds an edge between marks of parts, as the last one.
 * @param {Read} read
 * @param {string} text
 * @returns {Change[] | null} */
export function addWire(read, text) {
  return addTo(read, "edges", JSON.stringify(text));
}

/** Takes a net or an edge of the netlist away, given by what it is and its number. Null where there is none.
 * @param {Read} read
 * @param {"net" | "edge"} what
 * @param {number} number
 * @returns {Change[] | null} */
export function removeOfBoard(read, what, number) {
  const list = read.value && read.value.kind === "object" ? read.value.get(what === "net" ? "nets" : "edges") : null;
  return list && list.kind === "array" && list.items[number] ? withoutItems(read, list, [number]) : null;
}

/** Adds an item to a list of the netlist, which is begun where there is none. */
function addTo(read, key, text) {
  if (!read.value || read.value.kind !== "object") return null;
  const list = read.value.get(key);
  if (list) return list.kind === "array" ? appended(read, list, text) : null;
  return [member(read.value, key, `[${text}]`, "")];
}

/** Gives a part another grade.
 * @param {Read} read
 * @param {number} number
 * @param {string} grade
 * @returns {Change[] | null} */
export function setGrade(read, number, grade) {
  const parts = read.value && read.value.get("parts");
  const part = parts && parts.items[number];
  if (!part || part.kind !== "object") return null;
  const value = part.get("grade");
  const version = read.value.get("itv");
  // Grades are of the second version.
  const second = version && version.text === "1" ? [{ start: version.start, end: version.end, text: "2" }] : [];
  return [...second, value ? put(value, grade) : member(part, "grade", JSON.stringify(grade), "sheet")];
}

/** The parts of a netlist that have a choice of grades: each with its number, its name, its grade, and the names of all grades of its sheet.
 * @param {Read} read
 * @param {(file: string) => Read | null} readOf */
export function gradesIn(read, readOf) {
  return partsIn(read).flatMap(({ name, sheet, grade, number }) => {
    const of = sheet ? readOf(sheet) : null;
    const grades = of && of.value && of.value.get("itv_grades");
    const names = grades && grades.kind === "object" ? grades.members.map(({ key }) => key.text) : [];
    return names.length ? [{ number, name, grade, names }] : [];
  });
}
