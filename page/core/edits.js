// Edits of a sheet's text that a hand makes in its drawing. Each function gives the changes of the text (a start, an end and a text each), and leaves all other
// characters of the file as they are: spaces, comments, the order of keys. Null where the edit can't be made.
//
// `read` is what was read of the file, and has a scanned value. Lanes, bricks and edges are counted from 0, as they are drawn.

import { lanesOf } from "./places.js";

/** @typedef {{ start: number, end: number, text: string }} Change */
/** @typedef {import("./files.js").Read} Read */

/** The characters that a new mark may have, in the order in which they are given out. */
const MARKS = [..."abcdefghijklmnopqrstuvwxyzABCDEFGHIJKLMNOPQRSTUVWXYZ0123456789"];
/** What a click on a brick draws after what is there. */
const NEXT = { 0: "1", 1: "x", x: "=", "=": "z", z: "0", p: "n", n: "p", P: "N", N: "P", h: "l", l: "h", H: "L", L: "H", ".": "0", "|": "." };
/** The levels that draw anew in each brick. */
const ANEW = "=23456789pPnN";

// Texts, lists and objects.

/** A text in place of a value. */
export function put(value, text) {
  return { start: value.start, end: value.end, text: JSON.stringify(text) };
}

/** Another text in place of some characters of a text, which keeps how its others are spelt. */
export function putWithin(value, first, last, text) {
  return { ...value.within(first, last), text: JSON.stringify(text).slice(1, -1).replace(/'/g, "\\u0027") };
}

/** The spaces at the start of the line of a place. */
function indentOf(read, place) {
  const line = read.text.slice(read.text.lastIndexOf("\n", place - 1) + 1, place);
  return /^[ \t]*/.exec(line)[0];
}

/** Puts an item at the end of a list: on a line of its own, unless the items before are on one line.
 * @returns {Change[]} */
export function appended(read, list, text) {
  const [before, last] = list.items.slice(-2);
  if (!before) {
    const indent = indentOf(read, list.start);
    const isBlank = !read.text.slice(list.start + 1, list.end - 1).trim();
    return [{ start: list.start + 1, end: isBlank ? list.end - 1 : list.start + 1, text: `\n${indent}  ${text}\n${indent}` }];
  }
  const end = last || before;
  const isInLine = last && !read.text.slice(before.end, last.start).includes("\n");
  return [{ start: end.end, end: end.end, text: isInLine ? `, ${text}` : `,\n${indentOf(read, end.start)}${text}` }];
}

/** Where the comma after an item is. */
function commaAfter(read, item) {
  const gap = /(?:\s|\/\/[^\n]*|\/\*[^]*?\*\/)*,/y;
  gap.lastIndex = item.end;
  gap.exec(read.text);
  return gap.lastIndex - 1;
}

/** Takes items out of a list, each with the comma that parts it from another one; what is left keeps its spaces and comments.
 * @returns {Change[]} */
export function withoutItems(read, list, numbers) {
  const gone = new Set(numbers);
  const kept = [...list.items.keys()].filter((number) => !gone.has(number));
  if (!numbers.length) return [];
  if (!kept.length) return [{ start: list.start + 1, end: list.end - 1, text: "" }];
  const isPlain = list.items.slice(1).every((item, number) => /^\s*,\s*$/.test(read.text.slice(list.items[number].end, item.start)));
  const [first, last] = [kept[0], kept[kept.length - 1]];
  return [...gone].flatMap((number) => {
    const item = list.items[number];
    if (isPlain && number > first) return [{ start: list.items[number - 1].end, end: item.end, text: "" }];
    if (isPlain) return [{ start: item.start, end: list.items[number + 1].start, text: "" }];
    const comma = commaAfter(read, number > last ? list.items[number - 1] : item);
    return [{ start: item.start, end: item.end, text: "" }, { start: comma, end: comma + 1, text: "" }];
  });
}

/** Puts a member into an object, after the value of another member or else at its end.
 * @returns {Change} */
export function member(object, key, text, after) {
  const last = object.members[object.members.length - 1];
  const value = object.get(after) || (last && last.value);
  const at = value ? value.end : object.start + 1;
  return { start: at, end: at, text: `${value ? ", " : " "}"${key}": ${text}` };
}

// Lanes and marks.

function lanes(read) {
  return lanesOf(read.value.get("signal"));
}

/** The marks of a lane as its text has them; empty where it has none. */
function nodeOf(lane) {
  const node = lane.get("node");
  return node && node.kind === "text" ? node.text : "";
}

function setNode(lane, text) {
  const node = lane.get("node");
  return node ? put(node, text) : member(lane, "node", JSON.stringify(text), "wave");
}

/** A text with another character at a place, with `.` up to it, and none after its last mark where it had none. */
function withChar(text, place, char) {
  const chars = [...text.padEnd(place + 1, ".")];
  chars[place] = char;
  return text.endsWith(".") ? chars.join("") : chars.join("").replace(/\.+$/, "");
}

/** Whether a brick of a lane has a mark. */
function isMarked(node, place) {
  return Boolean(node[place]) && node[place] !== "." && node[place] !== " ";
}

/** Where a mark is: the number of its lane and its brick; null where the sheet does not have it.
 * @param {Read} read
 * @param {string} mark */
export function placeOfMark(read, mark) {
  for (const [number, lane] of lanes(read).entries()) {
    const place = [...nodeOf(lane)].indexOf(mark);
    if (place >= 0) return { lane: number, place };
  }
  return null;
}

/** A character that no mark of the sheet has; undefined where all are taken.
 * @param {Read} read */
export function freeMark(read) {
  const used = new Set(lanes(read).flatMap((lane) => [...nodeOf(lane)]));
  return MARKS.find((mark) => !used.has(mark));
}

/** Whether a mark may get a character: one that is not a dot or a space, and that no mark of the sheet has.
 * @param {Read} read
 * @param {string} mark */
export function isFree(read, mark) {
  return mark.length === 1 && !/[.\s]/.test(mark) && !placeOfMark(read, mark);
}

/** Puts a mark at a brick of a lane that has none.
 * @param {Read} read
 * @param {number} number
 * @param {number} place
 * @returns {Change[] | null} */
export function addMark(read, number, place, mark = freeMark(read)) {
  const lane = lanes(read)[number];
  if (!lane || !mark || place < 0 || isMarked(nodeOf(lane), place)) return null;
  return [setNode(lane, withChar(nodeOf(lane), place, mark))];
}

/** Moves a mark to another brick, or to another lane.
 * @param {Read} read
 * @param {string} mark
 * @param {number} number
 * @param {number} place
 * @returns {Change[] | null} */
export function moveMark(read, mark, number, place) {
  const from = placeOfMark(read, mark);
  const lane = lanes(read)[number];
  if (!from || !lane || place < 0 || isMarked(nodeOf(lane), place)) return null;
  const before = lanes(read)[from.lane];
  const without = withChar(nodeOf(before), from.place, ".");
  if (from.lane === number) return [setNode(lane, withChar(without, place, mark))];
  return [setNode(before, without), setNode(lane, withChar(nodeOf(lane), place, mark))];
}

/** Gives a mark another character, on its lane and in all edges of the sheet.
 * @param {Read} read
 * @param {string} mark
 * @param {string} other
 * @returns {Change[] | null} */
export function renameMark(read, mark, other) {
  const from = placeOfMark(read, mark);
  if (!from || !isFree(read, other)) return null;
  const lane = lanes(read)[from.lane];
  const changes = edgesAt(read, mark).flatMap(({ value, word, start, end }) => [
    ...(start === mark ? [putWithin(value, 0, 1, other)] : []),
    ...(end === mark ? [putWithin(value, word.length - 1, word.length, other)] : []),
  ]);
  return [putWithin(lane.get("node"), from.place, from.place + 1, other), ...changes];
}

/** Takes a mark away, and all edges of the sheet that begin or end at it.
 * @param {Read} read
 * @param {string} mark
 * @returns {Change[] | null} */
export function removeMark(read, mark) {
  const from = placeOfMark(read, mark);
  if (!from) return null;
  const lane = lanes(read)[from.lane];
  const list = read.value.get("edge");
  return [setNode(lane, withChar(nodeOf(lane), from.place, ".")), ...(list ? withoutItems(read, list, edgesAt(read, mark).map(({ number }) => number)) : [])];
}

// Edges.

/** The edges of the sheet that begin or end at a mark, as values with their marks. */
function edgesAt(read, mark) {
  const list = read.value.get("edge");
  const edges = (list ? list.items : []).map((value, number) => {
    const [word] = value.text.split(" ");
    return { value, number, word, start: word[0], end: word[word.length - 1] };
  });
  return edges.filter(({ word, start, end }) => word.length > 1 && (start === mark || end === mark));
}

/** Adds an edge to the sheet, as the last one.
 * @param {Read} read
 * @param {string} text
 * @returns {Change[] | null} */
export function addEdge(read, text) {
  const list = read.value.get("edge");
  if (list) return list.kind === "array" ? appended(read, list, JSON.stringify(text)) : null;
  const last = read.value.members[read.value.members.length - 1];
  if (!last) return null;
  return [{ start: last.value.end, end: last.value.end, text: `,\n  "edge": [\n    ${JSON.stringify(text)}\n  ]` }];
}

/** Takes an edge away.
 * @param {Read} read
 * @param {number} number
 * @returns {Change[] | null} */
export function removeEdge(read, number) {
  const list = read.value.get("edge");
  return list && list.items[number] ? withoutItems(read, list, [number]) : null;
}

/** The text of an edge from its parts: its marks, its kind, the cycles between them, its ends in picoseconds (null for an open one) and its note.
 * @param {{ start: string, end: string, kind: string, shift: number, low: number | null, high: number | null, note: string }} edge */
export function edgeText(edge) {
  const shape = edge.kind === "req" || edge.kind === "ask" ? "->" : "~>";
  return `${edge.start}${shape}${edge.end} ${labelText(edge)}`;
}

/** The same of an edge of a netlist, whose marks have the names of their parts before them.
 * @param {{ start: string, end: string, kind: string, shift: number, low: number | null, high: number | null, note: string }} edge */
export function wireText(edge) {
  return `${edge.start} ${edge.end} ${labelText(edge)}`;
}

function labelText({ kind, shift, low, high, note }) {
  const range = kind === "ask" ? "" : ` [${[low, high].map((side) => side ?? "*").join(",")}]`;
  return `@${kind}${shift ? `+${shift}` : ""}${range}${note ? ` ${note}` : ""}`;
}

// Levels.

/** What a brick draws: its character, or that of the last brick before it that draws anew. */
function levelAt(wave, place) {
  for (let at = Math.min(place, wave.length - 1); at >= 0; at--) if (wave[at] !== "." && wave[at] !== "|") return wave[at];
  return ".";
}

/** Puts a level into a brick of a lane: a character, or the next one after what is there. What is drawn after the brick stays as it is.
 * @param {Read} read
 * @param {number} number
 * @param {number} place
 * @param {string | null} char
 * @returns {Change[] | null} */
export function setLevel(read, number, place, char = null) {
  const lane = lanes(read)[number];
  if (!lane || place < 0) return null;
  const value = lane.get("wave");
  const text = value ? value.text : "";
  const now = levelAt(text, place);
  const next = char === null ? NEXT[now] || "0" : char;
  const chars = [...text.padEnd(place + 1, text ? "." : "x")];
  if (chars[place + 1] === ".") chars[place + 1] = now === "." ? "x" : now;
  chars[place] = place > 0 && levelAt(text, place - 1) === next && !ANEW.includes(next) ? "." : next;
  const wave = chars.join("");
  return [value ? put(value, wave) : member(lane, "wave", JSON.stringify(wave), "name")];
}

// Lanes.

/** Adds a lane, as the last one.
 * @param {Read} read
 * @param {string} name
 * @param {string} wave
 * @returns {Change[] | null} */
export function addLane(read, name, wave) {
  const list = read.value.get("signal");
  return list && list.kind === "array" ? appended(read, list, `{ "name": ${JSON.stringify(name)}, "wave": ${JSON.stringify(wave)} }`) : null;
}

/** The name of a lane; undefined where it does not exist, and empty where it has none.
 * @param {Read} read
 * @param {number} number
 * @returns {string | undefined} */
export function laneName(read, number) {
  const lane = lanes(read)[number];
  const name = lane && lane.get("name");
  return lane && (name ? name.text : "");
}

/** Gives a lane another name.
 * @param {Read} read
 * @param {number} number
 * @param {string} name
 * @returns {Change[] | null} */
export function renameLane(read, number, name) {
  const lane = lanes(read)[number];
  if (!lane) return null;
  const value = lane.get("name");
  return [value ? put(value, name) : member(lane, "name", JSON.stringify(name), "")];
}

/** The marks of a lane.
 * @param {Read} read
 * @param {number} number */
export function marksOfLane(read, number) {
  const lane = lanes(read)[number];
  return lane ? [...nodeOf(lane)].filter((mark) => mark !== "." && mark !== " ") : [];
}

/** Takes a lane away, and all edges of the sheet that begin or end at its marks. Null where it is the only one of its list.
 * @param {Read} read
 * @param {number} number
 * @returns {Change[] | null} */
export function removeLane(read, number) {
  const lane = lanes(read)[number];
  const list = lane && listWith(read.value.get("signal"), lane);
  if (!list || list.items.filter((item) => item.kind !== "text").length < 2) return null;
  const edges = read.value.get("edge");
  const gone = new Set(marksOfLane(read, number).flatMap((mark) => edgesAt(read, mark).map((edge) => edge.number)));
  return [...withoutItems(read, list, [list.items.indexOf(lane)]), ...(edges ? withoutItems(read, edges, [...gone]) : [])];
}

/** The list of lanes that has an item: the outermost one, or a group; null where there is none. */
function listWith(list, item) {
  if (!list || list.items.includes(item)) return list || null;
  return list.items.filter((other) => other.kind === "array").reduce((found, group) => found || listWith(group, item), null);
}
