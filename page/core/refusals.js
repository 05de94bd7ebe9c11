// Where a refusal is: in which file, and where in its text. Why it is refused are the words of the program.

import { isNetlist, sheetNames } from "./design.js";
import { lanesOf } from "./places.js";

/** The part of a lane under a key. */
function laneValue(file, number, key) {
  const lane = lanesOf(file.value.get("signal"))[Number(number)];
  return lane ? lane.get(key) || lane : file.value.at("signal");
}

/** The marks of the lane in which a mark is for the second time. */
function secondMark(file, mark) {
  let seen = 0;
  for (const lane of lanesOf(file.value.get("signal"))) {
    const node = lane.get("node");
    seen += node ? node.text.split(mark).length - 1 : 0;
    if (seen > 1) return node;
  }
  return file.value.at("signal");
}

const EDGE = (file, [number]) => file.value.at(isNetlist(file.tree) ? "edges" : "edge", Number(number));
const GRADES = (file) => file.value.at("itv_grades");
const PARTS = (file) => file.value.at("parts");
const WHOLE = (file) => file.value;

// For each fault of a file where it is, from the file and the words after the fault's name.
const OF_FILE = {
  NoSignal: (file) => file.value.at("signal"),
  EdgesNotList: (file) => file.value.at(isNetlist(file.tree) ? "edges" : "edge"),
  EdgeNotText: EDGE,
  Grades: GRADES,
  Limits: GRADES,
  NoGrade: GRADES,
  BadNode: (file, [lane]) => laneValue(file, lane, "node"),
  DoubleMark: (file, [mark]) => secondMark(file, mark),
  DoublePin: (file, [lane]) => laneValue(file, lane, "name"),
  BadEdge: EDGE,
  Label: EDGE,
  NoParam: EDGE,
  NoMark: EDGE,
  TooManyCauses: EDGE,
  Version: (file) => file.value.at("itv"),
  Cycles: (file) => file.value.at("cycles"),
  PartsNotList: PARTS,
  TooManyParts: PARTS,
  TooManySheets: PARTS,
  Part: (file, [number]) => file.value.at("parts", Number(number)),
  DoublePart: (file, [number]) => file.value.at("parts", Number(number), "name"),
  NetsNotList: (file) => file.value.at("nets"),
  Net: (file, [number]) => file.value.at("nets", Number(number)),
  Delay: (file, [number]) => file.value.at("nets", Number(number), "delay"),
  Edge: EDGE,
};

const PIN = (file, [net, pin]) => file.value.at("nets", Number(net), "pins", Number(pin));

// For each fault of the joins where it is in the design's own file.
const OF_DESIGN = { NoPart: PIN, NoPin: PIN, MarkCounts: PIN, KindsDiffer: PIN, WireNoPart: EDGE, WireNoMark: EDGE, TooManyCauses: EDGE };

/** The places in a netlist's text that name a sheet. */
export function sheetPlaces(file, name) {
  const parts = file.value.get("parts");
  return (parts ? parts.items : []).map((part) => part.get("sheet")).filter((sheet) => sheet && sheet.text === name);
}

/** Where the fault is that a line of the program names: the number of a file, and a part of its text. A fault of a whole file is at its beginning.
 * Null for a line that names none.
 *
 * `files` are what was read of the files of the run: the design, and then its sheets. */
export function placeOfFault(line, files) {
  const words = line.split(" ");
  if (words[0] === "cannot" && words[2] === "file") return placeOfMissing(Number(words[3]), files);
  if (words[0] !== "refused") return null;
  const isOfFile = words[1] === "file";
  const number = isOfFile ? Number(words[2]) : 0;
  const [fault, ...rest] = words.slice(isOfFile ? 3 : 2);
  const file = files[number];
  if (!file || !file.value) return { file: number, start: 0, end: 0 };
  const value = ((isOfFile ? OF_FILE : OF_DESIGN)[fault] || WHOLE)(file, rest);
  return { file: number, start: value.start, end: value === file.value ? value.start + 1 : value.end };
}

/** Where the name of a sheet is that is not there; its name comes too. */
function placeOfMissing(number, files) {
  const sheet = number ? sheetNames(files[0].tree)[number - 1] : "";
  const place = number ? sheetPlaces(files[0], sheet)[0] : files[0].value;
  return { file: 0, start: place ? place.start : 0, end: place ? place.end : 0, sheet };
}

/** What the program said of a refusal: its words, and the place that they begin with, as the name of a file, a line and a column, both from 1. The place is null
 * where the words are about none. */
export function reasonIn(text, names) {
  const [line] = text.split("\n");
  for (const name of names) {
    const match = line.startsWith(`${name}:`) && /^:(\d+):(\d+): (.*)$/.exec(line.slice(name.length));
    if (match) return { says: sentence(match[3]), place: { name, line: Number(match[1]), column: Number(match[2]) } };
  }
  return { says: sentence(line.replace(/^itv: /, "")), place: null };
}

/** Words that begin with a capital and end with a stop. */
function sentence(words) {
  if (!words) return "";
  const begun = words.charAt(0).toUpperCase() + words.slice(1);
  return /[.!?]$/.test(begun) ? begun : `${begun}.`;
}
