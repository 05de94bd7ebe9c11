// Edits of a netlist that follow an edit of a sheet: what names a mark or a lane of a part of that sheet gets the other name, or goes with it.
//
// `read` is what was read of the netlist. The changes are those of its text; none where nothing names the mark or the lane.

import { putWithin, withoutItems } from "./edits.js";

/** @typedef {import("./edits.js").Change} Change */
/** @typedef {import("./files.js").Read} Read */

/** The names of the parts that are of a sheet. */
function partsOf(read, sheet) {
  const parts = read.value.get("parts");
  const isOf = (part) => part.kind === "object" && part.get("sheet") && part.get("sheet").text === sheet && part.get("name");
  return parts ? parts.items.filter(isOf).map((part) => part.get("name").text) : [];
}

/** The edges of a netlist that begin or end at one of the marks of a sheet's parts. */
function wiresAt(read, sheet, marks) {
  const list = read.value.get("edges");
  const names = new Set(partsOf(read, sheet).flatMap((part) => marks.map((mark) => `${part}.${mark}`)));
  const wires = (list ? list.items : []).map((value, number) => ({ value, number, ends: value.text.split(" ").slice(0, 2) }));
  return { list, names, wires: wires.filter(({ value, ends }) => value.kind === "text" && ends.some((end) => names.has(end))) };
}

/** Gives a mark of a sheet its other character in the netlist's edges.
 * @param {Read} read
 * @param {string} sheet
 * @param {string} mark
 * @param {string} other
 * @returns {Change[]} */
export function markRenamed(read, sheet, mark, other) {
  const { names, wires } = wiresAt(read, sheet, [mark]);
  return wires.flatMap(({ value, ends: [first, second] }) => {
    const places = [names.has(first) ? first.length : 0, names.has(second) ? first.length + 1 + second.length : 0];
    return places.filter((place) => place).map((place) => putWithin(value, place - mark.length, place, other));
  });
}

/** Takes the netlist's edges away that begin or end at marks of a sheet.
 * @param {Read} read
 * @param {string} sheet
 * @param {string[]} marks
 * @returns {Change[]} */
export function marksRemoved(read, sheet, marks) {
  const { list, wires } = wiresAt(read, sheet, marks);
  return list ? withoutItems(read, list, wires.map(({ number }) => number)) : [];
}

/** The nets of a netlist with the numbers of their pins that are a lane of a sheet's parts. */
function netsAt(read, sheet, lane) {
  const list = read.value.get("nets");
  const names = new Set(partsOf(read, sheet).map((part) => `${part}.${lane}`));
  const nets = (list ? list.items : []).map((net, number) => {
    const pins = net.kind === "object" ? net.get("pins") : null;
    const items = pins ? pins.items : [];
    return { number, pins, items, found: items.flatMap((pin, place) => (pin.kind === "text" && names.has(pin.text) ? [place] : [])) };
  });
  return { list, nets: nets.filter(({ found }) => found.length) };
}

/** Gives a lane of a sheet its other name in the pins of the netlist.
 * @param {Read} read
 * @param {string} sheet
 * @param {string} lane
 * @param {string} other
 * @returns {Change[]} */
export function laneRenamed(read, sheet, lane, other) {
  const { nets } = netsAt(read, sheet, lane);
  const renamed = (pin) => putWithin(pin, pin.text.indexOf(".") + 1, pin.text.length, other);
  return nets.flatMap(({ items, found }) => found.map((place) => renamed(items[place])));
}

/** Takes a lane of a sheet out of the netlist: its pins, nets that have fewer than two pins without it, nets that it drives, and edges at its marks.
 * @param {Read} read
 * @param {string} sheet
 * @param {string} lane
 * @param {string[]} marks
 * @returns {Change[]} */
export function laneRemoved(read, sheet, lane, marks) {
  const { list, nets } = netsAt(read, sheet, lane);
  const isGone = ({ items, found }) => found.includes(0) || items.length - found.length < 2;
  const gone = nets.filter(isGone).map(({ number }) => number);
  const pins = nets.filter((net) => !isGone(net)).flatMap((net) => withoutItems(read, net.pins, net.found));
  return [...(list ? withoutItems(read, list, gone) : []), ...pins, ...marksRemoved(read, sheet, marks)];
}
