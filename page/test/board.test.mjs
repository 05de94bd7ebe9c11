// Edits of netlists: parts, nets, edges and grades. Each keeps all other characters of the text, and the program answers what comes of it.

import assert from "node:assert/strict";
import test from "node:test";
import * as board from "../core/board.js";
import { wireText } from "../core/edits.js";
import { EXAMPLES, changed, program, readOf, textOf } from "./program.mjs";

const M12 = "examples/cpu-sram-m12.json";

/** The text of a netlist after an edit. */
function after(text, edit) {
  return changed(text, edit(readOf(text)));
}

test("a board of two sheets gets a net and edges, and the program answers as by hand", async (context) => {
  const itv = await program();
  if (!itv) return context.skip("this node can't run the module");
  const lanes = [{ name: "CLK", wave: "p", node: "c" }, { name: "D", wave: "x=", node: ".d" }];
  const files = { "a.json": JSON.stringify({ signal: lanes, edge: ["c~>d @lin [1000,6000] tCO"] }), "b.json": JSON.stringify({ signal: lanes, edge: ["d->c @req+1 [2000,*] tSU"] }) };
  let text = board.boardText([["A", "a.json"]]);
  text = after(text, (read) => board.addPart(read, "B", "b.json"));
  text = after(text, (read) => board.addNet(read, { name: "DATA", pins: ["A.D", "B.D"], low: 0, high: 500 }));
  text = after(text, (read) => board.addNet(read, { name: "", pins: ["A.CLK", "B.CLK"], low: 0, high: 0 }));
  text = after(text, (read) => board.addWire(read, wireText({ start: "A.c", end: "A.c", kind: "lin", shift: 1, low: 8000, high: 8000, note: "125 MHz" })));
  const tree = JSON.parse(text);
  assert.deepEqual(tree.parts, [{ name: "A", sheet: "a.json" }, { name: "B", sheet: "b.json" }]);
  assert.deepEqual(tree.nets, [{ name: "DATA", pins: ["A.D", "B.D"], delay: [0, 500] }, { pins: ["A.CLK", "B.CLK"], delay: [0, 0] }]);
  assert.deepEqual(tree.edges, ["A.c A.c @lin+1 [8000,8000] 125 MHz"]);
  // 8,000 less 6,000 and 500 are 1,500, and 2,000 are demanded.
  assert.match(itv.run(["--", "board.json"], { "board.json": text, ...files }).text, /^verdict fail low\n(?:times .*\n)?slack -500 \*$/m);
});

test("a lane that drives a net already gets no second net", () => {
  const text = textOf(M12);
  const more = after(text, (read) => board.addNet(read, { name: "x", pins: ["CPU.ADDR", "RAM.DQ"], low: 0, high: 0 }));
  assert.equal(more, text.replace('["CPU.ADDR", "RAM.ADDR"]', '["CPU.ADDR", "RAM.ADDR", "RAM.DQ"]'));
  assert.equal(board.addNet(readOf(text), { name: "x", pins: ["CPU.ADDR", "RAM.ADDR"], low: 0, high: 0 }), null);
  assert.equal(board.netDrivenBy(readOf(text), "CPU.ADDR"), "ADDR");
  assert.equal(board.netDrivenBy(readOf(text), "RAM.ADDR"), null);
});

test("an open end of a net is null in its text", () => {
  const text = after(board.boardText([["A", "a.json"]]), (read) => board.addNet(read, { name: "", pins: ["A.x", "B.y"], low: null, high: 7 }));
  assert.deepEqual(JSON.parse(text).nets, [{ pins: ["A.x", "B.y"], delay: [null, 7] }]);
});

test("lists that a netlist does not have are begun", () => {
  const text = after('{ "itv": 1, "cycles": 1, "parts": [{ "name": "A", "sheet": "a.json" }] }', (read) => board.addWire(read, "A.a A.b @ask"));
  assert.deepEqual(JSON.parse(text).edges, ["A.a A.b @ask"]);
});

test("names of parts are those that the program takes, each once", () => {
  const read = readOf(textOf(M12));
  for (const name of ["", "CPU", "a b", "x.y", "12345678901234567", "ä"]) {
    assert.ok(!board.isFreeName(name, ["CPU", "RAM"]), name);
    assert.equal(board.addPart(read, name, "s.json"), null, name);
  }
  assert.ok(board.isFreeName("ROM_2", ["CPU", "RAM"]));
  assert.equal(board.nameForSheet("my/cpu-sram.json"), "CPUSRAM");
  assert.equal(board.nameForSheet("..json"), "PART");
});

test("the choice of grades has those of each part's sheet, and another one changes just its word", () => {
  const text = EXAMPLES[M12];
  const choices = board.gradesIn(readOf(text), (name) => (EXAMPLES[name] ? readOf(EXAMPLES[name]) : null));
  assert.deepEqual(choices, [{ number: 1, name: "RAM", grade: "m12", names: ["m10", "m12", "m15"] }]);
  assert.equal(after(text, (read) => board.setGrade(read, 1, "m15")), text.replace('"m12"', '"m15"'));
  // A part without a grade gets one, in a netlist of the version that has grades.
  const plain = after('{"itv": 1, "cycles": 1, "parts": [{"name": "A", "sheet": "a.json"}]}', (read) => board.setGrade(read, 0, "m10"));
  assert.equal(plain, '{"itv": 2, "cycles": 1, "parts": [{"name": "A", "sheet": "a.json", "grade": "m10"}]}');
  assert.equal(board.setGrade(readOf(text), 7, "m10"), null);
});
