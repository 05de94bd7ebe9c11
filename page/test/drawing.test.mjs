// Edits of drawings: each edit of every sheet of examples/ changes what it is to change, and keeps all other characters of the text.

import assert from "node:assert/strict";
import test from "node:test";
import * as edits from "../core/edits.js";
import { Report } from "../core/output_parser.js";
import { lanesOf, scanned } from "../core/places.js";
import { laneRemoved, laneRenamed, markRenamed, marksRemoved } from "../core/wiring.js";
import { EXAMPLES, changed, program, readOf, textOf } from "./program.mjs";

const SHEETS = Object.entries(EXAMPLES).filter(([, text]) => Array.isArray(JSON.parse(text).signal));

const lanesIn = (read) => lanesOf(read.value.get("signal"));
const marksIn = (read) => lanesIn(read).flatMap((_, number) => edits.marksOfLane(read, number));
const edgesIn = (read) => read.tree.edge || [];
const isAt = (edge, mark) => [edge.split(" ")[0][0], edge.split(" ")[0].at(-1)].includes(mark);

/** What is read of the text after an edit. */
function after(read, changes) {
  return readOf(changed(read.text, changes));
}

/** A text without its strings, which is what a rename has to leave. */
function frame(text) {
  return text.replace(/"(?:[^"\\]|\\.)*"/g, '""');
}

test("a mark that is renamed is renamed at its place and in each edge, and back again nothing is changed", () => {
  let count = 0;
  for (const [name, text] of SHEETS) {
    const read = readOf(text);
    for (const mark of marksIn(read)) {
      const other = edits.freeMark(read);
      const renamed = after(read, edits.renameMark(read, mark, other));
      assert.deepEqual(edits.placeOfMark(renamed, other), edits.placeOfMark(read, mark), `${name} ${mark}`);
      assert.equal(edits.placeOfMark(renamed, mark), null);
      assert.ok(!edgesIn(renamed).some((edge) => isAt(edge, mark)));
      assert.equal(frame(renamed.text), frame(text));
      assert.equal(after(renamed, edits.renameMark(renamed, other, mark)).text, text);
      count++;
    }
    const [first, second] = marksIn(read);
    for (const taken of [second, ".", " ", "", "ab"]) assert.equal(edits.renameMark(read, first, taken), null, taken);
  }
  assert.ok(count > 60, String(count));
});

test("a mark that is taken away takes its edges with it and nothing else", () => {
  for (const [name, text] of SHEETS) {
    const read = readOf(text);
    for (const mark of marksIn(read)) {
      const without = after(read, edits.removeMark(read, mark));
      assert.deepEqual(edgesIn(without), edgesIn(read).filter((edge) => !isAt(edge, mark)), `${name} ${mark}`);
      assert.deepEqual(marksIn(without), marksIn(read).filter((other) => other !== mark));
    }
  }
});

test("a mark is moved along its lane, to another lane and back, and never onto another mark", () => {
  for (const [, text] of SHEETS) {
    const read = readOf(text);
    const lanes = lanesIn(read);
    for (const mark of marksIn(read)) {
      const from = edits.placeOfMark(read, mark);
      for (const lane of [from.lane, (from.lane + 1) % lanes.length]) {
        const moved = after(read, edits.moveMark(read, mark, lane, from.place + 40));
        assert.deepEqual(edits.placeOfMark(moved, mark), { lane, place: from.place + 40 });
        assert.deepEqual(edgesIn(moved), edgesIn(read));
        assert.deepEqual(edits.placeOfMark(after(moved, edits.moveMark(moved, mark, from.lane, from.place)), mark), from);
      }
      assert.equal(edits.moveMark(read, mark, from.lane, from.place), null);
      assert.equal(edits.moveMark(read, mark, from.lane, -1), null);
    }
  }
});

test("a mark is added where no mark is, with a character that is free", () => {
  for (const [, text] of SHEETS) {
    const read = readOf(text);
    lanesIn(read).forEach((lane, number) => {
      for (let place = 0; place < 6; place++) {
        const changes = edits.addMark(read, number, place);
        const isTaken = marksIn(read).some((mark) => JSON.stringify(edits.placeOfMark(read, mark)) === JSON.stringify({ lane: number, place }));
        assert.equal(changes === null, isTaken);
        if (changes) assert.deepEqual(edits.placeOfMark(after(read, changes), edits.freeMark(read)), { lane: number, place });
      }
    });
  }
});

test("a level changes its brick, and what is drawn after it stays", () => {
  const draw = (wave, place, char) => {
    const read = readOf(`{"signal": [{"name": "A", "wave": "${wave}"}]}`);
    return after(read, edits.setLevel(read, 0, place, char)).tree.signal[0].wave;
  };
  for (const [wave, place, char, wanted] of [
    ["0..", 1, "1", "010"],
    ["0.1", 1, "1", "011"],
    ["01", 1, "0", "0."],
    ["x=..", 2, null, "x=z="],
    ["p...", 1, "0", "p0p."],
    ["", 0, "1", "1"],
    ["0", 3, "1", "0..1"],
    ["==", 1, "=", "=="],
  ])
    assert.equal(draw(wave, place, char), wanted, `${wave} ${place}`);
});

test("edges and lanes are added at the end and taken away one by one, and the others stay as they are written", () => {
  for (const [name, text] of SHEETS) {
    const read = readOf(text);
    const more = after(read, edits.addEdge(read, 'a~>b @lin [1,2] "q"'));
    assert.deepEqual(more.tree.edge, [...edgesIn(read), 'a~>b @lin [1,2] "q"'], name);
    assert.equal(after(more, edits.removeEdge(more, edgesIn(read).length)).text.trim().slice(-4), text.trim().slice(-4));
    edgesIn(read).forEach((_, number) => {
      const fewer = after(read, edits.removeEdge(read, number));
      assert.deepEqual(edgesIn(fewer), edgesIn(read).filter((__, place) => place !== number));
    });
    const added = after(read, edits.addLane(read, 'N "x"', "0."));
    assert.deepEqual(added.tree.signal, [...read.tree.signal, { name: 'N "x"', wave: "0." }]);
    lanesIn(read).forEach((_, number) => {
      const renamed = after(read, edits.renameLane(read, number, "é"));
      assert.equal(edits.laneName(renamed, number), "é");
      const changes = edits.removeLane(read, number);
      if (lanesIn(read).length === 1) assert.equal(changes, null);
      if (!changes) return;
      const without = after(read, changes);
      assert.equal(lanesIn(without).length, lanesIn(read).length - 1);
      const gone = edits.marksOfLane(read, number);
      assert.deepEqual(edgesIn(without), edgesIn(read).filter((edge) => !gone.some((mark) => isAt(edge, mark))));
    });
  }
});

test("comments and the spelling of a relaxed text stay", () => {
  const text = `{ // a sheet
  signal: [
    {name: 'A', wave: '01', node: 'a\\u0062'}, // first
    {name: 'B', wave: '01', node: '.c'},
  ],
  edge: [
    'a~>c @lin [0,1] \\u00b5', // one
    'c->\\u0062 @ask', /* two, */
    'a->c @ask', // three
  ],
}`;
  const read = { text, tree: null, value: scanned(text) };
  assert.equal(changed(text, edits.renameMark(read, "b", "'")), text.replace("a\\u0062", "a\\u0027").replace("->\\u0062", "->\\u0027"));
  assert.equal(changed(text, edits.removeEdge(read, 1)), text.replace("'c->\\u0062 @ask',", ""));
  assert.equal(changed(text, edits.removeEdge(read, 2)), text.replace("@ask', /*", "@ask' /*").replace("'a->c @ask'", ""));
  assert.equal(changed(text, edits.addEdge(read, "c->c @ask")), text.replace("'a->c @ask',", `'a->c @ask',\n    "c->c @ask",`));
});

test("an edge is written from the fields of a form", () => {
  const edge = { start: "a", end: "b", kind: "lin", shift: 0, low: 0, high: 4500, note: "tCO" };
  assert.equal(edits.edgeText(edge), "a~>b @lin [0,4500] tCO");
  assert.equal(edits.edgeText({ ...edge, kind: "req", shift: 1, high: null, note: "" }), "a->b @req+1 [0,*]");
  assert.equal(edits.edgeText({ ...edge, kind: "ask", low: null, note: "" }), "a->b @ask");
});

test("a netlist follows a mark and a lane of its sheets, in all parts of the sheet", () => {
  const bus = readOf(textOf("examples/shared-bus.json"));
  const [first] = bus.tree.parts.filter((part) => bus.tree.edges.some((edge) => edge.includes(`${part.name}.q `)));
  const mark = after(bus, markRenamed(bus, first.sheet, "q", "Q"));
  const own = bus.tree.parts.filter((part) => part.sheet === first.sheet).map((part) => part.name);
  assert.deepEqual(mark.tree.edges, bus.tree.edges.map((edge) => own.reduce((all, part) => all.replaceAll(`${part}.q `, `${part}.Q `), edge)));
  assert.deepEqual(mark.tree.nets, bus.tree.nets);
  const without = after(bus, marksRemoved(bus, first.sheet, ["q"]));
  assert.deepEqual(without.tree.edges, bus.tree.edges.filter((edge) => !own.some((part) => edge.includes(`${part}.q `))));

  const cpu = readOf(EXAMPLES["examples/cpu-sram-m12.json"]);
  const lane = changed(cpu.text, laneRenamed(cpu, "examples/cpu.json", "ADDR", "A[15:0]"));
  assert.equal(lane, cpu.text.replace("CPU.ADDR", "CPU.A[15:0]"));
  const gone = after(cpu, laneRemoved(cpu, "examples/cpu.json", "ADDR", ["a", "c"]));
  assert.deepEqual(gone.tree.nets, cpu.tree.nets.slice(1));
  assert.deepEqual(gone.tree.edges, []);
  assert.deepEqual(laneRenamed(cpu, "examples/other.json", "ADDR", "X"), []);
  const three = readOf('{"itv": 1, "parts": [{"name": "A", "sheet": "s"}, {"name": "B", "sheet": "t"}], "nets": [{"pins": ["A.x", "B.y", "B.z"]}]}');
  assert.equal(changed(three.text, laneRemoved(three, "t", "y", [])), three.text.replace(', "B.y"', ""));
});

test("a sheet all of whose marks are renamed has the same bounds and verdicts", async (context) => {
  const itv = await program();
  if (!itv) {
    context.skip("this node can't run the program");
    return;
  }
  const rowsOf = (text) => new Report(itv.run(["--budget", "20", "s.json"], { "s.json": text }).text).rows.map((row) => row.numbers);
  for (const [name, text] of SHEETS) {
    const read = readOf(text);
    const renamed = marksIn(read).reduce((now, mark) => after(now, edits.renameMark(now, mark, edits.freeMark(now))), read);
    assert.notEqual(renamed.text, text, name);
    assert.deepEqual(rowsOf(renamed.text), rowsOf(text), name);
  }
});
