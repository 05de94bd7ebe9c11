// The modules without a document: what they read of texts and of what the program printed.

import assert from "node:assert/strict";
import test from "node:test";
import { WARNINGS } from "../core/warning_words.js";
import { Design, Lane } from "../core/design.js";
import { Files } from "../core/files.js";
import { asLink, fromLink } from "../core/packing.js";
import { Report, Why } from "../core/output_parser.js";
import { lanesOf, scanned } from "../core/places.js";
import { escaped, inUnit, unitFor } from "../core/texts.js";
import { Clockwork, runsOf } from "../core/waves.js";
import { EXAMPLES, REPORTED, keptOf, textOf } from "./program.mjs";

/** The design of an example, as the page reads it. */
function designOf(name) {
  return new Design(JSON.parse(EXAMPLES[name]), (sheet) => JSON.parse(EXAMPLES[sheet]));
}

test("the page numbers the events and rows of each example as the program's report does", () => {
  assert.ok(REPORTED.length > 20, String(REPORTED.length));
  for (const name of REPORTED) {
    const report = new Report(keptOf(name, ".out"));
    const design = designOf(name);
    assert.deepEqual([...design.places.keys()], report.events, name);
    if (!report.rows.length) continue;
    assert.deepEqual(design.rows().map(({ start, end }) => [start, end]), report.rows.map(({ start, end }) => [start, end]), name);
  }
});

test("the edge that the page takes for a row is the origin that job why prints", () => {
  let seen = 0;
  for (const name of REPORTED.filter((other) => keptOf(other, ".why") !== null)) {
    const why = new Why(keptOf(name, ".why"));
    const rows = designOf(name).rows();
    for (const [number, origin] of why.origins) {
      assert.equal(`${origin.kind} ${origin.number}`, `${rows[number].part === null ? "wire" : "edge"} ${rows[number].edge.number}`, name);
      seen++;
    }
  }
  assert.ok(seen > 20, String(seen));
});

test("each value of a text is where it is scanned, also through escapes and comments", () => {
  const text = '// a sheet\n{ signal: [{ name: "A\\u0042", wave: \'01\' }, ["group", { "name": "C" }]], edge: ["a->b @lin [1,2]"], }';
  const value = scanned(text);
  const [first, second] = lanesOf(value.get("signal"));
  assert.equal(first.get("name").text, "AB");
  assert.equal(text.slice(first.get("name").start, first.get("name").end), '"A\\u0042"');
  assert.equal(second.get("name").text, "C");
  const edge = value.at("edge", 0);
  const place = edge.within(edge.text.indexOf("["), edge.text.length);
  assert.equal(text.slice(place.start, place.end), "[1,2]");
  const { start, end } = first.get("name").within(1, 2);
  assert.equal(text.slice(start, end), "\\u0042");
});

// By hand: from 1,000 ps on nanoseconds, and from 10,000 of any other unit on the next one. Each number is exact.
test("times have one unit", () => {
  for (const [greatest, number, wanted] of [
    [999, 999, "999 ps"],
    [2500, 2500, "2.5 ns"],
    [9999999, 80, "0.08 ns"],
    [10000000, 10000000, "10.0 us"],
    [560050000000, 560050000000, "560.05 ms"],
    [12000000000000, -12000000000001, "-12.000000000001 s"],
  ])
    assert.equal(inUnit(number, unitFor(greatest)), wanted);
});

test("a text is in HTML as it is, and what XML has no place for is a space", () => {
  assert.equal(escaped('<a href="x">&\'\u0001\ud800b'), "&lt;a href=&quot;x&quot;&gt;&amp;&#x27;  b");
  assert.equal(escaped("\u{1f600}"), "\u{1f600}");
});

// The runs of a wave: kind, start, end, whether at a mark, and text. A brick without a mark is in proportion between its neighbours.
test("waves are read as they are drawn", () => {
  for (const [wave, times, wanted] of [
    ["0.1.", { 2: 100 }, [["low", null, 100, false, ""], ["high", 100, null, true, ""]]],
    ["x=.z", { 1: 0, 3: 60 }, [["unknown", null, 0, false, ""], ["bus", 0, 60, true, "D"], ["floating", 60, null, true, ""]]],
    ["==", { 0: 0, 1: 10 }, [["none", null, 0, false, ""], ["bus", 0, 10, true, "D"], ["bus", 10, null, true, "E"]]],
    ["0.1.0", { 1: 0, 4: 30 }, [["low", null, 10, false, ""], ["high", 10, 30, false, ""], ["low", 30, null, true, ""]]],
    ["p", { 0: 0, 2: 50 }, [["low", null, 0, false, ""], ["rise", 0, 25, true, ""], ["low", 25, null, false, ""]]],
    ["n.0", { 0: 0, 1: 10 }, [["high", null, 0, false, ""], ["fall", 0, 10, true, ""], ["fall", 10, 20, true, ""], ["low", 20, null, false, ""]]],
    ["u.<d", { 3: 100 }, [["up", null, -900, false, ""], ["unknown", -900, 100, false, ""], ["down", 100, null, true, ""]]],
    ["z|34", {}, [["floating", null, 2000, false, ""], ["bus", 2000, 3000, false, "D"], ["bus", 3000, null, false, "E"]]],
    // A clock of which one edge is marked falls in the middle of its period, wherever the drawing has the fall.
    [
      "0100010",
      { 1: 0, 5: 80 },
      [["low", null, 0, false, ""], ["high", 0, 40, true, ""], ["low", 40, 80, false, ""], ["high", 80, 120, true, ""], ["low", 120, null, false, ""]],
    ],
  ]) {
    const anchors = Object.entries(times).map(([place, time]) => [Number(place), time]);
    const bricks = Math.max(wave.length, ...anchors.map(([place]) => place + 1));
    const found = runsOf(new Lane({ wave, data: "D E" }, null, ""), bricks, 1, new Clockwork(anchors));
    assert.deepEqual(found.runs.map(({ kind, start, end, marked, text }) => [kind, start, end, marked, text]), wanted, wave);
    assert.equal(found.gaps.length, wave.split("|").length - 1);
  }
});

test("a design goes through a link unchanged, and a broken link gives nothing", async () => {
  const packed = { design: "a.json", files: { "a.json": '{"signal": []}\n// é €' } };
  assert.deepEqual(await fromLink(await asLink(packed)), packed);
  assert.equal(await fromLink("no%link"), null);
});

test("a sheet takes the name by which the netlist calls it, and keeps its line ends", () => {
  const files = new Files({ parse: JSON.parse });
  files.replace({ "bus.json": EXAMPLES["examples/cpu-sram.json"] });
  assert.deepEqual(files.missing(), ["examples/cpu.json", "examples/sram.json"]);
  assert.equal(files.put("C:\\work\\sram.json", EXAMPLES["examples/sram.json"].replace(/\n/g, "\r\n")), "examples/sram.json");
  assert.deepEqual(files.missing(), ["examples/cpu.json"]);
  const file = files.find("examples/sram.json");
  assert.ok(!file.text.includes("\r") && file.saved.includes("\r\n"));
});

test("each word of a warning that the documents name has a sentence", () => {
  const table = textOf("docs/jobs.md").split("\n## lint\n")[1].split("\n## ")[0];
  const words = new Set([...table.matchAll(/^\| `warning (\w+)/gm)].map(([, word]) => word));
  assert.ok(words.size > 15, String(words.size));
  assert.deepEqual([...words].filter((word) => !Object.hasOwn(WARNINGS, word)), []);
});
