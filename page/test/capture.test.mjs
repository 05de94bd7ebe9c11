// Captures with faults that were put in on purpose, as docs/measuring.md lists them, and rules of several causes.

import assert from "node:assert/strict";
import path from "node:path";
import test from "node:test";
import { entriesOf } from "../core/answer.js";
import { AS_IT_IS, Capture, Measured, isCapture } from "../core/capture.js";
import { Design } from "../core/design.js";
import { Matrix, Report } from "../core/output_parser.js";
import { constraintsOf, rulesOf } from "../core/rules.js";
import { lookAt, numbered, tallyOf, verdictOf } from "../core/separations.js";
import { program, textOf } from "./program.mjs";

const itv = await program();

/** What a capture shows of a design of the repository. */
function measuredOf(name, capture, settings = {}) {
  const tree = JSON.parse(textOf(name));
  const folder = path.posix.dirname(name);
  const own = path.posix.basename(name);
  const files = { [own]: textOf(name), ...Object.fromEntries((tree.parts || []).map(({ sheet }) => [sheet, textOf(`${folder}/${sheet}`)])) };
  const design = new Design(tree, (sheet) => JSON.parse(files[sheet]));
  const [report, matrix] = [new Report(itv.run([own], files).text), new Matrix(itv.run(["--job", "matrix", own], files).text)];
  const read = new Capture(capture, textOf(`examples/measured/${capture}`), { ...AS_IT_IS, ...settings });
  return new Measured(read, { design, entries: entriesOf(design, report) }, tree.nets || [], matrix);
}

/** The lines that are broken: a title, the first run, in how many runs, and by how much at the most. */
function brokenIn(measured) {
  return measured.lines.filter(({ verdict }) => verdict === "fail").map(({ title, tally }) => [title, tally.first, tally.broken, -tally.slack.value]);
}

// The faults are those of the captures' sources.
const FAULTS = [
  ["examples/sram-read.json", "sram-read.vcd", 100, [["tAA, tACE, tOE", 37, 1, 612], ["the reader takes the data here", 61, 1, 3800], ["set-up of the reader", 61, 1, 384]]],
  ["examples/sram-write.json", "sram-write.vcd", null, [["tPWE", 43, 1, 600], ["tSD", 43, 1, 120], ["tWC", 43, 1, 404]]],
  ["examples/spi.json", "spi.vcd", null, [["tV", 71, 1, 2250]]],
  ["examples/designs/sdram.json", "sdram.vcd", null, [["tAC", 82, 2, 500], ["tSU", 83, 1, 140]]],
];

for (const [design, capture, count, wanted] of FAULTS) {
  test(`the faults of ${capture} are found in their runs`, { skip: !itv }, () => {
    const measured = measuredOf(design, capture);
    if (count !== null) assert.equal(measured.runs.length, count);
    const broken = brokenIn(measured);
    for (const [title, ...numbers] of wanted) {
      const found = broken.find(([other]) => other.includes(title));
      assert.deepEqual(found && found.slice(1), numbers, `${title}: ${JSON.stringify(broken)}`);
    }
    assert.ok(broken.every(([, run]) => wanted.some(([, first]) => first === run)), JSON.stringify(broken));
    const first = Math.min(...wanted.map(([, run]) => run));
    assert.equal(measured.broken.tally.first, first);
    const { look, times } = measured.caseOf(measured.broken, first);
    assert.ok(look.slack < 0 && times.includes(0));
  });
}

test("a tolerance forgives what is less, and what is near is said", { skip: !itv }, () => {
  assert.deepEqual(brokenIn(measuredOf("examples/sram-read.json", "sram-read.vcd", { within: 612 })).map(([title]) => title), ["the reader takes the data here"]);
  const near = measuredOf("examples/sram-read.json", "sram-read.vcd", { within: 5000 });
  assert.equal(near.broken, null);
  assert.ok(near.judged.some(({ verdict }) => verdict === "near"));
});

// By the definitions of docs/drawing.md: causes at 0 and 10 with [2,5] and [1,8]; a latest rule allows 11 to 18, an earliest rule 2 to 5 and up to 18.
const CAUSES = [{ event: "a", low: 2, high: 5 }, { event: "b", low: 1, high: 8 }];
const NUMBERS = new Map([["a", 0], ["b", 1], ["e", 2]]);
const lookFor = (rule, time) => lookAt(numbered(rule, NUMBERS), [0, 10, time]);

test("a latest rule is kept by the cause that decides", () => {
  const rule = { kind: "late", end: "e", causes: CAUSES };
  for (const [time, slack, cause] of [[11, 0, 1], [10, -1, 1], [18, 0, 1], [21, -3, 1], [14, 3, 1]]) {
    const look = lookFor(rule, time);
    assert.deepEqual([look.slack, look.cause], [slack, cause], `${time}`);
  }
});

test("an earliest rule is kept by the cause that decides", () => {
  const rule = { kind: "early", end: "e", causes: CAUSES };
  for (const [time, slack] of [[2, 0], [1, -1], [5, 0], [7, -2], [3, 1]]) assert.equal(lookFor(rule, time).slack, slack, `${time}`);
});

test("what was not seen is not judged", () => {
  const rule = { kind: "late", end: "e", causes: CAUSES };
  const tally = tallyOf([rule], [[0, null, 99], [0, 10, 18], [0, 10, 20], [0, 10, 25]], NUMBERS, 1);
  assert.deepEqual([tally.seen, tally.near, tally.broken, tally.first, tally.slack], [3, 1, 2, 3, { value: -7, run: 4 }]);
  assert.equal(verdictOf(tallyOf([rule], [[0, null, 99]], NUMBERS)), "unseen");
});

test("rules are joined by their mark and tag, and are in the cycles of all their causes", () => {
  const lanes = [{ name: "A", wave: "01", node: ".a" }, { name: "B", wave: "01", node: ".b" }, { name: "C", wave: "01", node: ".c" }];
  const edge = ["a~>c @late [1,2] one", "b~>c @late+1 [3,*] two", "a~>c @late:x $tX", "a->b @lin [*,4]", "a->c @req [0,9]", "b->c @ask"];
  const sheet = { signal: lanes, edge, itv_grades: { g: { tX: [5, null] } } };
  const net = { itv: 2, cycles: 3, parts: [{ name: "P", sheet: "s", grade: "g" }, { name: "Q", sheet: "s", grade: "g" }], nets: [{ name: "N", pins: ["P.C", "Q.A"], delay: [1, 7] }], edges: ["P.a Q.a @lin+1 [8,8] T"] };
  const rules = rulesOf(new Design(net, () => sheet));
  assert.deepEqual(rules.map(({ title, kind, mark, causes }) => [title, kind, mark, causes.map(({ mark: from, shift, low, high }) => `${from} ${shift} ${low} ${high}`)]), [
    ["one, two of P", "late", "P.c", ["P.a 0 1 2", "P.b 1 3 null"]],
    ["tX of P", "late", "P.c", ["P.a 0 5 null"]],
    ["a->b of P", "lin", "P.b", ["P.a 0 null 4"]],
    ["one, two of Q", "late", "Q.c", ["Q.a 0 1 2", "Q.b 1 3 null"]],
    ["tX of Q", "late", "Q.c", ["Q.a 0 5 null"]],
    ["a->b of Q", "lin", "Q.b", ["Q.a 0 null 4"]],
    ["N, P.c to Q.a", "lin", "Q.a", ["P.c 0 1 7"]],
    ["T", "lin", "Q.a", ["P.a 1 8 8"]],
  ]);
  assert.deepEqual(constraintsOf(rules[0], 3).map(({ end, causes }) => [end, ...causes.map(({ event }) => event)]), [["P.c@1", "P.a@1", "P.b@0"], ["P.c@2", "P.a@2", "P.b@1"]]);
});

test("a capture is known by its name or its beginning, and says what is wrong with it", () => {
  assert.deepEqual([["a.vcd", ""], ["a.CSV", ""], ["dump", "$date today $end"], ["s.json", "{}"], ["s", "{ $date: 1 }"]].map(([name, text]) => isCapture(name, text)), [true, true, true, false, false]);
  const cut = new Capture("a.vcd", "$timescale 1ns $end\n");
  assert.deepEqual([cut.trace, cut.fault], [null, "the file ends before $enddefinitions"]);
});
