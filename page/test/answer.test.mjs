// What is said of a report: which rows are one line.

import assert from "node:assert/strict";
import test from "node:test";
import { alikeOf, entriesOf } from "../core/answer.js";
import { Design } from "../core/design.js";
import { Report } from "../core/output_parser.js";

const SHEET = { signal: [{ name: "A", wave: "01", node: ".a" }, { name: "B", wave: "01", node: ".b" }], edge: ["a->b @req [1000,*] tSU", "a->b @req [*,9000] tMAX"] };

/** The lists of names and slacks of a design of so many parts of one sheet, whose slacks are given part by part, two for each. */
function listsOf(slacks, grades = []) {
  const parts = slacks.map((_, number) => ({ name: `P${number}`, sheet: "s.json", grade: grades[number] || "" }));
  const design = new Design({ itv: 2, cycles: 1, parts }, () => SHEET);
  const rows = slacks.flat().map((slack, number) => {
    const [part, side] = [Math.floor(number / 2), number % 2];
    const verdict = slack < 0 ? `fail ${side ? "high" : "low"}` : "pass";
    const ends = side ? `* ${slack}` : `${slack} *`;
    return `row ${number} req P${part}.a@0 P${part}.b@0 ${side ? "[*,9000]" : "[1000,*]"}\nmax 5000\nmin 2000\nverdict ${verdict}\nslack ${ends}\n`;
  });
  return alikeOf(entriesOf(design, new Report(rows.join("")))).map((list) => list.map(({ name, row }) => `${name} ${row.leastSlack}`));
}

test("rows of one edge in three parts or more are one line with the worst first, and failed lines come first", () => {
  assert.deepEqual(listsOf([[30, 5], [10, 6], [20, 4]]), [
    ["tMAX of P2 4", "tMAX of P0 5", "tMAX of P1 6"],
    ["tSU of P1 10", "tSU of P2 20", "tSU of P0 30"],
  ]);
  assert.deepEqual(listsOf([[1, 5], [-2, 6], [2, 4]])[0], ["tSU of P1 -2"]);
});

test("two rows stay two lines, and so do rows with another verdict or of another grade", () => {
  assert.deepEqual(listsOf([[1, 2], [3, 4]]).map((list) => list.length), [1, 1, 1, 1]);
  assert.deepEqual(listsOf([[1, 5], [-2, 6], [2, 7]]).map((list) => list.length), [1, 1, 1, 3]);
  assert.deepEqual(listsOf([[1, 5], [2, 6], [3, 7]], ["fast", "fast", "slow"]).map((list) => list.length), [1, 1, 1, 1, 1, 1]);
});

test("a row without a note is called by its events, without the cycle if it is of several", () => {
  const sheet = { ...SHEET, edge: ["a->b @ask+1", "a->b @ask"] };
  const design = new Design({ itv: 1, cycles: 3, parts: [{ name: "P", sheet: "s.json" }] }, () => sheet);
  // The rows of a cycle are together, and a row is of the cycle of its end.
  const rows = [[0, 0], [0, 1], [1, 1], [1, 2], [2, 2]].map(([start, end], number) => `row ${number} ask P.a@${start} P.b@${end}\nmax ${number < 4 ? 7 : 9}\nmin 2\n`);
  const titles = entriesOf(design, new Report(rows.join(""))).map(({ title }) => title);
  assert.deepEqual(titles, ["P.A a to P.B b in cycles 0 to 1", "P.A a to P.B b 1 cycle later in cycles 1 to 2", "P.A a in cycle 2 to P.B b in cycle 2"]);
});
