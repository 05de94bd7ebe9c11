// Traces and the events in them, compared with what tools/trace prints of the same captures.

import assert from "node:assert/strict";
import fs from "node:fs";
import path from "node:path";
import test from "node:test";
import { Design } from "../core/design.js";
import { Tracks, runsIn } from "../core/measured.js";
import { Matrix } from "../core/output_parser.js";
import { TraceFault, traceOf } from "../core/traces.js";
import { TOP, program, textOf } from "./program.mjs";

const itv = await program();

/** The design of a file, its files as the program takes them, and what job matrix prints of it. */
async function drawn(name) {
  const folder = path.posix.dirname(name);
  const tree = JSON.parse(textOf(name));
  const design = new Design(tree, (sheet) => JSON.parse(textOf(`${folder}/${sheet}`)));
  const files = Object.fromEntries((tree.parts || []).map(({ sheet }) => [sheet, textOf(`${folder}/${sheet}`)]));
  const own = path.posix.basename(name);
  const matrix = itv ? new Matrix((await itv.run(["--job", "matrix", own], { ...files, [own]: textOf(name) })).text) : null;
  return { design, nets: tree.nets || [], matrix };
}

/** The lines of times of the runs. */
function linesOf(runs) {
  return runs.map((times) => `times ${times.map((time) => time ?? "*").join(" ")}\n`).join("");
}

for (const [name, design] of [["sram-read", "examples/sram-read.json"], ["sram-write", "examples/sram-write.json"], ["spi", "examples/spi.json"], ["sdram", "examples/designs/sdram.json"]]) {
  test(`the times of ${name}.vcd are those of tools/trace`, async () => {
    const { design: drawing, nets, matrix } = await drawn(design);
    const trace = traceOf(textOf(`examples/measured/${name}.vcd`));
    const tracks = new Tracks(drawing, nets, trace);
    assert.deepEqual(tracks.all.filter(({ signals }) => !signals.length), []);
    assert.equal(linesOf(runsIn(tracks, trace, { matrix }).runs), textOf(`examples/measured/${name}.times`));
  });
}

const SHEET = { signal: [{ name: "A", wave: "010", node: ".af" }, { name: "B", wave: "10", node: ".b" }] };

/** The runs of a small sheet in a text. */
function runsOf(text, { unit = null, levels = null, tree = SHEET, ...options } = {}) {
  const trace = traceOf(text, unit, levels);
  return runsIn(new Tracks(new Design(tree, () => null), [], trace), trace, options).runs;
}

test("voltages cross their level between samples", () => {
  const text = "; a comment\nTime,A,B\nsecond,Volt,Volt\n-1.000e-09,0.1,0.0\n0.000e-09,0.1,3.3\n1.000e-09,2.1,3.3\n2.000e-09,3.3,1.3\n3.000e-09,1.5,0.3\n4.000e-09,2.9,0.3\n5.000e-09,0.1,0.3\n";
  assert.deepEqual(runsOf(text, { levels: { low: 1.6, high: 1.6 } }), [[750, 2944, 1850], [3071, 4464, null]]);
  assert.deepEqual(runsOf(text, { levels: { low: 1.1, high: 2.2 } }), [[1083, 4643, 2200]]);
  assert.deepEqual(runsOf(text, { levels: { low: 1.6, high: 1.6 }, shortest: 200 }), [[750, 4464, 1850]]);
});

test("each unit gives the same times", () => {
  for (const [head, unit, factor] of [["ns", null, 1000], ["Time [us]", null, 1e6], ["time (\u00b5s)", null, 1e6], ["picoseconds", null, 1], ["t_ms", null, 1e9], ["Time", "ns", 1000]]) {
    assert.deepEqual(runsOf(`${head},a,b\r\n0,0,1\r\n1,1,1\r\n2,1,0\r\n3,0,0\r\n`, { unit }), [[factor, 3 * factor, 2 * factor]], head);
  }
  for (const [scale, factor] of [["1ps", 1], ["10 ns", 10_000], ["1 us", 1e6]]) {
    assert.deepEqual(runsOf(`$timescale ${scale} $end $var wire 1 ! a $end $var wire 1 " b $end $enddefinitions $end\n#0 0! 1"\n#1 1!\n#2 0"\n#3 0!\n`), [[factor, 3 * factor, 2 * factor]], scale);
  }
  assert.deepEqual(runsOf('$timescale 1fs $end $var wire 1 ! a $end $var wire 1 " b $end $enddefinitions $end #0 0! 1" #1499 1! #2500 0" #3000 0!\n'), [[1, 3, 3]]);
});

test("a bus may be several signals, and a name has signs of its own", () => {
  const tree = { signal: [{ name: "CE#", wave: "10", node: ".s" }, ["D", { wave: "x=", node: ".v" }]] };
  for (const names of [["ce_n", "d[1]", "d[0]"], ["nCE", "D0", "D1"], ["/CE", "d_0", "d_1"]]) {
    const text = `ns,${names.join(",")}\n0,1,0,0\n1,0,0,0\n2,0,1,0\n3,0,1,1\n`;
    assert.deepEqual(runsOf(text, { tree }), [[1000, 3000]], names.join(" "));
  }
});

test("what is not understood has its line", () => {
  const head = '$timescale 1ps $end\n$var wire 1 ! a $end\n$var wire 1 " b $end\n$enddefinitions $end\n';
  for (const [text, said] of [
    ["", "it is empty"],
    [head.replace("$timescale 1ps $end\n", ""), "there is no $timescale, and no unit of its times is given"],
    [head.replace("1ps", "2 ps"), "line 1: '2ps' is not a time scale"],
    [head.slice(0, 60), "the file ends before $enddefinitions"],
    [`${head}#5\n1!\n#4\n`, "line 7: #4 is an earlier time than the one before it"],
    [`${head}#x\n`, "line 5: '#x' is not a time"],
    [`${head}#99999999999999999999\n`, "line 5: #99999999999999999999 is more than 4,503 s"],
    [`${head}#5\n?!\n`, "line 6: '?!' is not a time and not a value"],
    [`${head}#5\nb101 !\n`, "line 6: 'b101' is not a value of a"],
    ["hello\n", "this is neither a value change dump, which begins with '$', nor a table of comma-separated values"],
    ["ns,a\n1,0\n2\n", "line 3: there are 1 cells, and 2 columns"],
    ["ns,a\n1,0\n0,1\n", "line 3: 0 is an earlier time than the one before it"],
    ["ns,a\nlate,0\n", "line 2: 'late' is not a time"],
    ["Time,a\n1,0\n", "the column 'Time' has no unit, as in 'time [ns]'"],
  ]) {
    assert.throws(() => traceOf(text), (error) => error instanceof TraceFault && error.message === said, said);
  }
});

test("a cut dump gives what it has, and nothing but a TraceFault is thrown", () => {
  const text = fs.readFileSync(path.join(TOP, "examples/measured/spi.vcd"), "utf8").slice(0, 900);
  for (let end = 0; end < text.length; end += 7) {
    try {
      const trace = traceOf(text.slice(0, end));
      assert.equal(trace.notes.length, text[end - 1] === "\n" ? 0 : 1);
    } catch (error) {
      assert.ok(error instanceof TraceFault, error.stack);
    }
  }
});
