// The program as a module: each kept output of the examples is what it prints.

import assert from "node:assert/strict";
import test from "node:test";
import { EXAMPLES, keptOf, program } from "./program.mjs";

const JOBS = { ".out": [], ".why": ["--job", "why"], ".lint": ["--job", "lint"], ".margin": ["--job", "margin"] };
const itv = await program();
const skip = itv ? false : "this node can't run the module";

test("each kept output is printed byte for byte", { skip }, () => {
  let runs = 0;
  for (const name of Object.keys(EXAMPLES).filter((other) => keptOf(other, ".args") === null)) {
    for (const [end, words] of Object.entries(JOBS)) {
      const kept = keptOf(name, end);
      if (kept === null) continue;
      assert.equal(itv.run([...words, name], EXAMPLES).text, kept, `${name} ${words.join(" ")}`);
      runs++;
    }
  }
  assert.ok(runs > 40, String(runs));
});

test("an output that does not fit is asked for again with more room", { skip }, () => {
  const design = { ...JSON.parse(EXAMPLES["examples/cpu-sram-fast.json"]), cycles: 128 };
  const { status, text, bytes } = itv.run(["s.json"], { ...EXAMPLES, "s.json": JSON.stringify(design) });
  assert.equal(status, 1);
  assert.ok(bytes.length > 1 << 20 && text.endsWith("end fail\n"), String(bytes.length));
});

test("texts and bytes are taken alike, and a file that is missing is named", { skip }, () => {
  const name = "examples/one-rule.json";
  const bytes = new TextEncoder().encode(EXAMPLES[name]);
  assert.equal(itv.run([name], { [name]: bytes }).text, itv.run([name], EXAMPLES).text);
  assert.match(itv.run(["none.json"], {}).text, /^cannot read file 0/);
});
