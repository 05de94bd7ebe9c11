// The labels of arcs in the drawings of all sheets.

import assert from "node:assert/strict";
import fs from "node:fs";
import path from "node:path";
import test from "node:test";
import { Sheet } from "../core/design.js";
import { drawingOf } from "../draw/drawing.js";
import { TOP } from "./program.mjs";

/** The sheets below a folder, as names and trees. */
function sheetsIn(folder) {
  const files = fs.readdirSync(path.join(TOP, folder), { recursive: true }).filter((name) => String(name).endsWith(".json"));
  const trees = files.map((name) => [name, JSON.parse(fs.readFileSync(path.join(TOP, folder, String(name)), "utf8"))]);
  return trees.filter(([, tree]) => Array.isArray(tree.signal));
}

/** The boxes of the labels of a drawing. */
function boxesIn(svg) {
  return [...svg.matchAll(/<rect class="label" x="([^"]+)" y="([^"]+)" width="([^"]+)" height="([^"]+)"/g)].map((match) => {
    const [left, top, width, height] = match.slice(1).map(Number);
    return { left, top, right: left + width, bottom: top + height };
  });
}

test("no label covers another one, and none leaves its drawing", () => {
  let count = 0;
  for (const [name, tree] of sheetsIn("examples")) {
    for (const width of [300, 640, 900]) {
      const svg = drawingOf(new Sheet(tree), name, () => "", width);
      const [whole] = /(?<=<svg class="drawing" width=")[^"]+/.exec(svg).map(Number);
      const boxes = boxesIn(svg);
      for (const [number, a] of boxes.entries()) {
        const over = boxes.slice(number + 1).filter((b) => a.left < b.right - 1 && b.left < a.right - 1 && a.top < b.bottom - 1 && b.top < a.bottom - 1);
        assert.deepEqual(over, [], `${name} at ${width}`);
        assert.ok(a.left >= 0 && a.right <= whole + 1, `${name} at ${width}: ${JSON.stringify(a)}, ${whole}`);
      }
      count += boxes.length;
    }
  }
  assert.ok(count > 500, String(count));
});
