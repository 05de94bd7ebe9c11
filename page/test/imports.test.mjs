// The rule of imports: core imports core alone, draw imports core, view imports both, and app all. So core and draw have no document and run in node.

import assert from "node:assert/strict";
import fs from "node:fs";
import path from "node:path";
import test from "node:test";
import { TOP } from "./program.mjs";

const ALLOWED = { core: ["core"], draw: ["core", "draw"], view: ["core", "draw", "view"], app: ["core", "draw", "view", "app"] };
const OF_A_DOCUMENT = /(?<![.\w])(?:document|window|localStorage|navigator|location)\s*\./;

function modulesOf(folder) {
  return fs.readdirSync(path.join(TOP, "page", folder)).map((name) => ({ name: `${folder}/${name}`, source: fs.readFileSync(path.join(TOP, "page", folder, name), "utf8") }));
}

test("each module imports from the folders that its own may see", () => {
  for (const [folder, allowed] of Object.entries(ALLOWED)) {
    for (const { name, source } of modulesOf(folder)) {
      const imported = [...source.matchAll(/^import .* from "(.*)";$/gm)].map((match) => path.posix.join(folder, match[1]).split("/")[0]);
      assert.deepEqual(imported.filter((other) => !allowed.includes(other)), [], name);
    }
  }
});

test("core and draw have no document", () => {
  for (const { name, source } of [...modulesOf("core"), ...modulesOf("draw")]) {
    const code = source.replace(/^\s*(?:\/\/|\/\*\*|\*).*$/gm, "");
    assert.equal(OF_A_DOCUMENT.exec(code), null, name);
  }
});

test("no module imports itself by way of others", () => {
  const sources = new Map(Object.keys(ALLOWED).flatMap(modulesOf).map(({ name, source }) => [name, source]));
  const importedBy = (name) => [...sources.get(name).matchAll(/^import .* from "(.*)";$/gm)].map((match) => path.posix.join(path.posix.dirname(name), match[1]));
  const look = (name, way) => {
    assert.ok(!way.includes(name), [...way, name].join(" > "));
    for (const other of importedBy(name)) look(other, [...way, name]);
  };
  for (const name of sources.keys()) look(name, []);
});
