#!/usr/bin/env node
// `node command.mjs WORDS` prints what the program prints of these words, with its exit status. The module is itv.wasm beside this file.
//
// The program of the module opens no file. So the files that the words name are read first, and the sheets of a netlist by the names in it.

import { readFile } from "node:fs/promises";
import { writeSync } from "node:fs";
import { sheetNames } from "./design.js";
import { load } from "./itv.mjs";

/** The files that words name and the sheets that these name, as bytes by their names. What can't be read is left out: the program says so. */
async function filesOf(words) {
  const files = {};
  const names = words.map((word) => word.replace(/^--(?:report|edits)=/, ""));
  for (const name of names) {
    if (Object.hasOwn(files, name)) continue;
    const bytes = await readFile(name).catch(() => null);
    if (bytes === null) continue;
    Object.assign(files, { [name]: bytes });
    names.push(...sheetsIn(bytes));
  }
  return files;
}

/** The names of the sheets that a file names; none where it is not a netlist. */
function sheetsIn(bytes) {
  try {
    return sheetNames(JSON.parse(new TextDecoder().decode(bytes)));
  } catch {
    return [];
  }
}

async function main(words) {
  const itv = await load(await readFile(new URL("./itv.wasm", import.meta.url)));
  const { status, bytes } = itv.run(words, await filesOf(words));
  for (let at = 0; at < bytes.length; ) at += writeSync(1, bytes, at);
  process.exitCode = status;
}

main(process.argv.slice(2));
