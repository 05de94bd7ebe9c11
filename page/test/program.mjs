// What the tests share: the files of the repository, and the program of a module of WebAssembly.

import fs from "node:fs";
import path from "node:path";
import { fileURLToPath } from "node:url";
import { gunzipSync } from "node:zlib";
import { load } from "../core/itv.mjs";
import { scanned } from "../core/places.js";

export const TOP = path.resolve(path.dirname(fileURLToPath(import.meta.url)), "../..");

/** The text of a file of the repository. */
export function textOf(name) {
  return fs.readFileSync(path.join(TOP, name), "utf8");
}

/** The sheets and netlists of examples/ as texts by their names. The sheets of a netlist are named like that too, as in the page. */
export const EXAMPLES = Object.fromEntries(
  fs
    .readdirSync(path.join(TOP, "examples"))
    .filter((name) => name.endsWith(".json"))
    .map((name) => [`examples/${name}`, textOf(`examples/${name}`).replace(/"sheet": *"/g, "$&examples/")]),
);

/** What is kept of the output of an example's job; null where nothing is. */
export function keptOf(name, end) {
  const file = path.join(TOP, name.replace(/\.json$/, end));
  return fs.existsSync(file) ? fs.readFileSync(file, "utf8") : null;
}

/** The examples whose kept output is a report that was made without further words. */
export const REPORTED = Object.keys(EXAMPLES).filter((name) => (keptOf(name, ".out") || "").startsWith("itv report ") && keptOf(name, ".args") === null);

/** What is read of a file with this text, which is strict JSON. */
export function readOf(text) {
  return { text, tree: JSON.parse(text), value: scanned(text) };
}

/** The text with changes made in it. */
export function changed(text, changes) {
  const fromTheEnd = [...changes].sort((a, b) => b.start - a.start);
  return fromTheEnd.reduce((all, { start, end, text: put }) => all.slice(0, start) + put + all.slice(end), text);
}

/** The program: of the module that ITV_WASM names, or else of the page in dist/. Null where this node can't run it. */
export async function program() {
  const page = () => gunzipSync(Buffer.from(/id="wasm">([^<]*)</.exec(textOf("dist/itv.html"))[1], "base64"));
  const bytes = process.env.ITV_WASM ? fs.readFileSync(process.env.ITV_WASM) : page();
  return WebAssembly.validate(bytes) ? load(bytes) : null;
}
