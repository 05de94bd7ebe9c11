// Unpacks what the page holds, and starts it.

import { App } from "./app.js";
import { fromBase64, fromLink, gunzipped } from "../core/packing.js";
import { Runner } from "./runner.js";
import { escaped, escapedText } from "../core/texts.js";

const FIRST = "examples/cpu-sram-fast.json";
const { page, sayUnfit } = window.itvStart;

/** The bytes that an element holds in gzip and base64. */
function unpacked(id) {
  return gunzipped(fromBase64(document.getElementById(id).textContent));
}

/** Runs the script of a library, which is a module of node where `exports` are needed of it. */
function libraryOf(source, require = null) {
  const module = { exports: {} };
  new Function("module", "exports", "require", source)(module, module.exports, require);
  return module.exports;
}

/** The JSON5 library, whose files name each other. */
function json5Of(sources) {
  const kept = {};
  const load = (name) => (kept[name] = kept[name] || libraryOf(sources[`${name}.js`], (path) => load(path.split("/").pop())));
  return { parse: load("parse") };
}

/** The CodeMirror library with its addons, which are scripts that find it as a global name. */
function codeMirrorOf(sources) {
  for (const source of sources) new Function(source).call(window);
  return window.CodeMirror;
}

/** The files that the page opens with: those of the address or those that it was saved with, which are its own, or else the first example. */
async function firstFiles(examples) {
  const linked = /^#design=(.+)$/.exec(location.hash);
  const packed = linked && (await fromLink(linked[1]));
  if (packed && packed.files) return { ...packed, isOwn: true };
  const saved = JSON.parse(document.getElementById("saved").textContent);
  if (saved) return { ...saved, isOwn: true };
  const sheets = JSON.parse(examples.files[FIRST]).parts.map((part) => part.sheet);
  return { design: FIRST, files: Object.fromEntries([FIRST, ...new Set(sheets)].map((name) => [name, examples.files[name]])) };
}

async function start() {
  const [bytes, packed] = await Promise.all([unpacked("wasm"), unpacked("packed")]);
  const { codemirror, json5, examples, licences } = JSON.parse(new TextDecoder().decode(packed));
  const runner = new Runner(document.getElementById("worker").textContent, await WebAssembly.compile(bytes));
  const program = document.querySelector('meta[name="itv-program"]').getAttribute("content");
  document.getElementById("about").innerHTML = aboutOf(program, licences);
  const app = new App({ CodeMirror: codeMirrorOf(codemirror), json5: json5Of(json5), examples, runner, page, program });
  // For tests, and for whoever wants to run a job by hand in the browser's console.
  window.itv = app;
  window.addEventListener("hashchange", async () => /^#design=/.test(location.hash) && app.open(await firstFiles(examples)));
  const files = await firstFiles(examples);
  document.getElementById("starting").remove();
  await app.start(files);
}

/** What is under "about this page". */
function aboutOf(program, licences) {
  const texts = Object.entries(licences).map(([name, text]) => `<details><summary>${escaped(name)}</summary><pre>${escapedText(text)}</pre></details>`);
  return (
    `<p>The program is itv, an interface timing verifier for timing diagrams, compiled to WebAssembly: ${escaped(program)}. It runs in this page, and ` +
    "nothing leaves the page. The answers are those of the program; the drawing and the words around them are the page's own.</p>" +
    `<p>Keys in the editor: Ctrl-F searches, Ctrl-Z takes back, Ctrl-] and Ctrl-[ move lines; Tab leads on to the next part of the page.</p>${texts.join("")}`
  );
}

start().catch(sayUnfit);
