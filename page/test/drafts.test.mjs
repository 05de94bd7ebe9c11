// Drafts: what is kept of the open files, and what is taken of it.

import assert from "node:assert/strict";
import test from "node:test";
import { draftOf, draftsIn, draftsText, nameOfFiles } from "../core/drafts.js";
import { Files } from "../core/files.js";

function filesOf(texts, design) {
  const files = new Files({ parse: JSON.parse });
  files.replace(texts, design);
  return files;
}

test("changed files come back as they were, with their line ends, and files that were saved need no draft", () => {
  const texts = { "a.json": '{"signal": []}\r\n', "b.json": "not JSON" };
  const files = filesOf(texts, "b.json");
  assert.equal(draftsText(draftOf(files, "a.json"), []), null);
  files.find("a.json").changed = true;
  const { now, former } = draftsIn(draftsText(draftOf(files, "a.json"), []));
  assert.deepEqual(now, { design: "b.json", files: texts, changed: ["a.json"], current: "a.json" });
  assert.deepEqual(former, []);
});

test("a design that was put aside is kept also where nothing has changed since", () => {
  const aside = { design: "a.json", files: { "a.json": "{}" }, changed: ["a.json"], current: "a.json" };
  const text = draftsText(draftOf(filesOf({ "c.json": "{}" }, "c.json"), "c.json"), [aside]);
  assert.deepEqual(draftsIn(text), { now: null, former: [aside] });
});

test("of a broken text nothing is taken", () => {
  const wrong = ['{"design": "a", "files": null, "changed": []}', '{"design": "b", "files": {"a": ""}, "changed": []}', '{"design": "a", "files": {"a": 1}, "changed": []}'];
  for (const text of [null, "", "{", "null", "[]", ...wrong.map((now) => `{"now": ${now}, "former": [${now}]}`)]) assert.deepEqual(draftsIn(text), { now: null, former: [] }, text);
});

test("pages that open with different files keep their drafts apart", () => {
  const packed = { design: "a", files: { a: "{}" } };
  assert.equal(nameOfFiles(packed), nameOfFiles(structuredClone(packed)));
  assert.notEqual(nameOfFiles(packed), nameOfFiles({ design: "a", files: { a: "{ }" } }));
});
