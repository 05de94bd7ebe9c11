// Runs one after another, which can be ended: with workers that only keep what they are sent.

import assert from "node:assert/strict";
import { afterEach, beforeEach, test } from "node:test";
import { setTimeout as rest } from "node:timers/promises";
import { Ended, Runner } from "../app/runner.js";

let workers = [];

class FakeWorker {
  constructor() {
    this.sent = [];
    this.isOver = false;
    workers.push(this);
  }

  postMessage(message) {
    this.sent.push(message);
  }

  terminate() {
    this.isOver = true;
  }

  /** The words of the runs that it was given. */
  get runs() {
    return this.sent.filter(({ words }) => words).map(({ words }) => words.join(" "));
  }

  answer(number, text) {
    this.onmessage({ data: { number, status: 0, text } });
  }
}

beforeEach(() => {
  workers = [];
  globalThis.Worker = FakeWorker;
});

afterEach(() => delete globalThis.Worker);

test("runs go one after another, each with its own answer", async () => {
  const runner = new Runner("", {});
  const [first, second] = [runner.run(["a"], {}), runner.run(["b"], {})];
  assert.deepEqual(workers[0].runs, ["a"]);
  workers[0].answer(1, "A");
  assert.equal((await first).text, "A");
  assert.deepEqual(workers[0].runs, ["a", "b"]);
  workers[0].answer(2, "B");
  assert.equal((await second).text, "B");
  assert.ok(!runner.isAtWork);
});

test("after a run was ended the next one begins at once in the spare worker, and no late answer is taken", async () => {
  const runner = new Runner("", {});
  const [ended, waiting] = [runner.run(["a"], {}), runner.run(["b"], {})];
  runner.end();
  await assert.rejects(ended, Ended);
  await assert.rejects(waiting, Ended);
  assert.ok(workers[0].isOver);
  const next = runner.run(["c"], {});
  assert.equal(workers.length, 2);
  assert.deepEqual(workers[1].runs, ["c"]);
  workers[0].answer(2, "late");
  assert.ok(runner.isAtWork);
  workers[1].answer(2, "C");
  assert.equal((await next).text, "C");
  await rest(350);
  assert.equal(workers.length, 3, "a spare worker is begun anew");
});

test("a run that is ended before a spare worker is there gets a new one", async () => {
  const runner = new Runner("", {});
  for (const words of ["a", "b"]) {
    const run = runner.run([words], {});
    runner.end();
    await assert.rejects(run, Ended);
  }
  runner.run(["c"], {});
  assert.deepEqual(workers.map(({ isOver }) => isOver), [true, true, false]);
  assert.deepEqual(workers[2].runs, ["c"]);
  clearTimeout(runner.beginning);
});

test("nothing is ended while no run goes on", () => {
  const runner = new Runner("", {});
  runner.end();
  assert.ok(workers.every(({ isOver }) => !isOver));
});
