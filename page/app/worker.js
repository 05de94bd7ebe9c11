// Runs the program in a worker of its own.
//
// A message has the compiled module, or a run: its number, its words and its files as texts by their names. The answer has the status and the text, with
// the program's reason where it refused the files, or a fault where the program was ended by a trap. This file and what it imports are packed into the page as the text of the worker.

import { Itv } from "../core/itv.mjs";

/** The statuses of a run that refused its files or could not read one. */
const REFUSED = [4, 5];

let program = null;

onmessage = ({ data }) => {
  if (data.module) {
    program = new Itv(data.module);
    return;
  }
  try {
    const { words, files } = data;
    const { status, text } = program.run(words, files);
    const reason = REFUSED.includes(status) ? program.reason(words, files, status) : "";
    postMessage({ number: data.number, status, text, reason });
  } catch (error) {
    postMessage({ number: data.number, status: null, text: "", fault: String(error) });
  }
};
