// The relaxed spelling of JSON, as WaveDrom's editor takes it: JSON5 reads it, and the program gets strict JSON.

/** What was read of a file's text: the tree and the strict text, or in their place a fault, with where it is and what it is. */
export function readText(text, json5) {
  try {
    return { tree: JSON.parse(text), strict: text, fault: null };
  } catch {
    return readRelaxed(text, json5);
  }
}

function readRelaxed(text, json5) {
  try {
    const tree = json5.parse(text);
    return { tree, strict: JSON.stringify(tree, finite, 1), fault: null };
  } catch (error) {
    const place = error.lineNumber ? placeOf(text, error.lineNumber, error.columnNumber) : 0;
    return { tree: null, strict: null, fault: { place, says: saidOf(text, place, error) } };
  }
}

/** Refuses a number that JSON can't write. */
function finite(key, value) {
  if (typeof value === "number" && !Number.isFinite(value)) throw new Error(`${value} is not a number of JSON: an open end is * in a label and null in a net`);
  return value;
}

/** Where a line and a column, both from 1, are in a text. */
function placeOf(text, line, column) {
  const before = text.split("\n").slice(0, line - 1).join("\n").length + (line > 1 ? 1 : 0);
  return Math.min(before + Math.max(column - 1, 0), text.length);
}

/** What is wrong at a place, in words. */
function saidOf(text, place, error) {
  if (!text.trim()) return "The file is empty. A sheet begins with {.";
  if (!error.lineNumber) return `${error.message}.`;
  const char = text[place];
  if (place >= text.length || /invalid end/.test(error.message)) return "The text ends too early: a bracket or a quote is not closed.";
  if (char === "\n") return "The line ends within a text: a quote is not closed.";
  return `'${char}' is not expected here: a comma, a colon or a quote may be missing before it.`;
}
