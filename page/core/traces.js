// Traces: captures of a logic analyser, a scope or a simulator, as value change dumps or as comma-separated values. They are read as tools/trace reads them.
//
// Times are whole picoseconds. What is not understood throws a TraceFault, whose message names the line. A text that is cut is read up to its last whole line.

// The power of ten by which a unit is greater than a picosecond.
const POWERS = { fs: -3, ps: 0, ns: 3, us: 6, ms: 9, s: 12 };

/** What is wrong with a trace, in words. */
export class TraceFault extends Error {}

/** Throws a fault at a line, which is counted from 1. */
function refuseLine(number, text) {
  throw new TraceFault(`line ${number}: ${text}`);
}

/** The quotient of two whole numbers, rounded down. */
function divided(value, divisor) {
  return (value - (((value % divisor) + divisor) % divisor)) / divisor;
}

/** A signal: its scope, its name, its width in bits or null, the code or the column that it has, and its changes as times and values. */
export class Signal {
  constructor(scope, name, width, code, changes = { times: [], values: [] }) {
    this.scope = scope;
    this.name = name;
    this.width = width;
    this.code = code;
    this.changes = changes;
  }

  /** Its name with its scope. */
  get path() {
    return this.scope ? `${this.scope}.${this.name}` : this.name;
  }

  /** Takes a value. Of two values at one time the second one counts. */
  put(time, value) {
    const { times, values } = this.changes;
    if (times.length && times[times.length - 1] === time) {
      times.pop();
      values.pop();
    }
    if (values[values.length - 1] === value) return;
    times.push(time);
    values.push(value);
  }
}

/** The whole lines of a text, and whether there is a line without its end. */
function linesOf(text) {
  // sigrok-cli puts lines META where it converts a file.
  const lines = text.replace(/^\ufeff/, "").replace(/^META .*$/gm, "").split("\n");
  const isCut = lines.pop() !== "";
  return { lines, isCut };
}

// ---- value change dumps

const IGNORED = new Set(["$dumpvars", "$dumpall", "$dumpon", "$dumpoff", "$end"]);
// Bits of VHDL as others know them: weak ones, and those that are not known.
const STRENGTHS = { l: "0", h: "1", u: "x", w: "x", "-": "x" };

/** A dump while it is read: its words, its signals by their codes, and the time that it has come to. */
class Dump {
  constructor(lines, unit, levels) {
    this.lines = lines;
    this.levels = levels;
    this.signals = [];
    this.codes = new Map();
    this.count = 1;
    this.unit = unit;
    this.now = 0;
    this.begin = null;
    this.strange = 0;
  }

  /** The words, each with the number of its line. */
  *words() {
    for (let number = 0; number < this.lines.length; number++) {
      for (const word of this.lines[number].split(/\s+/)) if (word) yield [number + 1, word];
    }
  }

  /** The words up to the next `$end`. */
  inside(words) {
    const found = [];
    for (let next = words.next(); !next.done && next.value[1] !== "$end"; next = words.next()) found.push(next.value[1]);
    return found;
  }

  declare(words) {
    const scopes = [];
    for (let next = words.next(); !next.done; next = words.next()) {
      const [number, word] = next.value;
      if (!word.startsWith("$")) refuseLine(number, `'${word.slice(0, 40)}' is not a declaration`);
      const found = this.inside(words);
      if (word === "$scope") scopes.push(found[found.length - 1]);
      else if (word === "$upscope") scopes.pop();
      else if (word === "$timescale") this.takeScale(number, found.join(""));
      else if (word === "$var") this.declareSignal(number, found, scopes.join("."));
      else if (word === "$enddefinitions") return;
    }
    throw new TraceFault("the file ends before $enddefinitions");
  }

  takeScale(number, text) {
    const match = /^(1|10|100)(s|ms|us|ns|ps|fs)$/.exec(text);
    if (!match) refuseLine(number, `'${text.slice(0, 40)}' is not a time scale`);
    this.count = Number(match[1]);
    this.unit = match[2];
  }

  declareSignal(number, words, scope) {
    if (words.length < 4 || !/^[0-9]{1,9}$/.test(words[1])) refuseLine(number, "this is not a declaration of a signal");
    const [kind, width, code] = words;
    const first = this.codes.get(code);
    // The range of a vector is no part of its name, but the number of a single bit is. A code may have several names, all with the same values.
    const name = words.slice(3).join("").replace(/\[[0-9]+:[0-9]+\]$/, "");
    const signal = new Signal(scope, name, kind.startsWith("real") ? null : Number(width), code, first && first.changes);
    this.signals.push(signal);
    if (!first) this.codes.set(code, signal);
  }

  timeOf(number, word) {
    if (!/^#[0-9]{1,30}$/.test(word)) refuseLine(number, `'${word.slice(0, 40)}' is not a time`);
    const power = POWERS[this.unit];
    const factor = this.count * 10 ** Math.max(power, 0);
    const divisor = 10 ** Math.max(-power, 0);
    const doubled = 2 * Number(word.slice(1)) * factor + divisor;
    if (!Number.isSafeInteger(doubled)) refuseLine(number, `${word} is more than 4,503 s`);
    const time = divided(doubled, 2 * divisor);
    if (time < this.now) refuseLine(number, `${word} is an earlier time than the one before it`);
    return time;
  }

  put(number, word, code) {
    const signal = this.codes.get(code);
    if (!signal) {
      this.strange++;
      return;
    }
    if (/^r/i.test(word)) {
      if (!this.levels) refuseLine(number, `${signal.path} has real numbers, so a level has to say from which one on it is 1`);
      signal.put(this.now, bitOf(Number(word.slice(1)), this.levels, signal.changes.values.at(-1)));
      return;
    }
    const bits = word.replace(/^b/i, "").toLowerCase().replace(/[lhuw-]/g, (bit) => STRENGTHS[bit]);
    if (!/^[01xz]+$/.test(bits) || signal.width === null || bits.length > signal.width) refuseLine(number, `'${word.slice(0, 40)}' is not a value of ${signal.path}`);
    signal.put(this.now, bits.padStart(signal.width, /[xz]/.test(bits[0]) ? bits[0] : "0"));
  }

  readValues(words) {
    for (let next = words.next(); !next.done; next = words.next()) {
      const [number, word] = next.value;
      if (word[0] === "#") {
        this.now = this.timeOf(number, word);
        this.begin ??= this.now;
      } else if (/^[01xzlhuw-]./i.test(word)) this.put(number, word[0], word.slice(1));
      else if (/^[br]./i.test(word)) {
        const code = words.next();
        if (!code.done) this.put(number, word, code.value[1]);
      } else if (word === "$comment") this.inside(words);
      else if (!IGNORED.has(word)) refuseLine(number, `'${word.slice(0, 40)}' is not a time and not a value`);
    }
  }
}

/** A trace of a value change dump. */
function dumped(lines, unit, levels) {
  const dump = new Dump(lines, unit, levels);
  const words = dump.words();
  dump.declare(words);
  if (!dump.unit) throw new TraceFault("there is no $timescale, and no unit of its times is given");
  dump.readValues(words);
  const notes = dump.strange ? [`${dump.strange} values of codes that are not declared are left out`] : [];
  return { signals: dump.signals, begin: dump.begin ?? 0, end: dump.now, notes };
}

// ---- comma-separated values

const LONG_UNITS = { seconds: "s", second: "s", sec: "s", milliseconds: "ms", microseconds: "us", nanoseconds: "ns", picoseconds: "ps", femtoseconds: "fs" };

/** The unit of time that the head of a column names; null if it names none. */
function unitIn(text) {
  const word = text.trim().replace(/[\])]+$/, "").split(/[\s[(_/]+/).pop().toLowerCase().replace(/^[\u00b5\u03bc]s$/, "us");
  const unit = LONG_UNITS[word] || word;
  return Object.hasOwn(POWERS, unit) ? unit : null;
}

/** The picoseconds of a decimal number in a unit, a half rounded away from 0. Null if the text is no number, or too great. */
function picosecondsOf(text, unit) {
  const match = /^([+-]?)([0-9]*)\.?([0-9]*)(?:e([+-]?[0-9]{1,2}))?$/i.exec(text);
  if (!match || !(match[2] || match[3]) || text.length > 40) return null;
  const power = Number(match[4] || 0) - match[3].length + POWERS[unit];
  const digits = BigInt(match[2] + match[3]);
  const divisor = 10n ** BigInt(Math.max(-power, 0));
  const value = Number((2n * digits * 10n ** BigInt(Math.max(power, 0)) + divisor) / (2n * divisor));
  return Number.isSafeInteger(value) ? (match[1] === "-" ? -value || 0 : value) : null;
}

/** The cells of a line. A cell in double quotes may have a comma. */
function cellsOf(line) {
  return [...`,${line}`.matchAll(/,(?:\s*"((?:[^"]|"")*)"\s*(?=,|$)|([^,]*))/g)].map(([, quoted, bare]) => (quoted === undefined ? bare : quoted.replaceAll('""', '"')).trim());
}

/** The bit of a voltage, after another bit. Between the levels it stays. */
function bitOf(volt, { low, high }, before) {
  if (volt >= high) return "1";
  return volt < low ? "0" : before || "x";
}

/** Puts the bits of voltages into a signal. A bit changes when the straight line between two voltages crosses the level. */
function putVolts(signal, times, cells, levels) {
  const volts = cells.map(Number);
  if (volts.some(Number.isNaN)) throw new TraceFault(`${signal.path} has '${cells[volts.findIndex(Number.isNaN)]}', which is not a number`);
  volts.forEach((volt, k) => {
    const before = signal.changes.values.at(-1);
    const bit = bitOf(volt, levels, before);
    const isCrossed = k > 0 && bit !== before && before !== "x";
    const share = isCrossed ? ((bit === "1" ? levels.high : levels.low) - volts[k - 1]) / (volt - volts[k - 1]) : 1;
    signal.put(isCrossed ? times[k - 1] + Math.round((times[k] - times[k - 1]) * share) : times[k], bit);
  });
}

/** A trace of a table. */
function tabled(lines, given, levels) {
  const rows = lines.map((line, k) => ({ number: k + 1, line })).filter(({ line }) => line.trim() && !/^[;#]/.test(line));
  const head = rows.length ? cellsOf(rows.shift().line) : [];
  if (head.length < 2) throw new TraceFault("this is neither a value change dump, which begins with '$', nor a table of comma-separated values");
  const unit = unitOfRows(head, rows, given);
  if (!unit) throw new TraceFault(`the column '${head[0]}' has no unit, as in 'time [ns]'`);
  const times = [];
  const columns = head.map(() => []);
  for (const { number, line } of rows) {
    const cells = cellsOf(line);
    if (cells.length !== head.length) refuseLine(number, `there are ${cells.length} cells, and ${head.length} columns`);
    times.push(timeOfRow(number, cells[0], unit, times.at(-1) ?? -Infinity));
    cells.forEach((cell, column) => columns[column].push(cell.toLowerCase()));
  }
  const signals = head.map((name, column) => new Signal("", name, null, column)).slice(1).filter(({ name }) => name);
  for (const signal of signals) takeColumn(signal, times, columns[signal.code], levels);
  return { signals, begin: times[0] ?? 0, end: times.at(-1) ?? 0, notes: [] };
}

/** The unit of the times: the one that is given, or that of the head. Some scopes have the units in a row of their own, which is taken away. */
function unitOfRows(head, rows, given) {
  const [cell] = rows.length ? cellsOf(rows[0].line) : [""];
  const own = /[0-9]/.test(cell) ? null : unitIn(cell);
  if (own) rows.shift();
  return given || own || unitIn(head[0]);
}

/** The time of a row, which is not before the last one. */
function timeOfRow(number, cell, unit, last) {
  const time = picosecondsOf(cell, unit);
  if (time === null) refuseLine(number, `'${cell}' is not a time`);
  if (time < last) refuseLine(number, `${cell} is an earlier time than the one before it`);
  return time;
}

/** Takes the cells of a column: bits, or voltages if there is a level and they are not all bits. */
function takeColumn(signal, times, cells, levels) {
  if (levels && !cells.every((cell) => /^[01xz]$/.test(cell))) putVolts(signal, times, cells, levels);
  else cells.forEach((cell, k) => signal.put(times[k], cell));
}

/** The trace of a text: its signals, when it begins and ends, and notes on what was left out. `unit` is that of its times if the text names none, and
 * `levels` the voltages below which a signal is 0 and from which on it is 1; both may be null. */
export function traceOf(text, unit = null, levels = null) {
  const { lines, isCut } = linesOf(text);
  if (!text.trim()) throw new TraceFault("it is empty");
  const trace = /^\s*\$/.test(lines.join("\n")) ? dumped(lines, unit, levels) : tabled(lines, unit, levels);
  if (isCut) trace.notes.push("the file ends within its last line, which is left out");
  return trace;
}

// ---- waves

/** Whether a value has neither an unknown bit nor a floating one. */
export function isValid(value) {
  return !/^[01xz]*[xz][01xz]*$/.test(value);
}

/** Whether every bit floats. */
export function isFloating(value) {
  return /^z*$/.test(value);
}

/** The times and values of a bus of which these signals are the bits, the first one first. */
function joined(signals) {
  if (signals.length === 1) return signals[0].changes;
  const changes = signals.flatMap(({ changes: { times, values } }, bit) => times.map((time, k) => ({ time, bit, value: values[k] })));
  const bus = new Signal("", "", null, null);
  const now = signals.map(() => "x");
  for (const { time, bit, value } of changes.sort((a, b) => a.time - b.time)) {
    now[bit] = value;
    bus.put(time, now.join(""));
  }
  return bus.changes;
}

/** The values of signals over time without those that are too short: when each begins and ends, and how many were left out. Between the end of a value and
 * the beginning of the next one there are short values alone. The first and the last one may be short: nobody knows how long they are. */
export function waveOf(signals, begin, shortest) {
  let { times, values } = joined(signals);
  if (!times.length || times[0] > begin) [times, values] = [[begin, ...times], ["x", ...values]];
  const wave = { begins: [], ends: [], values: [], short: 0 };
  values.forEach((value, k) => {
    const end = times[k + 1] ?? null;
    if (k > 0 && end !== null && end - times[k] < shortest) wave.short++;
    else if (wave.values.at(-1) === value) wave.ends[wave.ends.length - 1] = end;
    else {
      wave.begins.push(times[k]);
      wave.ends.push(end);
      wave.values.push(value);
    }
  });
  return wave;
}
