// The program as a module of WebAssembly: words and files go in as bytes, a status and a text come back. The page's worker, the tests and the package for
// node all call the program here.

/** The room for a run's output, in bytes: it begins with the least, and grows until the output fits or the most is reached. */
const FIRST_ROOM = 1 << 20;
const MOST_ROOM = 1 << 30;
const GROWTH = 16;
/** The status of a run whose output is longer than its room. */
const NO_ROOM = 6;
/** The statuses of a call that gave no answer. */
const WITHOUT_ANSWER = { 254: "the words and files do not fit", 255: "the output did not fit into its room" };

/** The bytes of a text; bytes are given unchanged. */
function bytesOf(text) {
  return typeof text === "string" ? new TextEncoder().encode(text) : text;
}

/** One instance of the module, with what is put into its memory. */
class Instance {
  constructor(module) {
    /** @type {any} */
    this.exports = new WebAssembly.Instance(module, {}).exports;
  }

  /** Room in memory: its place. */
  room(bytes) {
    const place = this.exports.itv_take(BigInt(Math.max(bytes, 1)));
    if (place === 0n) throw new Error("there is no memory left");
    return place;
  }

  /** Puts bytes into memory and gives their place. Memory may grow at each call, so a view of it is made anew. */
  placed(bytes) {
    const place = this.room(bytes.length);
    new Uint8Array(this.exports.memory.buffer).set(bytes, Number(place));
    return place;
  }

  /** Puts texts one after another into memory, and their lengths as 32 bits each. What comes back are the arguments of two slices. */
  placedTexts(texts) {
    const pieces = texts.map(bytesOf);
    const all = new Uint8Array(pieces.reduce((sum, piece) => sum + piece.length, 0));
    pieces.reduce((place, piece) => (all.set(piece, place), place + piece.length), 0);
    const sizes = new Uint8Array(new Uint32Array(pieces.map((piece) => piece.length)).buffer);
    return [this.placed(all), BigInt(all.length), this.placed(sizes), BigInt(pieces.length)];
  }

  /** The bytes that were written at a place, whose number is at another one. */
  written(place, count) {
    const { buffer } = this.exports.memory;
    return new Uint8Array(buffer, Number(place), new DataView(buffer).getUint32(Number(count), true)).slice();
  }
}

/** The program. Each run has an instance of its own, so nothing is left of the run before. */
export class Itv {
  /** `module` is a compiled WebAssembly.Module. */
  constructor(module) {
    this.module = module;
  }

  /** One run on words and files, which are texts or bytes by their names: its status, and what it printed as bytes and as a text. It throws where the
   * program was ended by a trap. */
  run(words, files = {}) {
    const given = [words, Object.keys(files), Object.values(files)];
    let room = FIRST_ROOM;
    let result = this.runIn(room, given);
    while (result.status === NO_ROOM && room < MOST_ROOM) {
      room = Math.min(room * GROWTH, MOST_ROOM);
      result = this.runIn(room, given);
    }
    return { ...result, text: new TextDecoder().decode(result.bytes) };
  }

  /** What is said to a person after a run that ended with this status: lines that begin with `FILE:LINE:COLUMN: ` or with `itv: `. Empty where nothing is
   * said, or where the module says nothing to a person. */
  reason(words, files, status) {
    const instance = new Instance(this.module);
    if (!instance.exports.itv_reason) return "";
    const slices = [words, Object.keys(files), Object.values(files)].flatMap((texts) => instance.placedTexts(texts));
    const output = instance.room(FIRST_ROOM);
    const count = instance.room(4);
    const ended = instance.exports.itv_reason(...slices, status, output, BigInt(FIRST_ROOM), count);
    return ended === 0 ? new TextDecoder().decode(instance.written(output, count)) : "";
  }

  /** One run with so many bytes of room for its output. */
  runIn(room, given) {
    const instance = new Instance(this.module);
    const slices = given.flatMap((texts) => instance.placedTexts(texts));
    const output = instance.room(room);
    const count = instance.room(4);
    const status = instance.exports.itv_run(...slices, output, BigInt(room), count);
    if (status in WITHOUT_ANSWER) throw new Error(WITHOUT_ANSWER[status]);
    return { status, bytes: instance.written(output, count) };
  }
}

/** The program of the bytes of its module. */
export async function load(bytes) {
  return new Itv(await WebAssembly.compile(bytes));
}
