// tml: `const tml = await load(bytes)`, where bytes are those of tml.wasm, and then `tml.run(["solve", "first"], document)`.
// The same in browsers, in their workers and in Node; and `node tml.mjs solve FILE` does what the program tml does.

/** How a question ends: the exit statuses of the program. docs/COMMANDS.md says when each of them comes. */
export const Status = Object.freeze({
  DONE: 0,
  DOC_FAULT: 1,
  CLASH: 2,
  USAGE: 3,
  READ_FAULT: 4,
  WRITE_FAULT: 5,
  NO_MEMORY: 6,
  EVIDENCE_FAULT: 7,
  UNKNOWN_NAME: 8,
  TOO_LONG: 9,
});

const NOTHING = new Uint8Array(0);
const NO_WORD = Uint8Array.of(0xff); // not UTF-8, so it has no form
const WIDE = 64 << 20; // room for nearly all texts, of which only what is written takes memory
const NARROW = 1 << 16;
const CANNOT_RUN = 126;

/** What is asked: tml over files in memory. */
class Tml {
  #exports;
  #stack;

  constructor(exports) {
    this.#exports = exports;
    this.#stack = exports.__stack_pointer.value;
  }

  /** The most bytes that a document may have. */
  get mostOfDocument() {
    return this.#exports.tml_most_of_document();
  }

  /** The most bytes that evidence, a placing or a cycle may have. */
  get mostOfEvidence() {
    return this.#exports.tml_most_of_evidence();
  }

  /** The status and the text that the program answers to these words, over files by the names `first` and `second`. */
  run(args, first = NOTHING, second = NOTHING) {
    const given = [wordsOf(args), ...[first, second].map((file) => bytesOf(file).subarray(0, this.mostOfEvidence + 1))];
    let answer = this.#answer(given, WIDE);
    if (answer.status === Status.NO_MEMORY) answer = this.#answer(given, NARROW);
    while (answer.needed > answer.room) answer = this.#answer(given, answer.needed);
    return { status: answer.status, text: answer.text };
  }

  /** The answer in so much room, with the length of the whole text. */
  #answer(given, room) {
    const { memory, tml_answer, forget } = this.#exports;
    // A question that ran out of stack has left its own there.
    this.#exports.__stack_pointer.value = this.#stack;
    forget();
    const places = given.map((bytes) => this.#placed(bytes));
    const [text, needed] = [room, 8].map((length) => this.#exports.room(BigInt(length)));
    if ([...places, text, needed].includes(0n)) return { status: Status.NO_MEMORY, text: NOTHING, needed: 0, room };
    const pieces = given.flatMap((bytes, index) => [places[index], BigInt(bytes.length)]);
    const status = tml_answer(...pieces, text, BigInt(room), needed) & 0xff;
    const length = Number(new DataView(memory.buffer).getBigUint64(Number(needed), true));
    return { status, text: new Uint8Array(memory.buffer, Number(text), Math.min(length, room)).slice(), needed: length, room };
  }

  /** Where bytes lie that were copied into the memory of the module, or 0n if there is no room for them. */
  #placed(bytes) {
    const place = this.#exports.room(BigInt(bytes.length));
    // Memory that has grown is another buffer.
    if (place !== 0n) new Uint8Array(this.#exports.memory.buffer, Number(place), bytes.length).set(bytes);
    return place;
  }
}

/** The module of tml.wasm, whose bytes these are, ready to be asked. */
export async function load(bytes) {
  const { instance } = await WebAssembly.instantiate(bytes, {});
  return new Tml(instance.exports);
}

/** Words as they cross: a zero byte ends each. */
function wordsOf(args) {
  const words = args.map(wordOf);
  const whole = new Uint8Array(words.reduce((length, word) => length + word.length + 1, 0));
  let place = 0;
  for (const word of words) {
    whole.set(word, place);
    place += word.length + 1;
  }
  return whole;
}

/** The bytes of a word. A text that is not Unicode has no form, nor has a word with a zero byte. */
function wordOf(word) {
  if (typeof word === "string" && /\p{Surrogate}/u.test(word)) return NO_WORD;
  const bytes = typeof word === "string" ? new TextEncoder().encode(word) : bytesOf(word);
  return bytes.includes(0) ? NO_WORD : bytes;
}

function bytesOf(given) {
  if (ArrayBuffer.isView(given)) return new Uint8Array(given.buffer, given.byteOffset, given.byteLength);
  throw new TypeError("tml: words are texts, and files are bytes, as a Uint8Array has them");
}

// The program, in Node.

const READS_NOTHING = ["drill"];
const READS_TWO = ["verify", "confirm", "join", "score"];
const READS_EVIDENCE = ["renew", "join"]; // at once, where others read a document

/** Whether Node was started with this file. */
async function isStarted() {
  if (globalThis.process?.release?.name !== "node" || !process.argv[1]) return false;
  const [{ realpathSync }, { fileURLToPath }] = await Promise.all([ofNode("fs"), ofNode("url")]);
  try {
    return realpathSync(process.argv[1]) === fileURLToPath(import.meta.url);
  } catch {
    return false;
  }
}

/** A module of Node, which what packs modules for browsers leaves alone. */
function ofNode(name) {
  return import(/* webpackIgnore: true */ /* @vite-ignore */ `node:${name}`);
}

/** Answers the words of the command line on standard output, and gives the status. */
async function answered(words) {
  const fs = await ofNode("fs");
  const tml = await load(fs.readFileSync(new URL("tml.wasm", import.meta.url)));
  const { status, text } = replied(tml, fs, words);
  return isWritten(fs, text) || status !== Status.DONE ? status : Status.WRITE_FAULT;
}

/** The answer to the words of a command line. A file is read only once the answer to those before it is that it is missing. */
function replied(tml, fs, words) {
  const [command, ...others] = words.length > 0 ? words : ["spans", "-"];
  const count = READS_NOTHING.includes(command) ? 0 : READS_TWO.includes(command) ? 2 : 1;
  const names = others.slice(0, count);
  const rest = others.slice(count);
  const files = [];
  for (;;) {
    const called = names.map((_, index) => (index < files.length ? ["first", "second"][index] : "absent"));
    const answer = tml.run([command, ...called, ...rest], ...files);
    if (answer.status !== Status.READ_FAULT || files.length === names.length) return answer;
    const isEvidence = files.length > 0 ? command !== "score" : READS_EVIDENCE.includes(command);
    const file = read(fs, names[files.length], isEvidence ? tml.mostOfEvidence : tml.mostOfDocument);
    if (file === null) return answer;
    files.push(file);
  }
}

/** What a file holds, up to one byte more than so many, or null if it cannot be read. */
function read(fs, name, most) {
  let file;
  try {
    file = name === "-" ? 0 : fs.openSync(name);
    const piece = Buffer.alloc(1 << 20);
    const pieces = [];
    for (let left = most + 1; left > 0; ) {
      const count = patiently(() => fs.readSync(file, piece, 0, Math.min(left, piece.length), null));
      if (count === 0) break;
      pieces.push(Buffer.from(piece.subarray(0, count)));
      left -= count;
    }
    return Buffer.concat(pieces);
  } catch (error) {
    if (error.code === undefined) throw error;
    return null;
  } finally {
    if (file) fs.closeSync(file);
  }
}

/** Whether standard output took all of a text. */
function isWritten(fs, text) {
  try {
    for (let place = 0; place < text.length; ) {
      const count = patiently(() => fs.writeSync(1, text, place));
      if (count === 0) return false;
      place += count;
    }
    return true;
  } catch (error) {
    if (error.code === undefined) throw error;
    return false;
  }
}

/** How much a call moves. A pipe that others have set not to wait is waited for; the end of one is an error in Windows. */
function patiently(move) {
  for (;;) {
    try {
      return move();
    } catch (error) {
      if (error.code === "EOF") return 0;
      if (error.code !== "EAGAIN") throw error;
      Atomics.wait(new Int32Array(new SharedArrayBuffer(4)), 0, 0, 5);
    }
  }
}

/** The words of the command line. In the place of bytes that are not UTF-8 Node puts U+FFFD, and such words have no form. */
function wordsOfProcess() {
  const words = process.argv.slice(2);
  return words.some((word) => /[\ufffd\p{Surrogate}]/u.test(word)) ? [NO_WORD] : words;
}

/** Does what the program does; if it cannot, it says why, with a status that is no answer. */
async function main() {
  try {
    process.exitCode = await answered(wordsOfProcess());
  } catch (error) {
    process.exitCode = CANNOT_RUN;
    console.error(`tml: ${error.message}`);
  }
}

isStarted().then((is) => is && main());
