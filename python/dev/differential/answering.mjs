// The process in which `libraries` asks the module for browsers: node answering.mjs DIR. It answers each question that comes over its
// standard input, which is a socket. A message is its length, in four bytes from the highest on, and as many bytes; a question is three,
// which are the words, each ended by a zero byte, and two files; and an answer is the status, in one byte, and the text.
import { readFileSync, readSync, writeSync } from "node:fs";
import { pathToFileURL } from "node:url";

const SOCKET = 0;

/** So many bytes that have come, or none if there is an end before them. */
function taken(length) {
  const bytes = Buffer.alloc(length);
  for (let place = 0; place < length; ) {
    const count = readSync(SOCKET, bytes, place, length - place, null);
    if (count === 0) return null;
    place += count;
  }
  return bytes;
}

function received() {
  const length = taken(4);
  return length && taken(length.readInt32BE());
}

function send(...pieces) {
  const bytes = Buffer.concat(pieces);
  const length = Buffer.alloc(4);
  length.writeInt32BE(bytes.length);
  const message = Buffer.concat([length, bytes]);
  for (let place = 0; place < message.length; ) place += writeSync(SOCKET, message, place);
}

function wordsIn(bytes) {
  const words = [];
  for (let place = 0; place < bytes.length; ) {
    const end = bytes.indexOf(0, place);
    words.push(bytes.subarray(place, end));
    place = end + 1;
  }
  return words;
}

/** The module, or none after a message that says why. */
async function loaded(folder) {
  try {
    const { load } = await import(new URL("tml.mjs", folder));
    return await load(readFileSync(new URL("tml.wasm", folder)));
  } catch (error) {
    send(Buffer.from(error.message));
    process.exit(1);
  }
}

const tml = await loaded(pathToFileURL(`${process.argv[2]}/`));
send();
for (let words = received(); words !== null; words = received()) {
  const { status, text } = tml.run(wordsIn(words), received(), received());
  send(Buffer.of(status), text);
}
