// The worker of the page: it reads files and queries tml, one task after the other, so that the page itself never waits.
import { load, Status } from "./tml.mjs";
import { blocksOf, problemOf } from "./answers.mjs";
import { checkerOf } from "./evidence.mjs";
import { Places, textOf } from "./places.mjs";
import { Source } from "./source.mjs";
import { Wording } from "./wording.mjs";

const COUNTS = /^(events|instances|timex|signals|tlinks|alinks|slinks) (\d+)$/gm;
const PAUSE = 60; // milliseconds between reports
const AHEAD = 16; // files that are read before it is their turn: some browsers take 16 milliseconds for each, however short it is
const CHECKED_BY_SPANS = 3; // faults up to this number are those that `spans` finds too
const NOTHING_SAID = new Uint8Array(0);

let started = null;
let tables = null;
let held = { key: null };
let last = Promise.resolve();

/** The tasks by their names. */
const TASKS = { check: checkAll, look, query, judge, write: judgeText };

onmessage = ({ data }) => {
  if (data.module) {
    started = load(data.module).catch(cannotRun);
    tables = data.tables;
  } else {
    last = last.then(() => answer(data));
  }
};

function cannotRun({ message }) {
  throw new Error(`this browser cannot run tml (${message})`);
}

/** Does a task, and says what became of it. */
async function answer({ number, task, ...rest }) {
  try {
    const tml = await started;
    postMessage({ number, done: await TASKS[task](tml, rest, (part) => postMessage({ number, part })) });
  } catch (error) {
    postMessage({ number, failed: reason(error) });
  }
}

/** Why something failed. */
function reason(error) {
  return error instanceof RangeError ? "the browser gives too little memory for this" : error.message;
}

/** The verdicts on some files, told as they come. */
async function checkAll(tml, { files }, tell) {
  let [found, since] = [[], Date.now()];
  const reading = [];
  for (const [index, { key, file }] of files.entries()) {
    for (const next of files.slice(index + reading.length, index + AHEAD)) reading.push(contentOf(next.file, tml.mostOfDocument));
    const verdict = verdictOn(tml, await reading.shift());
    // The page itself reads no sizes, since the browser looks each of them up while the page waits.
    found.push({ key, verdict: { ...verdict, size: file.size } });
    if (Date.now() - since < PAUSE) continue;
    tell(found);
    [found, since] = [[], Date.now()];
  }
  return found;
}

/** The verdict on what a file holds: what tml says of it, or that it is evidence or cannot be read. */
function verdictOn(tml, bytes) {
  if (bytes === null) return { kind: "unreadable" };
  const command = checkerOf(bytes);
  if (command) return { kind: "evidence", command };
  try {
    return verdictOf(tml.run(["check", "first"], bytes), bytes);
  } catch (error) {
    return { kind: "not judged", why: [reason(error)] };
  }
}

/** What a file holds, up to one byte more than so many, or null if it cannot be read. */
async function contentOf(file, most) {
  const part = file.slice(0, most + 1);
  const content = await part.arrayBuffer().catch(() => readByPage(part));
  return content && new Uint8Array(content);
}

/** What the page reads of a file, or null: in WebKit, workers of a page from the disk cannot read any file. */
function readByPage(file) {
  const { port1, port2 } = new MessageChannel();
  return new Promise((done) => {
    port1.onmessage = ({ data }) => done(data);
    postMessage({ file, port: port2 }, [port2]);
  });
}

/** A verdict as a value. */
function verdictOf({ status, text }, bytes) {
  const line = textOf(text.subarray(0, 2000));
  const counts = [...line.matchAll(COUNTS)].map(([, name, count]) => [name, Number(count)]);
  if (status === Status.DONE) return { kind: "accepted", counts: Object.fromEntries(counts) };
  const [, number, name, offset] = line.match(/^fault (\d+) (\w+) (\d+)\n$/) ?? [];
  if (status === Status.DOC_FAULT && name) {
    return { kind: "fault", number: Number(number), name, offset: Number(offset), ...new Places(bytes).place(Number(offset)) };
  }
  return { kind: status === Status.TOO_LONG ? "too long" : "not judged", why: problemOf({ status, text }) };
}

/** What is shown of a document before any query: its verdict, and the place of its fault or the names of its intervals. */
async function look(tml, { key, file }) {
  const bytes = await contentOf(file, tml.mostOfDocument);
  if (bytes === null) return { verdict: { kind: "unreadable" } };
  const answered = tml.run(["check", "first"], bytes);
  const verdict = verdictOf(answered, bytes);
  if (verdict.kind === "fault") return { verdict, lines: markedLines(tml, bytes, verdict) };
  if (verdict.kind !== "accepted") return { verdict };
  const source = new Source(bytes, textOf(tml.run(["spans", "first"], bytes).text), textOf(answered.text));
  const wording = new Wording(source, textOf(tml.run(["dates", "first"], bytes).text), tables.orders);
  held = { key, bytes, wording: Object.assign(wording, { base: tables.base, signs: tables.signs, fillings: tables.fillings }) };
  return { verdict, intervals: source.intervals.map((name) => ({ name, text: source.textOf(name) })), links: source.links.length };
}

/** The lines around a fault, with the tag or the character that is at fault. */
function markedLines(tml, bytes, verdict) {
  return new Places(bytes).around(...stretchOf(tml, bytes, verdict));
}

/** From where to where a document is at fault: a tag or a character. */
function stretchOf(tml, bytes, { number, offset }) {
  const spans = number > CHECKED_BY_SPANS ? textOf(tml.run(["spans", "first"], bytes).text) : "";
  const [, end] = spans.match(new RegExp(`^${offset} (\\d+) (?:start|end|empty|text|comment|declaration|doctype)`, "m")) ?? [];
  return [offset, Math.min(end ? Number(end) : offset + 1, bytes.length)];
}

/** The verdict on a text, and the stretch of it that is at fault, in its characters as scripts count them. */
function judgeText(tml, { text }) {
  const bytes = new TextEncoder().encode(text);
  const verdict = verdictOf(tml.run(["check", "first"], bytes), bytes);
  if (verdict.kind !== "fault") return { verdict };
  const stretch = stretchOf(tml, bytes, verdict);
  // Fields of a page have line feeds alone.
  const marked = stretch.map((offset) => textOf(bytes.subarray(0, offset)).replaceAll("\r\n", "\n").length);
  return { verdict, lines: new Places(bytes).around(...stretch), marked };
}

/** What tml answers to a query about an accepted document, with evidence if it prints some. */
async function query(tml, { key, file, command, args }) {
  if (held.key !== key) await look(tml, { key, file });
  if (held.key !== key) return { blocks: [], evidence: null };
  const { bytes, wording } = held;
  const answered = command === "links" ? { status: Status.DONE, text: NOTHING_SAID } : tml.run([command, "first", ...args], bytes);
  const names = args.filter((_, index) => index === 0 || index === args.length - 1);
  const isEvidence = /^tml-(evidence|seconds) \d+\n/.test(textOf(answered.text.subarray(0, 20)));
  return { blocks: blocksOf(wording, command, answered, names), evidence: isEvidence ? answered.text : null };
}

/** What tml says of evidence about an accepted document. */
async function judge(tml, { key, file, evidence }) {
  if (held.key !== key) await look(tml, { key, file });
  const given = await contentOf(evidence, tml.mostOfEvidence);
  if (held.key !== key || given === null) return { blocks: [{ kind: "text", parts: ["The evidence cannot be read."] }], evidence: null };
  const command = checkerOf(given) ?? "verify";
  const answered = tml.run([command, "first", "second"], held.bytes, given);
  return { blocks: blocksOf(held.wording, command, answered, []), isRefused: answered.status !== Status.DONE, evidence: null };
}
