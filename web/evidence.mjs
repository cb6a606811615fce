// What tml prints as evidence and as seconds, read into plain values, and seconds as dates. Whether it is right, tml says.
import { textOf } from "./places.mjs";

const STEP = /^(via|span|calendar|lower|upper|least|most) (\d+)(?: (\d+))?$/gm;
const TIMELINE = "\ntimeline ";
const [FIRST_SECOND, LAST_SECOND] = [-62_135_596_800n, 253_402_300_799n]; // of the years 1 to 9999
const UNITS = [["d", 86_400n], ["h", 3_600n], ["min", 60n], ["s", 1n]];

/** The numbers of the steps of a part of evidence, with their kinds. */
function stepsOf(text) {
  return [...text.matchAll(STEP)].map(([, kind, first, second]) => ({ kind, first: Number(first), second: Number(second ?? 0) }));
}

/** The starts and ends of a list of intervals, as numbers without limit. */
function endsOf(text) {
  return [...text.matchAll(/^at (-?\d+) (-?\d+)$/gm)].map(([, start, end]) => [BigInt(start), BigInt(end)]);
}

/** The one claim of evidence that was printed. Of a clash, the timelines are left out: there may be thousands. */
export function claimOf(bytes) {
  const head = textOf(bytes.subarray(0, 200)).split("\n")[2] ?? "";
  const [kind, ...rest] = head.split(" ");
  if (kind === "clash") return clashOf(textOf(bytes.subarray(0, indexOf(bytes, TIMELINE))));
  const text = textOf(bytes);
  if (kind === "timeline") return { kind, ends: endsOf(text) };
  const [first, relation, second] = rest;
  const related = { kind, first: Number(first), relation, second: Number(second) };
  if (kind === "counter") return { ...related, ends: endsOf(text) };
  return { ...related, walks: text.split(/^walk \d+$/m).slice(1).map(stepsOf) };
}

function clashOf(text) {
  return { kind: "clash", cites: [...text.matchAll(/^cite (\d+)$/gm)].map(([, number]) => Number(number)), walk: stepsOf(text) };
}

/** A placing in seconds, or the lines of a cycle. */
export function secondsOf(bytes) {
  const text = textOf(bytes);
  return text.startsWith("tml-seconds 1\nplacing ") ? { kind: "placing", ends: endsOf(text) } : { kind: "cycle", steps: stepsOf(text) };
}

/** The base relations that are possible, each with its timeline. */
export function possibleOf(text) {
  return text.split(/^relation /m).slice(1).map((part) => ({ relation: part.split("\n", 1)[0], ends: endsOf(part) }));
}

/** Which command checks a file, if it begins as evidence or as seconds. */
export function checkerOf(bytes) {
  const begin = textOf(bytes.subarray(0, 16));
  return begin.startsWith("tml-evidence ") ? "verify" : begin.startsWith("tml-seconds ") ? "confirm" : null;
}

/** A second as a date, or by its number if it lies outside of the years 1 to 9999. */
export function civil(second) {
  if (second === LAST_SECOND + 1n) return "10000-01-01T00:00:00";
  if (second < FIRST_SECOND || second > LAST_SECOND) return `second ${second}`;
  return new Date(Number(second) * 1000).toISOString().slice(0, 19);
}

/** A number of seconds as days, hours, minutes and seconds. */
export function lengthOf(seconds) {
  let rest = seconds;
  const parts = UNITS.map(([unit, size]) => {
    const count = rest / size;
    rest %= size;
    return count ? `${count.toLocaleString("en")} ${unit}` : "";
  });
  return parts.filter(Boolean).join(" ") || "0 s";
}

/** Where some bytes have a text of ASCII first; their length if they do not. */
function indexOf(bytes, text) {
  const [first, ...rest] = new TextEncoder().encode(text);
  let at = bytes.indexOf(first);
  while (at >= 0 && !rest.every((byte, index) => bytes[at + 1 + index] === byte)) at = bytes.indexOf(first, at + 1);
  return at < 0 ? bytes.length : at;
}
