// A document that tml accepts: its tags as `tml spans` cuts it, its intervals and links as `tml check` names them, and its texts.
import { Places, textOf, upTo } from "./places.mjs";

const IDENTIFIERS = { EVENT: "eid", MAKEINSTANCE: "eiid", TIMEX3: "tid", TLINK: "lid", SLINK: "lid" };
const SUBORDINATING = ["MODAL", "CONDITIONAL", "NEG_EVIDENTIAL", "COUNTER_FACTIVE"]; // SLINKs whose subordinated event is not asserted
const UNIT = /^(\d+) (\d+) (\w+)(?: (.*))?$/gm;
const ENTITIES = { lt: "<", gt: ">", amp: "&", quot: '"', apos: "'" };
const LONGEST = 40;
const AROUND = 240;
const SHORT = 6000;
const MOST_SHOWN = 12000;
const MOST_OF_VALUE = 2000; // bytes of a value that is shown

/** A text on one line, and cut if it is long. */
export function cut(text, longest = LONGEST) {
  const characters = Array.from(text.replace(/\s+/g, " ").trim().slice(0, 4 * longest));
  return characters.length > longest ? `${characters.slice(0, longest - 1).join("")}…` : characters.join("");
}

/** A text without its references. */
function unescaped(text) {
  return text.replace(/&(?:#x([0-9a-fA-F]+)|#(\d+)|(lt|gt|amp|quot|apos));/g, (whole, hexadecimal, decimal, name) => {
    if (name) return ENTITIES[name];
    const code = hexadecimal ? parseInt(hexadecimal, 16) : parseInt(decimal, 10);
    return code <= 0x10ffff && (code < 0xd800 || code > 0xdfff) ? String.fromCodePoint(code) : "\ufffd";
  });
}

/** A document with its tags, and what its intervals and links are called. */
export class Source {
  #bytes;
  #tags = [];
  #starts = [];
  #ends = [];
  #owners = [];
  #open = [];
  #last = null;
  #instances = new Map();
  #events = new Map();
  #texts = new Map();
  #unasserted = new Set();

  /** Of the bytes of a document, and what tml prints for `spans` and `check`. */
  constructor(bytes, spans, check) {
    this.#bytes = bytes;
    this.places = new Places(bytes);
    this.intervals = [...check.matchAll(/^interval \d+ (\S+)$/gm)].map(([, name]) => name);
    this.links = [...check.matchAll(/^tlink \d+ (\S+) (\S+) (\S+)$/gm)].map(([, left, relation, right]) => ({ left, relation, right }));
    for (const [, start, end, kind, name] of spans.matchAll(UNIT)) this.#take(Number(start), Number(end), kind, name);
    this.#tags.filter(({ name }) => name === "TLINK").forEach((tag, number) => Object.assign(this.links[number], { tag }));
    this.#nameIntervals();
  }

  /** The text of an interval, or its value if it has none: nothing if it has neither. Each is found once. */
  textOf(name) {
    if (!this.#texts.has(name)) this.#texts.set(name, this.#found(this.tagOf(name)));
    return this.#texts.get(name);
  }

  #found(tag) {
    if (!tag) return "";
    return tag.kind === "empty" ? cut(this.value(tag, "value", MOST_OF_VALUE)) : this.#inside(tag);
  }

  /** The tag that an interval has in the text: that of a time, or of the event of an instance. */
  tagOf(name) {
    const tag = this.#instances.get(name);
    return tag?.name === "MAKEINSTANCE" ? this.#events.get(this.value(tag, "eventID")) : tag;
  }

  /** Whether an interval is a time. */
  isTime(name) {
    return this.#instances.get(name)?.name === "TIMEX3";
  }

  /** Whether the document asserts an interval: not the event of a negative instance, and not one that such an SLINK subordinates. */
  isAsserted(name) {
    return !this.#unasserted.has(name);
  }

  /** What a link is called: by its lid, or by its number. */
  called(number) {
    return this.value(this.links[number].tag, "lid") || `link ${number}`;
  }

  /** The value of an attribute of a tag, or so much of it; it is empty if it is not there. */
  value(tag, name, most = Infinity) {
    const [start, end] = tag.attributes.get(name) ?? [0, 0];
    const written = textOf(this.#bytes.subarray(start, Math.min(end, start + most)));
    return unescaped(written.slice(written.search(/["']/) + 1, -1));
  }

  /** The lines around the tag of a link, which is marked. */
  sourceOf(number) {
    const { start, end } = this.links[number].tag;
    return this.places.around(start, end).filter(({ isMarked }) => isMarked);
  }

  /** The text of the document around some tags, which are given by their starts, each with what is to be said next to it. */
  prose(notes) {
    const runs = [];
    for (const stretch of this.#around([...notes.keys()].sort((one, other) => one - other))) this.#addStretch(runs, stretch, notes);
    const last = runs.at(-1);
    if (last && (last.isCut || last.index < this.#starts.length - 1)) runs.push({ text: "", isGap: true });
    return runs.map(({ text, note, isGap }, index) => {
      const [isFirst, isLast, lined] = [index === 0, index === runs.length - 1, text.replace(/\s*\n\s*/g, "\n")];
      return { text: isFirst ? lined.trimStart() : isLast ? lined.trimEnd() : lined, note, isGap };
    });
  }

  /** Adds to the runs all texts of a stretch of the document. */
  #addStretch(runs, [first, last], notes) {
    for (let index = upTo(this.#starts, first); index < this.#starts.length && this.#starts[index] < last; index++) {
      if (this.#ends[index] > first) this.#addRun(runs, index, [first, last], notes);
    }
  }

  /** Adds to the runs what a stretch has of a text, after a sign if something was left out before it. An empty tag has its value. */
  #addRun(runs, index, [first, last], notes) {
    const [start, end, owner, previous] = [this.#starts[index], this.#ends[index], this.#owners[index], runs.at(-1)];
    const isEmpty = owner?.kind === "empty";
    if (isEmpty && previous?.index === index) return;
    const [from, to] = isEmpty ? [start, end] : [this.#beginning(Math.max(start, first)), this.#beginning(Math.min(end, last))];
    const text = isEmpty ? this.value(owner, "value", MOST_OF_VALUE) : unescaped(textOf(this.#bytes.subarray(from, to)));
    const isAfterGap = from > start || index > (previous ? previous.index + 1 : 0) || previous?.isCut;
    const run = { text, note: owner && notes.get(owner.start), index, isCut: to < end };
    if (isAfterGap) runs.push({ text: "", isGap: true, index }, run);
    else if (previous && previous.note === run.note) Object.assign(previous, run, { text: previous.text + text });
    else runs.push(run);
  }

  /** Stretches of the document around some places, which do not overlap, up to some length; a short document is one. */
  #around(places) {
    if (this.#bytes.length <= SHORT) return [[0, this.#bytes.length]];
    const found = [];
    let left = MOST_SHOWN;
    for (const place of places) {
      const [first, last] = [Math.max(place - AROUND, found.at(-1)?.[1] ?? 0), place + 2 * AROUND];
      left -= last - first;
      if (left < 0) break;
      if (first === found.at(-1)?.[1]) found.at(-1)[1] = last;
      else found.push([first, last]);
    }
    return found;
  }

  #take(start, end, kind, name) {
    if (kind === "text") this.#addText(start, end, this.#open.findLast((tag) => tag?.isInterval));
    else if (kind === "attribute") this.#last?.attributes.set(name, this.#last.attributes.get(name) ?? [start, end]);
    else if (kind === "start" || kind === "empty") this.#begin(start, end, kind, name);
    else if (kind === "end") this.#close();
  }

  #begin(start, end, kind, name) {
    const [isKept, isInterval] = [Object.hasOwn(IDENTIFIERS, name), name === "EVENT" || name === "TIMEX3"];
    const tag = { start, end, kind, name, attributes: new Map(), first: this.#starts.length, isInterval };
    this.#last = isKept ? tag : null;
    if (isKept) this.#tags.push(tag);
    if (kind === "start") this.#open.push(isKept ? tag : null);
    else if (tag.isInterval) this.#addText(start, end, tag);
  }

  #close() {
    const tag = this.#open.pop();
    if (tag) tag.last = this.#starts.length;
  }

  #addText(start, end, owner) {
    this.#starts.push(start);
    this.#ends.push(end);
    this.#owners.push(owner);
  }

  #nameIntervals() {
    for (const tag of this.#tags) {
      const [isLink, value] = [tag.name === "TLINK" || tag.name === "SLINK", (name) => this.value(tag, name)];
      if (!isLink) (tag.name === "EVENT" ? this.#events : this.#instances).set(value(IDENTIFIERS[tag.name]), tag);
      else if (tag.name === "SLINK" && SUBORDINATING.includes(value("relType"))) this.#unasserted.add(value("subordinatedEventInstance"));
      if (tag.name === "MAKEINSTANCE" && value("polarity") === "NEG") this.#unasserted.add(value("eiid"));
    }
  }

  /** The beginning of the text inside a tag. */
  #inside(tag) {
    let text = "";
    for (let index = tag.first; index < tag.last && text.length < 4 * LONGEST; index++) {
      if (this.#owners[index]?.kind === "empty") continue;
      text += unescaped(textOf(this.#bytes.subarray(this.#starts[index], Math.min(this.#ends[index], this.#starts[index] + 16 * LONGEST))));
    }
    return cut(text);
  }

  #beginning(at) {
    let found = Math.max(at, 0);
    while (found < this.#bytes.length && this.#bytes[found] >= 0x80 && this.#bytes[found] < 0xc0) found++;
    return found;
  }
}
