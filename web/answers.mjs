// What tml answers about a document, as blocks that a page shows: sentences, lists, tables and texts with marks.
import { claimOf, civil, lengthOf, possibleOf, secondsOf } from "./evidence.mjs";
import { textOf } from "./places.mjs";
import { modelOf } from "./timeline.mjs";
import { Status } from "./tml.mjs";
import { code, said } from "./wording.mjs";

const paragraph = (...parts) => ({ kind: "text", parts });
const heading = (...parts) => ({ kind: "heading", parts });
const list = (numbers, toParts) => limited("list", numbers, toParts);
const sentences = (found, toParts) => limited("steps", found, (one) => capital([...toParts(one), "."]));
const table = (caption, head, rows) => ({ kind: "table", caption, head, rows });

const MOST = 500; // items of a list that are put into words
const REFUSALS = {
  Number: (n) => `${n} is the number of no interval or link of this document`,
  Size: (n) => `it has ${n} intervals, and this document has another number`,
  Order: (i) => `interval ${i} does not start before it ends`,
  Link: (k) => `link ${k} does not hold`,
  Calendar: (p, q) => `points ${p} and ${q} are not in the order of the calendar`,
  Step: (k) => `step ${k} goes by no link, date or interval of this document, or does not begin at the end of the step before it`,
  End: () => "its steps do not end at the point that they have to reach",
  Weak: () => "none of its steps says before, and one has to",
  Cited: (k) => `link ${k} is cited and not used, or used and not cited`,
  Holds: () => "the relation holds in the timeline that is to be a counterexample",
  Bound: (p) => `point ${p} lies outside of its date`,
  Length: (i) => `interval ${i} does not last as long as it says`,
  Sum: () => "its lines do not contradict each other",
};
/** Why evidence is refused, by the first word of the reason. */

const SHOWN = {
  timeline: () => ["Some timeline fits the document."],
  entails: (x, relation, y) => [code(x), ` ${relation} `, code(y), " holds in every timeline that fits the document."],
  counter: (x, relation, y) => [code(x), ` ${relation} `, code(y), " is false in some timeline that fits the document."],
  placing: () => ["The times are a placing of the document in whole seconds."],
  cycle: () => ["The document has no placing in whole seconds."],
};
/** What evidence shows. */

const WORDS = "timeline-words"; // the list of sentences next to a picture
const MOST_SAID = 20; // what is said of one interval of a picture
const MOST_LINES = 500; // lines between the bars of a picture
const KINDS = {
  event: "an event",
  unasserted: "an event that is not asserted",
  exact: "a date",
  within: "a time within a date",
  free: "a time without a date",
};
const READING = [
  "An upright line is a start or an end, before all to its right. Places and widths between two lines say nothing.",
  "A bar is full if its interval lasts there in any case, and outlined if it may last there. It lasts nowhere else.",
  "A bar that stops short of a line does not reach it. One that touches the line may. A bar without a side has no limit there.",
  "A mark at the top of a bar: it has begun there in any case. A mark at its foot: it has not ended there.",
  "An arrow between bars: before. A dashed arrow: before, or at once. A thick line: at once.",
  "A line meets a bar in its left third for its start, and in its right third for its end. An arrow from middle to middle leads from an "
    + "end to a start.",
  "Events are blue, dates yellow, times within a date orange, and times without a date purple. Events are grey if the document does not "
    + "assert them: an SLINK subordinates them as modal, conditional, negatively evidential or counterfactive, or their polarity is negative.",
];
/** What a picture means. */

/** What is answered to each command about an accepted document. The answer of tml has the status and text. */
const ANSWERS = {
  dates: (wording) => [datesTable(wording)],
  links: (wording) => [linksTable(wording)],
  solve: (wording, { text }) => timelineOf(wording, claimOf(text)),
  matrix: (wording, { text }) => picture(wording, modelOf(wording, text, wording.signs)),
  ask: (wording, { text }) => relationOf(wording, claimOf(text)),
  possible: (wording, { text }, [first, second]) => possible(wording, possibleOf(textOf(text)), first, second),
  reduce: (wording, { text }) => redundant(wording, textOf(text)),
  seconds: (wording, { text }) => placing(wording, secondsOf(text)),
  verify: (wording, { text }) => verified(wording, textOf(text)),
  confirm: (wording, { text }) => verified(wording, textOf(text)),
};

/** The blocks of an answer. */
export function blocksOf(wording, command, answer, names) {
  if (answer.status === Status.DONE) return ANSWERS[command](wording, answer, names);
  if (answer.status === Status.CLASH && command === "seconds") return cycle(wording, secondsOf(answer.text));
  if (answer.status === Status.CLASH) return [...instead(command), ...clash(wording, claimOf(answer.text))];
  return [paragraph(...problemOf(answer))];
}

/** What comes before a clash that answers another query. */
function instead(command) {
  const reason = "Nothing can be said of the order in this document, since its links contradict each other.";
  return command === "solve" ? [] : [paragraph(reason)];
}

/** Why there is no answer. */
export function problemOf({ status, text }) {
  const line = textOf(text.subarray(0, 1000)).trim();
  if (status === Status.NO_MEMORY) return ["The browser gives too little memory for this query."];
  if (status === Status.TOO_LONG) return [line.endsWith("DOC") ? "The document" : "The evidence", " is longer than tml takes."];
  if (status === Status.EVIDENCE_FAULT) return refusalOf(line);
  return ["tml has printed: ", code(line)];
}

/** Why evidence is refused, in words. */
function refusalOf(line) {
  const [, at] = line.match(/^evidence line (\d+)$/) ?? [];
  if (at) return [`Refused: line ${at} of the evidence is not what has to come there.`];
  const [, claim, part, reason, numbers] = line.match(/^(?:evidence claim (\d+) part (\d+)|seconds) (\w+)([ \d]*)$/) ?? [];
  if (!reason) return ["Refused: ", code(line)];
  const found = REFUSALS[reason]?.(...numbers.trim().split(" ")) ?? reason;
  return [`Refused: ${found}${claim ? ` (claim ${claim}, part ${part}, counted from 0)` : ""}.`];
}

function datesTable(wording) {
  const rows = wording.dates.map(({ name, kind, from, to }) => {
    const known = { free: "anywhere", exact: "exactly", within: "within" }[kind];
    return [wording.interval(name), [known], [from ?? ""], [to ?? ""]];
  });
  return rows.length > 0 ? table("Times by the calendar", ["time", "lies", "from", "to"], rows) : paragraph("The document has no times.");
}

function linksTable(wording) {
  const rows = wording.source.links.map(({ relation, left, right, tag }, number) => [
    [{ link: number, called: wording.source.called(number) }],
    wording.interval(left),
    [relation],
    wording.interval(right),
    [String(wording.source.places.place(tag.start).line)],
  ]);
  return rows.length > 0 ? table("Links", ["link", "first", "relation", "second", "line"], rows) : paragraph("The document has no TLINK.");
}

/** A timeline as a table, by its ranks. */
function ranks(wording, caption, ends) {
  const rows = ends.map(([start, end], index) => ({ start, end, index }));
  rows.sort((one, other) => Number(one.start - other.start) || Number(one.end - other.end) || one.index - other.index);
  const cells = rows.map(({ start, end, index }) => [[`${start}`], [`${end}`], wording.interval(wording.names[index])]);
  return table(caption, ["start", "end", "interval"], cells);
}

function timelineOf(wording, { ends }) {
  return [
    paragraph("A timeline fits: all links and dates can be true together."),
    paragraph("The table has the one with the least ranks. What it shows beyond the links and dates need not be so in others."),
    ranks(wording, "A timeline that fits, by ranks", ends),
  ];
}

/** What is so in every timeline that fits, as a picture and in sentences. */
function picture(wording, model) {
  const { names, axis, places, rows, listed } = model;
  const [bars, lines] = [rows.map((row) => ({ ...row, said: [] })), model.lines.slice(0, MOST_LINES)];
  if (wording.names.length === 0) return [paragraph("The document has no instances and no times, so there is nothing to draw.")];
  const cut = `The picture has the first ${MOST_LINES} of ${model.lines.length} lines between bars.`;
  const seen = [
    { kind: "picture", model: { names, axis, rows: bars, lines }, fillings: wording.fillings, words: WORDS },
    ...(lines.length < model.lines.length ? [paragraph(cut)] : []),
    { kind: "details", summary: "How to read the picture", blocks: [list(READING, (one) => [one])] },
    heading("The axis, from left to right"),
    sentences(places, (place) => place),
  ];
  return [
    paragraph("All that is shown is so in every timeline that fits the links and dates."),
    ...(rows.length > 0 ? seen : [paragraph("Nothing says when any of the intervals is, so there is no picture.")]),
    heading("In sentences"),
    { ...list([...rows, ...listed], (row) => rowSaid(wording, row)), id: WORDS },
  ];
}

/** What is known of an interval, in a sentence. */
function rowSaid(wording, { name, kind, bar, said: known }) {
  const found = [...(bar ? [] : [["nothing says when"]]), ...known.slice(0, MOST_SAID)];
  if (known.length > MOST_SAID) found.push([`and ${known.length - MOST_SAID} more orders`]);
  return [...wording.interval(name), `, ${KINDS[kind]}: `, ...found.flatMap((one, index) => (index > 0 ? ["; ", ...one] : one)), "."];
}

function relationOf(wording, claim) {
  const [first, second] = [wording.names[claim.first], wording.names[claim.second]];
  const relation = wording.related(first, claim.relation, second);
  return claim.kind === "entails" ? proof(wording, claim, relation) : counterexample(wording, claim, relation);
}

function proof(wording, { first, relation, second, walks }, related) {
  const orders = wording.ordersOf(relation, wording.names[first], wording.names[second]);
  const parts = orders.flatMap((order, index) => [
    heading(...capital(wording.order(order))),
    walks[index].length > 0 ? sentences(walks[index], (step) => wording.step(step)) : paragraph("They are the same point."),
  ]);
  return [paragraph(...related, " holds in every timeline that fits. The proof:"), ...parts];
}

function counterexample(wording, { first, relation, second, ends }, related) {
  const [found, names] = [baseOf(wording, ends[first], ends[second]), [wording.names[first], wording.names[second]]];
  return [
    paragraph(...related, " does not follow: a timeline fits in which it is false."),
    paragraph("In this timeline: ", ...wording.related(names[0], found ?? `not ${relation}`, names[1]), "."),
    ranks(wording, "The counterexample, by ranks", ends),
  ];
}

/** The base relation between the ends of two intervals. */
function baseOf(wording, first, second) {
  return wording.base.find((relation) => wording.holds(relation, first, second));
}

function possible(wording, items, first, second) {
  const pair = [...wording.interval(first), " and ", ...wording.interval(second)];
  const shown = items.flatMap(({ relation, ends }) => [
    heading(...wording.related(first, relation, second)),
    { kind: "details", summary: "a timeline in which it holds", blocks: [ranks(wording, relation, ends)] },
  ]);
  const count = items.length === 1 ? "One relation is possible" : `${items.length} relations are possible`;
  return [paragraph(`${count} between `, ...pair, items.length === 1 ? ", so it follows:" : ":"), ...shown];
}

function redundant(wording, text) {
  const kept = new Set([...text.matchAll(/^tlink (\d+) /gm)].map(([, number]) => Number(number)));
  const left = wording.source.links.map((_, number) => number).filter((number) => !kept.has(number));
  if (left.length === 0) return [paragraph("No link follows from the dates and the other links.")];
  const count = left.length === 1 ? "One link of" : `${left.length} links of`;
  return [
    paragraph(`${count} ${wording.source.links.length} can go, since the dates and the links that stay say the same:`),
    list(left, (number) => wording.link(number)),
  ];
}

function placing(wording, { ends }) {
  const times = ends.map(([start, end]) => [[civil(start)], [civil(end)], [lengthOf(end - start)]]);
  const rows = times.map((cells, index) => [wording.interval(wording.names[index]), ...cells]);
  return [
    paragraph("All links, dates and lengths can be met in whole seconds. The table has one placing of many."),
    table("A placing in whole seconds", ["interval", "from", "to", "lasts"], rows),
  ];
}

function cycle(wording, { steps: found }) {
  const lines = [...found].reverse();
  const first = Math.max(lines.findIndex(({ kind }) => kind === "lower"), 0);
  const sorted = [...lines.slice(first), ...lines.slice(0, first)];
  return [
    paragraph("There is no placing in whole seconds: these cannot all be met."),
    sentences(sorted, (step) => wording.second(step)),
    ...linksInText(wording, [...new Set(sorted.filter(({ kind }) => kind === "via").map((step) => step.first))]),
  ];
}

/** A clash: its links, its steps in sentences, and its links in the text. */
function clash(wording, { cites, walk }) {
  const count = cites.length === 1 ? "this link cannot be true" : `these ${cites.length} links cannot all be true`;
  const others = cites.length === 1 ? "" : " Without any one of them, a timeline fits the others.";
  const end = wording.step(walk[0]);
  return [
    paragraph(`A clash: ${count}, with the dates of the document.${others}`),
    list(cites, (number) => wording.link(number)),
    heading("Step by step"),
    sentences(walk, (step) => wording.step(step)),
    paragraph("The steps lead from a point back to it, so it would be before itself: ", ...begun(end), "."),
    ...linksInText(wording, cites),
  ];
}

/** The point with which a sentence begins. */
function begun(sentence) {
  return sentence.slice(0, sentence.findIndex((part) => typeof part === "string" && / is (before|not after) /.test(part)));
}

/** The text of the document in which the intervals of some links are marked, and the lines of these links. */
function linksInText(wording, numbers) {
  const { source } = wording;
  const notes = new Map();
  for (const [number, name] of numbers.flatMap((one) => [[one, source.links[one].left], [one, source.links[one].right]])) {
    const start = source.tagOf(name)?.start;
    if (start !== undefined) notes.set(start, [...new Set([...(notes.get(start) ?? []), number])]);
  }
  const called = (number) => ({ link: number, called: source.called(number) });
  const runs = source.prose(notes).map((run) => ({ ...run, note: run.note?.map(called) }));
  return [
    heading("In the text"),
    { kind: "prose", runs },
    heading("In the source"),
    { kind: "source", lines: numbers.slice(0, MOST).flatMap((number) => source.sourceOf(number)) },
  ];
}

function verified(wording, text) {
  const lines = text.trim().split("\n");
  return [paragraph("Accepted. The evidence shows of this document:"), list(lines, (line) => shownBy(wording, line.split(" ").slice(1)))];
}

/** What one claim shows. */
function shownBy(wording, [kind, ...rest]) {
  if (kind !== "clash") return SHOWN[kind](...rest);
  const links = rest.map(Number).flatMap((number, index) => [index > 0 ? "; " : "", ...wording.link(number)]);
  return ["These links cannot all be true, and without any one of them a timeline fits the others: ", ...links, "."];
}

/** A list of what is made of some things; if there are very many, of the first ones, and how many are left. */
function limited(kind, found, toParts) {
  return { kind, items: found.slice(0, MOST).map(toParts), left: Math.max(found.length - MOST, 0) };
}

/** A sentence with a capital at its beginning, if its beginning is of this page. */
function capital([first, ...rest]) {
  return [typeof first === "string" ? first[0].toUpperCase() + first.slice(1) : first, ...rest];
}
