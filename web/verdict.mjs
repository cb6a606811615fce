// A verdict in words, and the place of a fault: of documents that were given, and of the text that somebody writes.
import { coded, make } from "./elements.mjs";
import { sentence, sourceLines } from "./view.mjs";

const NOUNS = {
  events: "event",
  instances: "instance",
  timex: "time",
  signals: "signal",
  tlinks: "TLINK",
  alinks: "ALINK",
  slinks: "SLINK",
};

export const MANY = new Intl.NumberFormat("en");

/** A count with its noun. */
export function counted(count, noun) {
  return `${MANY.format(count)} ${noun}${count === 1 ? "" : "s"}`;
}

/** A verdict, and what there is to say of it: the rule of a fault, by the sentences on faults, or what an accepted document has. */
export function verdictOf(verdict, faults) {
  if (verdict.kind === "accepted") return accepted(verdict);
  if (verdict.kind !== "fault") return [make("p", { class: "verdict wrong" }, notJudged(verdict))];
  const { number, name, line, column } = verdict;
  return [
    make("p", { class: "verdict wrong" }, `Fault ${number} ${name}, line ${MANY.format(line)}, column ${MANY.format(column)}`),
    make("p", { class: "rule" }, coded(faults[name] ?? "This page does not know the fault.")),
  ];
}

/** The place of a fault: the lines around it, in which it is marked. */
export function placeOf({ offset }, lines) {
  const others = "This fault may hide others: fix it, and check again.";
  return [sourceLines(lines), make("p", { class: "soft" }, `The place is byte ${MANY.format(offset)}, counted from 0. ${others}`)];
}

function accepted({ counts }) {
  const there = Object.entries(counts).filter(([, count]) => count > 0).map(([name, count]) => counted(count, NOUNS[name]));
  return [
    make("p", { class: "verdict good" }, "Accepted: the document keeps the rules."),
    there.length > 0 ? make("p", {}, `It has ${there.join(", ")}.`) : "",
  ];
}

function notJudged(verdict) {
  if (verdict.kind === "unreadable") return "The browser cannot read this file. It may have been moved or changed since, or be no file.";
  return verdict.kind === "too long" ? "The document is longer than 4,194,304 bytes, which tml does not take." : sentence(verdict.why);
}
