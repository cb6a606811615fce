// Sentences about the intervals, points and links of a document. A sentence is a list of parts: plain texts of this page; `said`, which
// is a text of the document; `code`, a name or a value in it; and `link`, the number of a link with what it is called.
import { cut } from "./source.mjs";

const LONGEST_NAME = 200; // characters of a name, which may be in thousands of sentences

/** A text of the document. */
export const said = (text) => ({ said: text });

/** A name or a value in a document. */
export const code = (text) => ({ code: text });

/** The name of an interval. */
const named = (name) => code(cut(name.slice(0, 4 * LONGEST_NAME), LONGEST_NAME));

/** What is said of one document by what tml prints for `check` and `dates`. */
export class Wording {
  #orders;
  #dates;
  #numbers;

  /** Of a source, the text of its dates, and the orders of each relation. */
  constructor(source, dates, orders) {
    this.source = source;
    this.#orders = orders;
    this.#dates = new Map(datesOf(dates).map((date) => [date.name, date]));
    this.#numbers = new Map(source.intervals.map((name, number) => [name, number]));
  }

  get names() {
    return this.source.intervals;
  }

  /** The dates in their order. */
  get dates() {
    return [...this.#dates.values()];
  }

  /** The text of an interval, or its name. */
  short(name) {
    const text = this.source.textOf(name);
    return text ? said(text) : named(name);
  }

  /** An interval by its text and its name. */
  interval(name) {
    const text = this.source.textOf(name);
    return text ? [said(text), " (", named(name), ")"] : [named(name)];
  }

  /** The start or the end of an interval, by its number: even for a start, and odd for an end. */
  point(point) {
    return [`the ${point % 2 ? "end" : "start"} of `, ...this.interval(this.names[point >> 1])];
  }

  /** A link in words, with its name and those of its intervals. */
  link(number) {
    const { left, relation, right } = this.source.links[number];
    const names = [{ link: number, called: this.source.called(number) }, ": ", named(left), ` ${relation} `, named(right)];
    return [this.short(left), ` ${relation} `, this.short(right), " (", ...names, ")"];
  }

  /** A relation between two intervals. */
  related(first, relation, second) {
    return [...this.interval(first), ` ${relation} `, ...this.interval(second)];
  }

  /** The orders of a relation between two intervals: from which point to which, and whether the one is before the other. */
  ordersOf(relation, first, second) {
    const numbers = { A: 2 * this.#numbers.get(first), B: 2 * this.#numbers.get(second) };
    const pointOf = (text) => numbers[text[0]] + Number(text[1]);
    return this.#orders[relation].map((order) => ({ from: pointOf(order), to: pointOf(order.slice(3)), isStrict: order[2] === "<" }));
  }

  /** Whether a relation holds between the ends of two intervals. */
  holds(relation, first, second) {
    const value = (text) => (text[0] === "A" ? first : second)[Number(text[1])];
    return this.#orders[relation].every((order) =>
      order[2] === "<" ? value(order) < value(order.slice(3)) : value(order) <= value(order.slice(3)),
    );
  }

  /** An order of two points. */
  order({ from, to, isStrict }) {
    return [...this.point(from), isStrict ? " is before " : " is not after ", ...this.point(to)];
  }

  /** A step of a walk, with its reason. */
  step({ kind, first, second }) {
    const span = { from: 2 * first, to: 2 * first + 1, isStrict: true };
    if (kind === "span") return [...this.order(span), ", since an interval starts before it ends"];
    if (kind === "calendar") return this.#calendar(first, second);
    const { left, relation, right } = this.source.links[first];
    return [...this.order(this.ordersOf(relation, left, right)[second]), ", since ", ...this.link(first)];
  }

  /** A step by the calendar: what it says of both points. */
  #calendar(from, to) {
    const [upper, lower] = [this.#bound(from), this.#bound(to)];
    const reason = [", since by the calendar ", ...this.#lies(from, "no later than"), " and ", ...this.#lies(to, "no earlier than")];
    return [...this.order({ from, to, isStrict: BigInt(upper.number) < BigInt(lower.number) }), ...reason];
  }

  /** What the calendar says of a point: a number, and its text. */
  #bound(point) {
    const date = this.#dates.get(this.names[point >> 1]);
    return point % 2 ? { number: date.high, text: date.to, kind: date.kind } : { number: date.low, text: date.from, kind: date.kind };
  }

  #lies(point, bound) {
    const { text, kind } = this.#bound(point);
    const name = this.names[point >> 1];
    return [this.short(name), point % 2 ? " ends" : " starts", kind === "exact" ? " at " : ` ${bound} `, code(text)];
  }

  /** A line of a cycle of seconds, which says how far one moment is from another one. */
  second(step) {
    const name = this.names[step.kind === "lower" || step.kind === "upper" ? step.first >> 1 : step.first];
    if (step.kind === "via") return this.#secondOfLink(step);
    if (step.kind === "span") return [...this.interval(name), " starts at least one second before it ends"];
    if (step.kind === "least" || step.kind === "most") return this.#secondOfLength(step.kind, name);
    const bound = step.kind === "lower" ? " is no earlier than " : " is no later than ";
    return [...this.point(step.first), bound, code(this.#bound(step.first).text), ", by the calendar"];
  }

  #secondOfLink({ first, second }) {
    const { left, relation, right } = this.source.links[first];
    const { from, to, isStrict } = this.ordersOf(relation, left, right)[second];
    const order = isStrict ? " is at least one second before " : " is not after ";
    return [...this.point(from), order, ...this.point(to), ", since ", ...this.link(first)];
  }

  #secondOfLength(kind, name) {
    const tag = this.source.tagOf(name);
    const modifier = this.source.value(tag, "mod");
    const value = ["its value ", code(this.source.value(tag, "value")), ...(modifier ? [" with ", code(modifier)] : [])];
    return [...this.interval(name), kind === "least" ? " lasts no shorter than " : " lasts no longer than ", ...value, " says"];
  }
}

/** The lines of `dates`: of each time its name, how the calendar knows it, and its bounds as numbers and as dates. */
function datesOf(text) {
  return text.split("\n").filter(Boolean).map((line) => {
    const [name, kind, low, high, from, to] = line.split(" ");
    return { name, kind, low, high, from, to };
  });
}
