// What is so in every timeline that fits a document, by what `tml matrix` prints: the model of its picture, as docs/QUESTIONS.md has it.
// The start and the end of an interval are points: of interval i they are 2i and 2i + 1. A set of points is a number without limit, in
// which the bit of each of its points is set.

const PIECE = 1 << 20; // bytes of a matrix that are decoded at once: there may be 64 MiB of them
const PAIRS = [[0, 0], [0, 1], [1, 0], [1, 1]];
/** The points of one interval and of another one, in the order of their signs: a start is 0, and an end is 1. */

const UNKNOWN = ["<=>", "<>"]; // signs that put no point first
const VERBS = { "<": " is before ", "≤": " is never after ", "=": " is " };
const bits = [];

/** The set of one point. */
function bit(point) {
  while (bits.length <= point) bits.push(1n << BigInt(bits.length));
  return bits[point];
}

/** The set of some points. */
function setOf(points) {
  return points.reduce((found, point) => found | bit(point), 0n);
}

/** The points of a set, in their order. */
function members(set) {
  const found = [];
  for (let [rest, from] = [set, 0]; rest > 0n; [rest, from] = [rest >> 32n, from + 32]) {
    for (let word = Number(BigInt.asUintN(32, rest)); word > 0; word = (word & (word - 1)) >>> 0) {
      found.push(from + 31 - Math.clz32(word & -word));
    }
  }
  return found;
}

/** The lines of a text, which is decoded piece by piece. */
function* linesOf(bytes) {
  const decoder = new TextDecoder("utf-8", { ignoreBOM: true });
  let rest = "";
  for (let at = 0; at < bytes.length; at += PIECE) {
    const lines = (rest + decoder.decode(bytes.subarray(at, at + PIECE), { stream: true })).split("\n");
    rest = lines.pop();
    yield* lines;
  }
}

/** The orders of two points that hold in each of some base relations: the pair, and which signs are possible. */
function ordersIn(relations, signs) {
  const possible = PAIRS.map((_, place) => [...new Set(relations.map((relation) => signs[relation][place]))].sort().join(""));
  return PAIRS.map(([one, other], place) => [one, other, possible[place]]).filter(([, , some]) => !UNKNOWN.includes(some));
}

/** Of each point the sets of those that are never before it, always after it, never after it, and always before it. */
class PointOrders {
  #classes = [];

  /** By the names of the intervals, the lines of `tml matrix` in bytes, and the signs of each base relation. */
  constructor(names, matrix, signs) {
    const own = names.flatMap((_, interval) => [bit(2 * interval), bit(2 * interval + 1)]);
    [this.notBefore, this.notAfter] = [[...own], [...own]];
    [this.after, this.before] = [own.map(() => 0n), own.map(() => 0n)];
    this.points = own.map((_, point) => point);
    names.forEach((_, interval) => this.#note(2 * interval, 2 * interval + 1, "<"));
    this.#read(names, linesOf(matrix), signs);
  }

  /** Takes the lines, of which there is one for each two intervals, in order. Few of them end differently. */
  #read(names, lines, signs) {
    const known = new Map();
    for (const [left, name] of names.entries()) {
      for (let right = left + 1; right < names.length; right++) {
        const [line, head] = [lines.next().value ?? "", `${name} ${names[right]} `];
        if (!line.startsWith(head)) throw new Error("the answers of tml to check and matrix do not belong together");
        const relations = line.slice(head.length);
        if (!known.has(relations)) known.set(relations, ordersIn(relations.split(" "), signs));
        for (const [one, other, possible] of known.get(relations)) this.#note(2 * left + one, 2 * right + other, possible);
      }
    }
  }

  /** Notes which signs are possible between two points. */
  #note(first, second, possible) {
    if (!possible.includes(">")) this.#add(this.notBefore, this.notAfter, first, second);
    if (!possible.includes("<")) this.#add(this.notBefore, this.notAfter, second, first);
    if (possible === "<") this.#add(this.after, this.before, first, second);
    if (possible === ">") this.#add(this.after, this.before, second, first);
  }

  /** Adds a second point to what comes after a first one, and the first to what comes before the second. */
  #add(after, before, first, second) {
    after[first] |= bit(second);
    before[second] |= bit(first);
  }

  /** The points that are at one place with a point in every timeline, itself among them. */
  together(point) {
    return this.notBefore[point] & this.notAfter[point];
  }

  /** The same points, in their order. */
  classOf(point) {
    this.#classes[point] ??= members(this.together(point));
    return this.#classes[point];
  }

  /** The points of which it is known how they are to a point. */
  placed(point) {
    return this.after[point] | this.before[point] | this.together(point);
  }

  /** The points that are never before a point, or never after it. */
  ordered(point) {
    return this.notBefore[point] | this.notAfter[point];
  }

  /** Of all points that are together the first. */
  firstOnes() {
    return setOf(this.points.filter((point) => (this.together(point) & (bit(point) - 1n)) === 0n));
  }

  /** The points, each after those that are always before it. */
  inOrder(points) {
    const counts = new Map(points.map((point) => [point, members(this.before[point]).length]));
    return [...points].sort((one, other) => counts.get(one) - counts.get(other) || one - other);
  }

  /** The rank of each point in the timeline with the least ranks: how many points have to be before it, one before the other. */
  ranks() {
    const found = [];
    for (const point of this.inOrder(this.points)) {
      found[point] = members(this.before[point]).reduce((most, other) => Math.max(most, found[other] + 1), 0);
    }
    return found;
  }
}

/** A point for each place of the axis: a longest row of points, each before the next one, that has those of some dates. */
function axisOf(orders, dates) {
  const others = setOf(orders.points) & ~setOf(dates);
  const isTied = dates.some((point) => (orders.ordered(point) & others) !== 0n);
  const allowed = isTied ? dates.reduce((left, point) => left & orders.placed(point), orders.firstOnes()) : orders.firstOnes();
  // Of each length of a row the points with which the longest row that ends there is so long.
  const ends = [];
  for (const point of orders.inOrder(members(allowed))) {
    const length = ends.findLastIndex((some) => (orders.before[point] & some) !== 0n) + 1;
    ends[length] = (ends[length] ?? 0n) | bit(point);
  }
  const row = [];
  for (const some of ends.reverse()) row.unshift(bestOf(orders, row.length > 0 ? some & orders.before[row[0]] : some));
  return isAlone(orders, row) ? dates : row;
}

/** The point of a set of which most is known, and the first of these. */
function bestOf(orders, set) {
  const known = members(set).map((point) => [point, members(orders.placed(point)).length, members(orders.ordered(point)).length]);
  known.sort(([one, placed, ordered], [other, more, others]) => more - placed || others - ordered || one - other);
  return known[0][0];
}

/** Whether the points of a row are of one interval, and no other interval is ordered with them. */
function isAlone(orders, row) {
  const own = setOf(row.slice(0, 1).flatMap((point) => [point, point ^ 1]));
  return row.every((point) => (orders.ordered(point) & ~own) === 0n);
}

/** A bound of a point, by the points that are never after it (or that it is never after), and those of them that are never at it. */
function boundOf(weak, strict, places, isLower) {
  const [count, apart] = [members(weak & places).length, members(strict & places).length];
  if (count === 0) return null;
  return { place: isLower ? count - 1 : members(places).length - count, strict: count === apart };
}

/** The orders that neither the axis nor other orders say. */
function ordersBeyond(orders, axis) {
  const [firstOnes, onAxis] = [orders.firstOnes(), axis.reduce((found, point) => found | orders.together(point), 0n)];
  return members(firstOnes & ~onAxis).flatMap((point) => {
    const together = orders.classOf(point);
    const [before, neverAfter] = nextOnes(orders, point, firstOnes).map((set) => members(set & ~onAxis));
    return [
      ...together.slice(1).map((other, index) => equal(together[index], other)),
      ...before.filter((other) => !isOfOneInterval(orders, point, other)).map((other) => between(orders, point, "<", other)),
      ...neverAfter.map((other) => between(orders, point, "≤", other)),
    ];
  });
}

/** That two points are together: one that is an end comes first. */
function equal(one, other) {
  return one % 2 < other % 2 ? { first: other, sign: "=", second: one } : { first: one, sign: "=", second: other };
}

/** The points that a point is before, and those that it is never after, without those of which other points between say so. */
function nextOnes(orders, point, firstOnes) {
  const after = members(orders.after[point] & firstOnes);
  const weak = orders.notBefore[point] & firstOnes & ~orders.after[point] & ~orders.together(point);
  const later = (other) => orders.notBefore[other] & ~orders.together(other);
  const direct = after.reduce((left, other) => left & ~later(other), setOf(after));
  return [
    members(weak).reduce((left, other) => left & ~orders.after[other], direct),
    members(weak).reduce((left, other) => left & ~later(other), weak),
  ];
}

/** Whether an interval starts at the one point and ends at the other. */
function isOfOneInterval(orders, first, second) {
  const ends = orders.together(second);
  return orders.classOf(first).some((point) => point % 2 === 0 && (ends & bit(point + 1)) !== 0n);
}

/** An order between two of the points that are together with these: best of an end and a start, then of two starts or two ends. */
function between(orders, first, sign, second) {
  const [ones, others] = [orders.classOf(first), orders.classOf(second)];
  const [end, start] = [ones.find((one) => one % 2 === 1), others.find((other) => other % 2 === 0)];
  return { first: end ?? ones[0], sign, second: start ?? others[0] };
}

/** What is known of a document: the points of each place of the axis, of each point its bounds, what is listed, and the other orders. */
function knownOf(orders, exact) {
  const axis = axisOf(orders, exact.flatMap((interval) => [2 * interval, 2 * interval + 1]));
  const places = setOf(axis);
  const lower = orders.points.map((point) => boundOf(orders.notAfter[point], orders.before[point], places, true));
  const upper = orders.points.map((point) => boundOf(orders.notBefore[point], orders.after[point], places, false));
  const starts = orders.points.filter((point) => point % 2 === 0);
  const listed = starts.filter((start) => ![lower, upper].some((bounds) => bounds[start] || bounds[start + 1])).map((start) => start / 2);
  return { axis: axis.map((point) => orders.classOf(point)), lower, upper, listed, orders: ordersBeyond(orders, axis) };
}

/** The intervals in the order of their rows: by the least timeline; last those that are listed, by where they are in the text. */
function rowsOf(orders, { listed }, places) {
  const [ranks, last] = [orders.ranks(), new Set(listed)];
  const keys = places.map((place, number) =>
    last.has(number) ? [1, place, 0, number] : [0, ranks[2 * number], -ranks[2 * number + 1], number],
  );
  const compared = (one, other) => one.map((key, index) => key - other[index]).find((difference) => difference !== 0) ?? 0;
  return keys.sort(compared).map((key) => key[3]);
}

/**
 * The bar of an interval: from which bound to which it may reach, from which to which it is solid, and if it is not, at which it has begun
 * or has not ended, unless that is clear from where it ends or begins. A bound is null if there is none.
 */
function barOf({ lower, upper }, interval) {
  const [from, begun, notEnded, to] = [lower[2 * interval], upper[2 * interval], lower[2 * interval + 1], upper[2 * interval + 1]];
  if (begun && notEnded && begun.place <= notEnded.place) return { from, to, solid: [begun, notEnded], begun: null, notEnded: null };
  return {
    from,
    to,
    solid: null,
    begun: begun && (to === null || begun.place < to.place) ? begun : null,
    notEnded: notEnded && (from === null || notEnded.place > from.place) ? notEnded : null,
  };
}

/** Sentences about what is known, in the words of a document. */
class TimelineWords {
  #known;
  #wording;
  #places;

  /** By what is known, the words, and the exact dates, by which places are called. */
  constructor(known, wording, exact) {
    [this.#known, this.#wording] = [known, wording];
    const dates = new Set(exact);
    const parted = (points) => [points.filter((point) => dates.has(point >> 1)), points.filter((point) => !dates.has(point >> 1))].flat();
    this.#places = known.axis.map(parted);
  }

  /** A place of the axis: by a date if there is one, and not by some interval if there is another one. */
  #place(place, besides) {
    const points = this.#places[place];
    return this.#wording.point(points.find((point) => point >> 1 !== besides) ?? points[0]);
  }

  /** Each of the places, from the first to the last. */
  places() {
    return this.#places.map(([point]) => this.#wording.point(point));
  }

  /** What is said of each interval: when it starts and ends, and in which orders it is besides. */
  said() {
    const found = this.#wording.names.map((_, interval) => [
      ...this.#bounded(2 * interval, "starts"),
      ...this.#bounded(2 * interval + 1, "ends"),
    ]);
    for (const order of this.#known.orders) {
      for (const interval of new Set([order.first >> 1, order.second >> 1])) found[interval].push(this.#order(order));
    }
    return found;
  }

  #order({ first, sign, second }) {
    return [...this.#wording.point(first), VERBS[sign], ...this.#wording.point(second)];
  }

  /** Between which places a point is, or at which; nothing if there are none. */
  #bounded(point, verb) {
    const begun = ([how], index) => `${index > 0 ? " and" : verb} ${how} `;
    const found = this.#around(point).flatMap((one, index) => [begun(one, index), ...this.#place(one[1], point >> 1)]);
    return found.length > 0 ? [found] : [];
  }

  /** The places that say when a point is, and how. */
  #around(point) {
    const { axis, lower, upper } = this.#known;
    const isOwn = lower[point] !== null && lower[point].place === upper[point]?.place && lower[point].strict === upper[point].strict;
    const own = isOwn ? lower[point].place : null;
    if (isOwn && axis[own].length > 1) return [["at", own]];
    const [from, to] = isOwn ? [{ place: own - 1, strict: true }, { place: own + 1, strict: true }] : [lower[point], upper[point]];
    const isElsewhere = (bound) => bound && axis[bound.place] && !(axis[bound.place].length === 1 && axis[bound.place][0] === (point ^ 1));
    return [
      ...(isElsewhere(from) ? [[from.strict ? "after" : "not before", from.place]] : []),
      ...(isElsewhere(to) ? [[to.strict ? "before" : "not after", to.place]] : []),
    ];
  }
}

/**
 * The model of the picture of a document, by its words, what `tml matrix` prints of it in bytes, and the signs of base relations: the
 * points of each place of the axis, and these places in words; the rows with bars, and those without a bound; and the lines between bars.
 */
export function modelOf(wording, matrix, signs) {
  const { names, source } = wording;
  const kinds = new Map(wording.dates.map(({ name, kind }) => [name, kind]));
  const exact = names.flatMap((name, interval) => (kinds.get(name) === "exact" ? [interval] : []));
  const orders = new PointOrders(names, matrix, signs);
  const known = knownOf(orders, exact);
  const [words, listed] = [new TimelineWords(known, wording, exact), new Set(known.listed)];
  const said = words.said();
  const rows = rowsOf(orders, known, names.map((name) => source.tagOf(name)?.start ?? 0)).map((interval) => {
    const [name, bar] = [names[interval], listed.has(interval) ? null : barOf(known, interval)];
    const kind = kinds.get(name) ?? (source.isAsserted(name) ? "event" : "unasserted");
    return { interval, name, text: source.textOf(name), kind, bar, said: said[interval] };
  });
  return {
    names,
    axis: known.axis,
    places: words.places(),
    rows: rows.filter(({ bar }) => bar !== null),
    listed: rows.filter(({ bar }) => bar === null),
    lines: known.orders.filter(({ first, second }) => !listed.has(first >> 1) && !listed.has(second >> 1)),
  };
}
