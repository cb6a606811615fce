// The picture of a timeline, in parts of SVG: bars in lanes, upright lines for the places of the axis, and lines between bars for
// the orders that they do not say. A part has a name, attributes, and inner parts or texts. Lengths are in units of two pixels.
import { apart, shown } from "./elements.mjs";

const [EDGE, TOP, BAR, LABEL, PITCH, FOOT] = [3, 4, 8, 6.5, 20, 4];
/** What is free at the edges and above; how high bars and letters are; how far apart lanes are; and what is free below. */

const SHORT = 1.5; // how far a bar stops short of a strict bound, at most
const MARK = 3.5; // how long the mark is of what has begun or has not ended
const NARROWEST = 4; // between two places
const [BLACK, GREY, PALE] = ["#000000", "#595959", "#C8C8C8"];
const LINES = {
  "<": { class: "before", stroke: BLACK, "stroke-width": 0.6 },
  "≤": { class: "never-after", stroke: GREY, "stroke-width": 0.7, "stroke-dasharray": "1.6 1.2" },
  "=": { class: "together", stroke: GREY, "stroke-width": 1.7 },
};
/** Of each sign of an order its line. */

const KINDS = { event: "", unasserted: ", not asserted", exact: ", date", within: ", within a date", free: ", no date" };
/** What the label of a bar says of its kind. */

const RIM = { stroke: "#ffffff", "stroke-width": 2, "stroke-linejoin": "round", "paint-order": "stroke" };
/** The rim of letters, by which they can be read over lines. */

/** A part of a picture. */
const piece = (name, attributes, ...children) => ({ name, attributes, children });

/** The positions of the places in a width, and those to which bars without a bound reach. */
export function positionsOf({ axis, rows }, width) {
  const [before, after] = [rows.some(({ bar }) => bar.from === null), rows.some(({ bar }) => bar.to === null)].map(Number);
  const gaps = before + axis.length + after - 1;
  const broad = Math.max(width, 2 * EDGE + NARROWEST * gaps);
  const step = gaps > 0 ? (broad - 2 * EDGE) / gaps : 0;
  return { places: axis.map((_, place) => EDGE + step * (before + place)), left: EDGE, right: broad - EDGE };
}

/** How far bars stop short of strict bounds. */
function shortOf({ places, left, right }) {
  const edges = [left, ...places, right];
  const gaps = edges.slice(1).map((edge, index) => edge - edges[index]).filter((gap) => gap > 0.1);
  return Math.min(SHORT, ...gaps.map((gap) => gap / 4));
}

/** From where to where a bar may reach, whether it is open at its sides, from where to where it is solid, and where its marks are. */
export function extentOf(bar, positions) {
  const short = shortOf(positions);
  const at = (bound, inward) => positions.places[bound.place] + (bound.strict ? inward * short : 0);
  const outer = [bar.from ? at(bar.from, 1) : positions.left, bar.to ? at(bar.to, -1) : positions.right];
  const [begun, notEnded] = [bar.begun && at(bar.begun, -1), bar.notEnded && at(bar.notEnded, 1)];
  const isOpen = [bar.from === null, bar.to === null];
  if (bar.solid === null) return { outer, isOpen, solid: null, begun, notEnded };
  const [first, last] = bar.solid;
  const thin = first.place === last.place && !first.strict && !last.strict ? short / 4 : 0;
  return { outer, isOpen, solid: [at(first, -1) - thin, at(last, 1) + thin], begun, notEnded };
}

/** The picture of a model, at least so broad, with the fillings of the kinds of bars. */
export function pictureOf(model, width, fillings) {
  const positions = positionsOf(model, width);
  const broad = positions.right + EDGE;
  const laid = model.rows.map((row) => {
    const extent = extentOf(row.bar, positions);
    return { row, extent, label: labelOf(row, extent, broad) };
  });
  const lanes = lanesOf(laid, joinedAbove(model));
  const high = TOP + PITCH * (Math.max(...lanes) + 1) + FOOT;
  const drawn = laid.map((one, index) => ({ ...one, top: TOP + PITCH * lanes[index] + LABEL + 2 }));
  const bars = new Map(drawn.map((one) => [one.row.interval, one]));
  const nameOf = (point) => `${model.names[point >> 1]}${point % 2 ? "+" : "-"}`;
  return piece(
    "svg",
    { viewBox: `0 0 ${two(broad)} ${two(high)}`, width: two(2 * broad), height: two(2 * high), role: "img" },
    ...positions.places.map((x, place) => placeLine(x, high, model.axis[place].map(nameOf))),
    ...drawn.flatMap(({ row, extent, top }) => barParts(row, extent, top, fillings)),
    ...model.lines.map((order, number) => orderLine(order, number, bars)),
    ...drawn.map(({ label: { text, ...look }, top }) => piece("text", { ...look, y: two(top - 1.8), ...RIM }, text)),
  );
}

/** The upright line of a place, with the points that it has. */
function placeLine(x, high, points) {
  return upright({ class: "place", "data-point": points.join(" "), stroke: PALE, "stroke-width": 0.4 }, x, 0, high);
}

function upright(look, x, from, to) {
  return piece("path", { ...look, d: `M${two(x)} ${two(from)}L${two(x)} ${two(to)}` });
}

/** A bar: its outline, if it may last longer than it is known to, its solid part, and its marks. */
function barParts(row, extent, top, fillings) {
  const [{ outer, isOpen, solid, begun, notEnded }, { full, pale }] = [extent, fillings[row.kind]];
  const isExact = solid !== null && String(solid) === String(outer) && !isOpen.includes(true);
  const group = (part, ...children) => piece("g", { class: `${part} ${row.kind}`, "data-interval": row.name }, ...children);
  const sides = isOpen.map((is, index) => (is ? ` open-${["left", "right"][index]}` : "")).join("");
  const mark = (kind, x, from, to) => upright({ class: kind, stroke: BLACK, "stroke-width": 1.4 }, x, from, to);
  return [
    isExact ? null : group(`hollow${sides}`, rectangle(outer, top, { fill: pale }), frame(outer, isOpen, top)),
    solid && group("full", rectangle(solid, top, { fill: full, stroke: BLACK, "stroke-width": 0.5 })),
    begun === null ? null : mark("begun", begun, top, top + MARK),
    notEnded === null ? null : mark("not-ended", notEnded, top + BAR, top + BAR - MARK),
  ].filter(Boolean);
}

function rectangle([left, right], top, look) {
  return piece("rect", { x: two(left), y: two(top), width: two(right - left), height: BAR, ...look });
}

/** The frame of a bar without the sides at which it is open. */
function frame([left, right], [isLeftOpen, isRightOpen], top) {
  const [from, to, high, low] = [left, right, top, top + BAR].map(two);
  const way = `M${to} ${high}H${from}${isLeftOpen ? `M${from} ${low}` : `V${low}`}H${to}${isRightOpen ? "" : `V${high}`}`;
  return piece("path", { d: way, fill: "none", stroke: GREY, "stroke-width": 0.5 });
}

/** The line of an order between two bars, with a head if one point comes first. */
function orderLine({ first, sign, second }, number, bars) {
  const [one, other] = [bars.get(first >> 1), bars.get(second >> 1)];
  const isWhole = first % 2 === 1 && second % 2 === 0;
  const [from, to] = anchors(third(one, first, isWhole), third(other, second, isWhole), number);
  const isBelow = other.top > one.top;
  const [begin, end] = [one.top + (isBelow ? BAR : 0), other.top + (isBelow ? 0 : BAR)];
  const bend = Math.min(Math.abs(end - begin) * 0.6, 14) * (isBelow ? 1 : -1);
  const way = [[from, begin], [from, begin + bend], [to, end - bend], [to, end]].map(([x, y]) => `${two(x)} ${two(y)}`);
  const back = end - (isBelow ? 3.6 : -3.6);
  const head = `M${two(to)} ${two(end)}L${two(to - 1.5)} ${two(back)}L${two(to + 1.5)} ${two(back)}Z`;
  const line = piece("path", { d: `M${way[0]}C${way.slice(1).join(" ")}`, fill: "none", ...LINES[sign] });
  return piece("g", {}, line, ...(sign === "=" && !isWhole ? [] : [piece("path", { d: head, fill: LINES[sign].stroke })]));
}

/** Where a line may meet a bar: in the middle third for a whole interval, else in the third that is for the point. */
function third({ extent: { outer: [left, right] } }, point, isWhole) {
  const [broad, place] = [right - left, isWhole ? 1 : 2 * (point % 2)];
  return [left + (place * broad) / 3 + broad / 12, left + ((place + 1) * broad) / 3 - broad / 12];
}

/** Where a line meets two bars: at one position if it may, which differs for lines that follow each other; else as near as it may. */
function anchors(one, other, number) {
  const [left, right] = [Math.max(one[0], other[0]), Math.min(one[1], other[1])];
  const middle = (left + right) / 2 + Math.min(right - left, 24) * (((0.5 + number * 0.382) % 1) - 0.5);
  if (left <= right) return [middle, middle];
  return one[1] < other[0] ? [one[1], other[0]] : [one[0], other[1]];
}

/** Of each row those before it to which a line leads from it. */
function joinedAbove({ rows, lines }) {
  const places = new Map(rows.map(({ interval }, place) => [interval, place]));
  const above = rows.map(() => []);
  for (const { first, second } of lines) {
    const [one, other] = [places.get(first >> 1), places.get(second >> 1)];
    if (one !== other) above[Math.max(one, other)].push(Math.min(one, other));
  }
  return above;
}

/** The lane of each bar: no two bars or labels meet in a lane, and a bar is below those before it to which a line leads. */
function lanesOf(laid, above) {
  const [taken, lanes] = [[], []];
  laid.forEach(({ extent: { outer }, label }, place) => {
    const begin = label["text-anchor"] === "end" ? label.x - measured(label.text) : label.x;
    const [left, right] = [Math.min(outer[0], begin) - 1, Math.max(outer[1], begin + measured(label.text)) + 1];
    let lane = above[place].reduce((least, other) => Math.max(least, lanes[other] + 1), 0);
    while (taken[lane]?.some(([from, to]) => left < to && from < right)) lane++;
    (taken[lane] ??= []).push([left, right]);
    lanes.push(lane);
  });
  return lanes;
}

/** The label of a bar above it, from where it begins, or up to where it ends if that leaves more room. Texts are cut before names are. */
function labelOf({ text, name, kind }, { outer }, broad) {
  const isLate = outer[0] + outer[1] > broad;
  const [x, room] = isLate ? [outer[1], outer[1] - EDGE] : [outer[0], broad - EDGE - outer[0]];
  const look = { x: Number(two(x)), "font-size": LABEL, "text-anchor": isLate ? "end" : "start", fill: BLACK };
  const called = apart(fitted(shown(name), (text ? 0.5 : 0.9) * room));
  const tail = (text ? ` (${called})` : called) + KINDS[kind];
  const head = text ? apart(fitted(shown(text), room - measured(tail))) : "";
  return { ...look, text: head + tail };
}

/** About as much room as a label takes, if not less. */
function measured(text) {
  return LABEL * Array.from(text).reduce((sum, one) => sum + ("\u2068\u2069".includes(one) ? 0 : one > "\u08ff" ? 1.1 : 0.66), 0);
}

/** A text that is cut if it takes more room, but for its first character. */
function fitted(text, room) {
  if (measured(text) <= room) return text;
  let [left, cut] = [room - LABEL, ""];
  for (const one of text) {
    left -= measured(one);
    if (left < 0 && cut) break;
    cut += one;
  }
  return `${cut}…`;
}

/** A number with two decimals at most. */
function two(value) {
  return String(Math.round(100 * value) / 100);
}
