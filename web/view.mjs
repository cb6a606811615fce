// Blocks of an answer as elements of the page.
import { button, drawn, foreign, make, shown } from "./elements.mjs";
import { pictureOf } from "./picture.mjs";

const MOST_AT_ONCE = 200; // items of a list before somebody wants more

/** A sentence as elements. */
export function sentence(parts) {
  return parts.map((part) => {
    if (typeof part === "string") return part;
    if ("said" in part) return foreign(part.said, { class: "said" });
    if ("code" in part) return make("code", {}, foreign(part.code));
    return make("b", { class: "lid" }, foreign(part.called));
  });
}

/** A block as an element. */
export function block(one) {
  return BLOCKS[one.kind](one);
}

const BLOCKS = {
  text: ({ parts }) => make("p", {}, sentence(parts)),
  heading: ({ parts }) => make("h4", {}, sentence(parts)),
  list: ({ items, left, id }) => listed(make("ul", { id }), items, left),
  steps: ({ items, left }) => listed(make("ol"), items, left),
  details: ({ summary, blocks }) => make("details", {}, make("summary", {}, summary), blocks.map(block)),
  table: ({ caption, head, rows }) => tabled(caption, head, rows),
  prose: ({ runs }) => make("p", { class: "prose", dir: "auto" }, runs.map(run)),
  source: ({ lines }) => sourceLines(lines),
  picture: ({ model, fillings, words }) => pictured(model, fillings, words),
};

/** The lines of a source, in which a stretch is marked. */
export function sourceLines(lines) {
  const source = make("div", { class: "source", tabindex: 0, role: "region", "aria-label": "Lines of the source" });
  return make("div", {}, source, growing(source, lines.map((line) => () => sourceLine(line))));
}

function sourceLine({ line, before, marked, after, isMarked }) {
  const mark = isMarked ? make("mark", {}, shown(marked) || make("span", { class: "nothing" }, "the end")) : null;
  return make("div", {}, make("span", { class: "number" }, `${line}`), make("bdi", { dir: "ltr" }, shown(before), mark, shown(after)));
}

/** A stretch of the text of a document, marked if something is to be said of it. */
function run({ text, note, isGap }) {
  if (isGap) return " … ";
  if (!note) return shown(text, true);
  const called = note.map(({ called: name }) => name).join(" ");
  return make("mark", {}, foreign(text), make("small", {}, ` ${called}`));
}

function listed(list, items, left) {
  const more = left > 0 ? make("p", {}, `And ${left.toLocaleString("en")} more, which this page does not list.`) : null;
  return make("div", {}, list, growing(list, items.map((parts) => () => make("li", {}, sentence(parts)))), more);
}

/** The picture of a timeline, drawn anew if the page gets broader or narrower. A list with an id has the same in words. */
function pictured(model, fillings, words) {
  const wide = make("div", { class: "picture", tabindex: 0, role: "region", "aria-label": "Picture of the timeline" });
  let drawnFor = 0;
  new ResizeObserver(() => {
    if (wide.clientWidth === drawnFor) return;
    drawnFor = wide.clientWidth;
    const picture = drawn(pictureOf(model, drawnFor / 2, fillings));
    picture.setAttribute("aria-label", `Timeline of ${model.rows.length} intervals`);
    picture.setAttribute("aria-describedby", words);
    wide.replaceChildren(picture);
  }).observe(wide);
  return wide;
}

function tabled(caption, head, rows) {
  const body = make("tbody");
  const headings = make("tr", {}, head.map((name) => make("th", { scope: "col" }, name)));
  const all = make("table", {}, make("caption", {}, caption), make("thead", {}, headings), body);
  const wide = make("div", { class: "wide", tabindex: 0, role: "region", "aria-label": caption }, all);
  const row = (cells) => make("tr", {}, cells.map((parts) => make("td", {}, sentence(parts))));
  return make("div", {}, wide, growing(body, rows.map((cells) => () => row(cells))));
}

/** Gives an element some children; if there are many, only the first ones, and answers a button for the others. */
function growing(parent, children) {
  parent.append(...children.slice(0, MOST_AT_ONCE).map((child) => child()));
  if (children.length <= MOST_AT_ONCE) return null;
  const more = button(`Show all ${children.length}`, () => {
    parent.append(...children.slice(MOST_AT_ONCE).map((child) => child()));
    more.remove();
  });
  return more;
}
