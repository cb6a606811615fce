"""The scripts of the pages of a report. They put texts in by `textContent` alone, and the pages can be read without them."""

from __future__ import annotations

from .arcs_script import ARCS
from .stops_script import PARTS, STOPS

INDEX_TEXT = """
"use strict";
const table = document.getElementById("documents");
const body = table.tBodies[0];
const rows = Array.from(body.rows);
const heads = Array.from(table.tHead.rows[0].cells);
const order = new Map(rows.map((row, place) => [row, place]));
const words = new Map(rows.map((row) => [row, [...row.cells].slice(0, 3).map((cell) => cell.textContent).join(" ") + " " + row.dataset.kinds]));
const collator = new Intl.Collator(undefined, { numeric: true });
const sortBy = (head, column) => {
  const isNumber = head.dataset.kind === "number";
  const before = head.getAttribute("aria-sort");
  const turn = before === null ? isNumber : before === "ascending";
  heads.forEach((one) => one.removeAttribute("aria-sort"));
  head.setAttribute("aria-sort", turn ? "descending" : "ascending");
  const valueOf = (text) => isNumber ? text.replaceAll(",", "") : text;
  const values = new Map(rows.map((row) => [row, valueOf(row.cells[column].textContent)]));
  rows.sort((first, second) => {
    const [one, other] = [values.get(first), values.get(second)];
    if (!one !== !other) return one ? -1 : 1;
    return (turn ? -1 : 1) * collator.compare(one, other) || order.get(first) - order.get(second);
  });
  body.append(...rows);
  toFirstName();
};
@STOPS@
heads.forEach((head, column) => {
  const button = document.createElement("button");
  button.type = "button";
  button.textContent = head.textContent;
  button.addEventListener("click", () => sortBy(head, column));
  head.replaceChildren(button);
});
together(heads.map((head) => head.querySelector("button")));
const nameOf = (row) => row.cells[0].querySelector("a");
const toFirstName = together(rows.map(nameOf).filter(Boolean), () => rows.filter((row) => !row.hidden).map(nameOf).filter(Boolean));
const field = document.createElement("input");
const found = document.createElement("output");
const look = () => {
  const wanted = field.value.toLowerCase().split(" ").filter((word) => word !== "");
  let count = 0;
  rows.forEach((row) => {
    const text = words.get(row).toLowerCase();
    row.hidden = !wanted.every((word) => text.includes(word));
    count += !row.hidden;
  });
  found.textContent = ` ${count.toLocaleString("en")} of ${rows.length.toLocaleString("en")}`;
  toFirstName();
};
field.type = "search";
field.placeholder = "Search names, verdicts, faults, warnings";
field.setAttribute("aria-label", field.placeholder);
field.addEventListener("input", look);
found.setAttribute("role", "status");
document.getElementById("search").append(field, found);
document.querySelectorAll("[data-search]").forEach((head) => {
  const button = document.createElement("button");
  button.type = "button";
  button.append(...head.childNodes);
  button.addEventListener("click", () => {
    field.value = head.dataset.search;
    look();
    field.focus();
  });
  head.replaceChildren(button);
});
document.querySelectorAll(".totals table").forEach((one) => together(Array.from(one.querySelectorAll("button"))));
look();
"""
INDEX_SCRIPT = INDEX_TEXT.replace("@STOPS@", STOPS)

DOCUMENT_TEXT = """
"use strict";
@PARTS@
const text = document.querySelector(".text");
const links = Array.from(document.querySelectorAll(".links li"));
const steps = Array.from(document.querySelectorAll(".walk li"));
const linksOf = (word) => word ? links.filter((link) => [link.dataset.left, link.dataset.right].includes(word.id)) : [];
const barsOf = (word) => (word && word.dataset.bars ? word.dataset.bars.split(" ").map((place) => rows[Number(place)]) : []);
const panel = document.createElement("div");
const drawn = new Set();
let pinned = null;

const light = (word, name) => { mark(word, name); barsOf(word).forEach((bar) => mark(bar, name)); };
const sentence = (link) => [...link.childNodes].filter((part) => part.nodeName !== "BUTTON").map((part) => part.textContent).join("").trim();
const named = (word) => {
  const words = [...word.childNodes].filter((part) => part.className !== "name").map((part) => part.textContent);
  return `${words.join("")} (${word.dataset.intervals})`;
};
const tell = (word, only) => {
  const shown = only ? [only] : barsOf(word);
  const known = shown.flatMap((bar) => texts[rows.indexOf(bar)].slice(0, -Number(bar.dataset.links)));
  const told = linksOf(word).map(sentence);
  panel.replaceChildren(...[...(known.length ? known : [named(word)]), ...told].map((words) => line(words)));
};
const show = (word, bar) => {
  clear();
  if (word) light(word, "on");
  if (bar) mark(bar, "on");
  linksOf(word).forEach((link) => {
    [link.dataset.left, link.dataset.right].filter((name) => name !== word.id).forEach((name) => light(byId(name), "near"));
  });
  if (word) tell(word, bar);
};
const keep = (word, bar) => {
  pinned = pinned === word ? null : word;
  show(word, bar);
  draw();
};
const near = (one) => { if (one) one.scrollIntoView({ block: "nearest", inline: "nearest" }); };

const both = (word, bar, one, other) => {
  one.addEventListener("pointerenter", () => { onlyOf(word); if (pinned === null) show(word, bar); });
  one.addEventListener("pointerleave", () => only(null));
  one.addEventListener("focus", () => { if (pinned === null) show(word, bar); });
  one.addEventListener("click", (event) => {
    event.preventDefault();
    event.stopPropagation();
    keep(word, bar);
    near(other());
  });
};
@STOPS@
const words = Array.from(document.querySelectorAll(".text .mark[data-intervals]")).filter((word) => word.dataset.intervals !== "");
words.forEach((word) => both(word, null, word, () => barsOf(word)[0]));
together(words);
together(rows);
rows.forEach((bar) => parts.get(bar.dataset.interval).forEach((part) => {
  const word = byId(bar.dataset.word);
  both(word, bar, part, () => word);
}));
document.addEventListener("keydown", (event) => {
  if (event.key !== "Escape") return;
  pinned = null;
  clear();
  draw();
  panel.replaceChildren();
});

@ARCS@
const draw = () => {
  drawArcs([...new Set([...drawn, ...linksOf(pinned)])].filter((link) => byId(link.dataset.left) && byId(link.dataset.right)));
};
const button = (words, action) => {
  const made = document.createElement("button");
  made.type = "button";
  made.textContent = words;
  made.addEventListener("click", () => action(made));
  return made;
};
const turn = (link, isDrawn) => {
  if (isDrawn) drawn.add(link); else drawn.delete(link);
  const made = link.querySelector("button");
  made.textContent = isDrawn ? "hide" : "draw";
  made.setAttribute("aria-pressed", String(isDrawn));
};
const addTools = (list, ...buttons) => {
  const made = document.createElement("p");
  made.className = "tools";
  made.append(...buttons);
  list.before(made);
};
const turnAll = (isDrawn) => {
  if (!isDrawn) drawn.clear();
  links.forEach((link) => turn(link, isDrawn));
  draw();
};
if (text) {
  text.append(arcs);
  panel.id = "panel";
  panel.setAttribute("role", "status");
  document.body.append(panel);
  new ResizeObserver(draw).observe(text);
  links.forEach((link) => link.append(button("draw", () => { turn(link, !drawn.has(link)); draw(); })));
  const list = document.querySelector(".links");
  if (list) addTools(list, button("Draw all links", () => turnAll(true)), button("Draw none", () => turnAll(false)));
  together(links.map((link) => link.querySelector("button")));
  together(Array.from(document.querySelectorAll(".links a")));
}
const goTo = (walk, step) => {
  pinned = null;
  clear();
  walk.forEach((one) => drawn.delete(one));
  if (step.dataset.left !== step.dataset.right) drawn.add(step);
  draw();
  mark(step, "on");
  [step.dataset.left, step.dataset.right].forEach((name) => light(byId(name), "on"));
  panel.replaceChildren(line(sentence(step)));
  near(byId(step.dataset.left));
};
document.querySelectorAll(".walk").forEach((list) => {
  const walk = steps.filter((step) => step.parentNode === list);
  let at = -1;
  const move = (by) => { at = (at + by + walk.length) % walk.length; goTo(walk, walk[at]); };
  addTools(list, button("Next step", () => move(1)), button("Previous step", () => move(at < 0 ? 0 : -1)));
  walk.forEach((step, place) => step.append(button("show", () => { at = place; goTo(walk, step); })));
  together(walk.map((step) => step.querySelector("button")));
});
"""
DOCUMENT_SCRIPT = DOCUMENT_TEXT.replace("@PARTS@", PARTS).replace("@STOPS@", STOPS).replace("@ARCS@", ARCS)
