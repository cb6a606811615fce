"""The script of the page of a timeline. Words go in by `textContent` alone, and without it the page can be read too."""

from __future__ import annotations

from ..pages.stops_script import PARTS, STOPS

TEXT = """
"use strict";
@PARTS@
@STOPS@
const [panel, order, search] = ["links", "order", "search"].map(byId);
const [possible, links, inText] = ["possible", "ends", "intext"].map((name) => JSON.parse(byId(name).textContent));
const labels = texts.map(([heading]) => heading.replace(/: [^:]*$/, ""));
const seen = rows.map((row) => row.textContent.toLowerCase());
const bars = rows.map((row) => parts.get(row.dataset.interval).slice(1));
const linksOf = (place) => links.filter(([left, , right]) => left !== right ? [left, right].includes(place) : false);
let sequence = rows.map((row, place) => place);
let shown = null;
let pinned = null;
const arrow = part("marker", { id: "arrow", markerWidth: 7, markerHeight: 7, refX: 6, refY: 3, orient: "auto" });
arrow.append(part("path", { d: "M0 0L6 3L0 6z" }));
const over = part("g", { "aria-hidden": "true", "pointer-events": "none" });
const middle = (place) => {
  const box = bars[place].find(isShown).getBBox();
  return [box.x + box.width / 2, box.y + box.height / 2];
};
const curve = ([left, , right]) => {
  const [[x, y], [toX, toY]] = [middle(left), middle(right)];
  const bend = (y + toY) / 2;
  return part("path", { class: "link", d: `M${x} ${y}C${x} ${bend} ${toX} ${bend} ${toX} ${toY}`, "marker-end": "url(#arrow)" });
};
const named = (other, relations) => {
  const [x, y] = middle(other);
  const made = part("text", { class: "relation", x: x + 5, y: y + 2 });
  made.textContent = [...new Set(relations)].join(", ");
  return made;
};
const drawLinks = (place) => {
  const touching = linksOf(place).filter(([left, , right]) => [left, right].every((end) => bars[end].some(isShown)));
  const others = new Map(touching.map(([left, , right]) => [left === place ? right : left, []]));
  touching.forEach(([left, relation, right]) => others.get(left === place ? right : left).push(relation));
  over.replaceChildren(...touching.map(curve), ...[...others].map(([other, relations]) => named(other, relations)));
  [...document.querySelectorAll(".drawn > svg")].filter(isShown).forEach((one) => one.append(arrow, over));
};
const between = (place, other) => {
  const [first, second] = other > place ? [place, other] : [other, place];
  const relations = possible.sets[possible.rows[first][second - first - 1]];
  return first === place ? relations : relations.map((one) => possible.inverses[one]).sort((a, b) => a - b);
};
const standing = (place) => {
  const groups = new Map();
  rows.forEach((row, other) => {
    if (other === place) return;
    const relations = between(place, other);
    const group = groups.get(relations.join()) || { relations, others: [] };
    group.others.push(labels[other]);
    groups.set(relations.join(), group);
  });
  const sorted = [...groups.values()].sort((a, b) => a.relations.length - b.relations.length);
  return sorted.map(({ relations, others }) => {
    const all = relations.length === possible.names.length;
    return (all ? "any relation" : relations.map((one) => possible.names[one]).join(" or ")) + ": " + others.join(", ");
  });
};
const show = (place) => {
  if (shown === place) return;
  clear();
  shown = place;
  const others = standing(place).map((text) => line(text, "open"));
  panel.replaceChildren(...texts[place].map((text) => line(text)), line("What it can be to the others:", "open"), ...others);
  panel.scrollTop = 0;
  drawLinks(place);
  mark(rows[place], "on");
  linksOf(place).forEach(([left, , right]) => mark(rows[left === place ? right : left], "near"));
};
const pin = (place) => {
  pinned = pinned === place ? null : place;
  rows.forEach((one, other) => one.setAttribute("aria-pressed", String(other === pinned)));
  show(place);
};
const point = (place) => { if (pinned === null) show(place); };
together(rows, () => sequence.map((place) => rows[place]).filter(isShown));
rows.forEach((row, place) => {
  const said = { role: "button", "aria-label": texts[place][0], "aria-pressed": "false" };
  Object.entries(said).forEach(([key, value]) => row.setAttribute(key, value));
  bars[place].forEach((one) => one.setAttribute("aria-hidden", "true"));
  [row, ...bars[place]].forEach((one) => {
    one.addEventListener("pointermove", () => point(place));
    one.addEventListener("click", () => pin(place));
  });
  row.addEventListener("focus", () => point(place));
  row.addEventListener("keydown", (event) => {
    if (!["Enter", " "].includes(event.key)) return;
    event.preventDefault();
    pin(place);
  });
});
window.addEventListener("resize", () => { if (shown !== null) drawLinks(shown); });
order.addEventListener("click", () => {
  const isOn = order.getAttribute("aria-pressed") !== "true";
  order.setAttribute("aria-pressed", String(isOn));
  sequence = isOn ? inText : rows.map((row, place) => place);
  if (rows.length) rows[0].parentNode.append(...sequence.map((place) => rows[place]));
});
const found = () => {
  const wanted = search.value.trim().toLowerCase();
  return wanted ? sequence.filter((place) => seen[place].includes(wanted)) : sequence;
};
search.addEventListener("input", () => {
  const some = new Set(found());
  rows.forEach((row, place) => [row, ...bars[place]].forEach((one) => one.classList.toggle("dim", !some.has(place))));
  byId("count").textContent = search.value.trim() ? `${some.size} of ${rows.length} rows` : "";
});
search.addEventListener("keydown", (event) => {
  if (event.key !== "Enter" || search.value.trim() === "") return;
  const places = found();
  const next = places.find((place) => sequence.indexOf(place) > sequence.indexOf(shown));
  const place = next === undefined ? places[0] : next;
  if (place === undefined) return;
  pinned = null;
  rows[place].scrollIntoView({ block: "center" });
  show(place);
});
byId("tools").hidden = false;
"""
SCRIPT = TEXT.replace("@PARTS@", PARTS).replace("@STOPS@", STOPS)
