"""The part of the script of a document's page that draws links above the lines of its text, as brat does.

Each link has a lane of its own above a line, and lines are moved apart so far that all lanes have room between them. A link that leads
to another line leaves its own line at the edge. Numbers are asked for before anything is changed: each question after a change lays the
text out anew.
"""

from __future__ import annotations

ARCS = """
const LANE = 18;
const arcs = part("svg", { class: "arcs", "aria-hidden": "true" });
const placesOf = (wanted) => {
  const [frame, high] = [text.getBoundingClientRect(), parseFloat(getComputedStyle(text).lineHeight)];
  const boxes = new Map();
  wanted.forEach((link) => [link.dataset.left, link.dataset.right].forEach((name) => {
    const box = byId(name).getClientRects()[0];
    const [top, bottom] = [box.top, box.bottom].map((y) => y - frame.top + text.scrollTop);
    boxes.set(name, { x: box.left - frame.left + text.scrollLeft, width: box.width, top, bottom, links: [] });
  }));
  const bottoms = [...boxes.values()].map((box) => box.bottom);
  const first = Math.min(...bottoms);
  boxes.forEach((box) => { box.line = Math.round((box.bottom - first) / high); });
  wanted.forEach((link) => new Set([link.dataset.left, link.dataset.right]).forEach((name) => boxes.get(name).links.push(link)));
  const middle = (name) => boxes.get(name).x + boxes.get(name).width / 2 + 10_000 * boxes.get(name).line;
  boxes.forEach((box, name) => {
    const far = (link) => middle(link.dataset.left === name ? link.dataset.right : link.dataset.left);
    box.links.sort((one, other) => far(one) - far(other));
  });
  return boxes;
};
const portOf = (box, link) => {
  const room = Math.min(9, Math.max(box.width - 6, 0) / box.links.length);
  return box.x + box.width / 2 + (box.links.indexOf(link) - (box.links.length - 1) / 2) * room;
};
const stretchesOf = (link, boxes) => {
  const endOf = (name) => ({ name, x: portOf(boxes.get(name), link), line: boxes.get(name).line });
  const ends = [link.dataset.left, link.dataset.right].map(endOf);
  const [first, last] = ends[0].line > ends[1].line ? [ends[1], ends[0]] : ends;
  const found = [];
  for (let line = first.line; line !== last.line + 1; line += 1) {
    const here = ends.filter((one) => one.line === line);
    const edges = here.map((one) => one.x);
    if (line !== first.line) edges.push(0);
    if (line !== last.line) edges.push(text.clientWidth);
    found.push({ link, line, ends: here, begin: Math.min(...edges), end: Math.max(...edges), target: ends[1] });
  }
  const longest = found.reduce((one, other) => other.end - other.begin > one.end - one.begin ? other : one);
  longest.label = link.dataset.relation || "";
  return found;
};
// The shortest ones lie lowest, so that a link goes over those between its ends.
const putInLanes = (all) => {
  const taken = new Map();
  [...all].sort((one, other) => one.end - one.begin - other.end + other.begin).forEach((one) => {
    const half = one.label ? one.label.length * 3.7 + 6 : 0;
    const middle = Math.min(Math.max((one.begin + one.end) / 2, half), text.clientWidth - half);
    const [begin, end] = [Math.min(one.begin, middle - half) - 4, Math.max(one.end, middle + half) + 4];
    const others = taken.get(one.line) || [];
    one.lane = 0;
    while (others.some((other) => other.lane === one.lane ? end > other.from ? other.to > begin : false : false)) one.lane += 1;
    one.middle = middle;
    taken.set(one.line, [...others, { lane: one.lane, from: begin, to: end }]);
  });
  return Math.max(0, ...all.map((one) => one.lane + 1));
};
const pathOf = (one, y, box) => {
  const stem = (end) => `M${end.x} ${box(end).top - 1}V${y}`;
  const head = (end) => `M${end.x - 4} ${box(end).top - 8}L${end.x} ${box(end).top - 1}L${end.x + 4} ${box(end).top - 8}Z`;
  const line = part("path", { d: `M${one.begin} ${y}H${one.end}${one.ends.map(stem).join("")}` });
  const heads = one.ends.filter((end) => end === one.target).map((end) => part("path", { class: "head", d: head(end) }));
  return [line, ...heads];
};
const drawArcs = (wanted) => {
  text.style.setProperty("--lanes", 0);
  const all = wanted.length ? ((boxes) => wanted.map((link) => stretchesOf(link, boxes)))(placesOf(wanted)) : [];
  text.style.setProperty("--lanes", putInLanes(all.flat()));
  const boxes = wanted.length ? placesOf(wanted) : new Map();
  const high = parseFloat(getComputedStyle(text).lineHeight);
  const tops = new Map();
  boxes.forEach((box) => tops.set(box.line, Math.min(box.top, tops.get(box.line) ?? Infinity)));
  const [line, top] = [...tops][0] || [0, 0];
  arcs.replaceChildren(...all.map((stretches, place) => {
    const group = part("g", { "data-ends": `${wanted[place].dataset.left} ${wanted[place].dataset.right}` });
    stretches.forEach((one) => {
      const y = (tops.get(one.line) ?? top + (one.line - line) * high) - 12 - one.lane * LANE;
      group.append(...pathOf(one, y, (end) => boxes.get(end.name)));
      if (!one.label) return;
      const name = part("text", { x: one.middle, y: y + 4 });
      name.textContent = one.label;
      group.append(name);
    });
    group.addEventListener("pointerenter", () => only((other) => other === group));
    group.addEventListener("pointerleave", () => only(null));
    return group;
  }));
};
const only = (isMeant) => [...arcs.children].forEach((group) => group.classList.toggle("dim", isMeant ? !isMeant(group) : false));
const onlyOf = (word) => only(word ? (group) => group.dataset.ends.split(" ").includes(word.id) : null);
"""
