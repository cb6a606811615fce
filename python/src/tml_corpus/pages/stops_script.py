"""What scripts of pages share: parts of a page, intervals with their bars, and one stop of the tabulator of each group."""

from __future__ import annotations

PARTS = """
const byId = (name) => document.getElementById(name);
const part = (name, attributes) => {
  const made = document.createElementNS("http://www.w3.org/2000/svg", name);
  Object.entries(attributes).forEach(([key, value]) => made.setAttribute(key, value));
  return made;
};
const line = (words, kind) => {
  const made = document.createElement("div");
  made.textContent = words;
  if (kind) made.className = kind;
  return made;
};
const isShown = (one) => one.getClientRects().length > 0;
// The intervals below a picture, what their titles said, and each with the parts of pictures that are of it.
const rows = Array.from(document.querySelectorAll(".row"));
const texts = rows.map((row) => row.title.split("\\n"));
const parts = new Map(rows.map((row) => [row.dataset.interval, [row]]));
document.querySelectorAll(".picture [data-interval]").forEach((one) => {
  one.querySelectorAll("title").forEach((title) => title.remove());
  parts.get(one.dataset.interval).push(one);
});
rows.forEach((row) => row.removeAttribute("title"));
let marked = [];
const mark = (one, name) => {
  if (one) (parts.get(one.dataset.interval) || [one]).forEach((part) => { part.classList.add(name); marked.push(part); });
};
const clear = () => { marked.forEach((one) => one.classList.remove("on", "near")); marked = []; };
"""

STOPS = """
const KEYS = { ArrowUp: -1, ArrowLeft: -1, ArrowDown: 1, ArrowRight: 1 };
// One of a group is reached by the tabulator, and the others by the arrow keys, in the order in which they are shown.
// What is answered makes the first one that is shown the stop again, for where some were hidden or sorted.
const together = (group, shown = () => group) => {
  let stop = null;
  const reached = (one) => {
    if (stop) stop.setAttribute("tabindex", "-1");
    stop = one;
    if (stop) stop.setAttribute("tabindex", "0");
  };
  group.forEach((one) => {
    one.setAttribute("tabindex", "-1");
    one.addEventListener("focus", () => reached(one));
    one.addEventListener("keydown", (event) => {
      if (event.altKey || event.ctrlKey || event.metaKey) return;
      const now = shown();
      const other = { Home: now[0], End: now[now.length - 1] }[event.key] || now[now.indexOf(one) + KEYS[event.key]];
      if (!other) return;
      event.preventDefault();
      other.focus();
    });
  });
  const first = () => reached(shown()[0] || null);
  first();
  return first;
};
"""
