"""What tests of pages ask a browser: whether words are whole, and what contrast there is."""

from __future__ import annotations

from typing import Any, cast

from browser import Browser

BROKEN_WORDS = """(() => {
  const found = [];
  const walker = document.createTreeWalker(document.body, NodeFilter.SHOW_TEXT);
  for (let node = walker.nextNode(); node; node = walker.nextNode()) {
    if (!node.parentElement.closest(SELECTOR) || !node.parentElement.getClientRects().length) continue;
    for (const word of node.textContent.matchAll(/[^\\s\\/_-]+/g)) {
      const range = document.createRange();
      range.setStart(node, word.index);
      range.setEnd(node, word.index + word[0].length);
      const lines = new Set([...range.getClientRects()].map((box) => Math.round(box.bottom)));
      if (lines.size > 1) found.push(word[0]);
    }
  }
  return found;
})()"""
"""The words of some elements that stand on several lines."""


CONTRASTS = """(() => {
  const hex = (colour) => "#" + colour.match(/[\\d.]+/g).slice(0, 3).map((one) => Math.round(one).toString(16).padStart(2, "0")).join("");
  const isClear = (colour) => colour === "none" || /rgba\\(.*, 0\\)/.test(colour) || colour.startsWith("url");
  const ground = (one) => {
    for (let at = one; at; at = at.parentElement) {
      const colour = getComputedStyle(at).backgroundColor;
      if (!isClear(colour)) return hex(colour);
    }
    return "#ffffff";
  };
  const found = new Set();
  document.querySelectorAll("body *").forEach((one) => {
    const [style, isDrawn] = [getComputedStyle(one), one.closest("svg") !== null];
    if (!one.getClientRects().length || one.closest("button, input, .grid, defs, [aria-hidden=true]")) return;
    const hasText = [...one.childNodes].some((part) => part.nodeType === 3 && part.textContent.trim() !== "");
    if (hasText) found.add(`${hex(isDrawn ? style.fill : style.color)} ${ground(one)} ${one.className.baseVal ?? one.className}`);
    if (!one.matches(".link, .arcs path")) return;
    found.add(`${hex(style.stroke)} ${ground(one)} ${one.getAttribute("class")}`);
  });
  return [...found];
})()"""
"""The colours of all texts and of all lines that mean something, with what they stand on."""


def opened(width: int = 1400, height: int = 900) -> Any:
    """A browser."""
    return cast(Any, Browser)(width, height)


def resized(browser: Any, width: int, height: int = 900) -> None:
    """Makes the page so broad and high, be it smaller than a window can be."""
    browser.ask("Emulation.setDeviceMetricsOverride", width=width, height=height, deviceScaleFactor=1, mobile=False)


def darkened(browser: Any, is_dark: bool = True) -> None:
    """Shows the page as at night, or as at day."""
    browser.ask("Emulation.setEmulatedMedia", features=[{"name": "prefers-color-scheme", "value": "dark" if is_dark else "light"}])


def broken_words(browser: Any, selector: str) -> list[str]:
    """The words in some elements that stand on several lines."""
    return list(browser.value(BROKEN_WORDS.replace("SELECTOR", repr(selector))))


def luminance(colour: str) -> float:
    """How bright a colour is, as WCAG 2 has it."""
    parts = [int(colour[place : place + 2], 16) / 255 for place in (1, 3, 5)]
    red, green, blue = (part / 12.92 if part <= 0.04045 else float(((part + 0.055) / 1.055) ** 2.4) for part in parts)
    return 0.2126 * red + 0.7152 * green + 0.0722 * blue


def contrast(one: str, other: str) -> float:
    """The contrast of two colours, as WCAG 2 has it."""
    darker, brighter = sorted((luminance(one), luminance(other)))
    return (brighter + 0.05) / (darker + 0.05)


def contrasts(browser: Any) -> tuple[int, list[str]]:
    """How many pairs of colours a page has, and those with too little contrast."""
    found = list(browser.value(CONTRASTS))
    return len(found), [one for one in found if contrast(*one.split(" ")[:2]) < 4.5]
