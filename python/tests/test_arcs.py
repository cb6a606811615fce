"""Links drawn over the text of a document: they lie in lanes with room between them, off the words, and one can be told from the rest."""

from __future__ import annotations

import base64
import itertools
import os
import shutil
import subprocess
import unittest
from typing import Any

from browser import needs_browser
from corpus import TOP, CorpusTest, needs_matrix
from looking import contrasts, darkened, opened, resized

Stretch = tuple[float, float, float, float]
"""The left, top, right and bottom edge of something."""

BOXES = "[...document.querySelectorAll(SELECTOR)].map((one) => one.getBoundingClientRect())"
BOXES += ".map((box) => [box.left, box.top, box.right, box.bottom])"
WORDS = """(() => {
  const found = [];
  const walker = document.createTreeWalker(document.querySelector(".text"), NodeFilter.SHOW_TEXT);
  for (let node = walker.nextNode(); node; node = walker.nextNode()) {
    if (node.parentElement.closest("svg, sup")) continue;
    for (const word of node.textContent.matchAll(/\\S+/g)) {
      const range = document.createRange();
      range.setStart(node, word.index);
      range.setEnd(node, word.index + word[0].length);
      const box = range.getBoundingClientRect();
      found.push([box.left, box.top + 3, box.right, box.bottom - 3]);
    }
  }
  return found;
})()"""


def overlap(one: Stretch, other: Stretch) -> bool:
    """Whether two boxes have a part in common."""
    return one[0] < other[2] and other[0] < one[2] and one[1] < other[3] and other[1] < one[3]


@needs_browser
@needs_matrix
class Arcs(CorpusTest):
    def page(self) -> str:
        """The page of the sample of the port."""
        with open(os.path.join(TOP, "samples", "port.xml"), encoding="utf-8") as file:
            self.write("corpus/port.xml", file.read())
        self.assertEqual(self.run_it("report", "corpus", "-o", "pages")[0], 1)
        [name] = os.listdir(self.path("pages/documents"))
        return self.path(f"pages/documents/{name}")

    def boxes(self, browser: Any, selector: str) -> list[Stretch]:
        """The boxes of some elements."""
        return [(one[0], one[1], one[2], one[3]) for one in browser.value(BOXES.replace("SELECTOR", repr(selector)))]

    def test_all_links_can_be_read(self) -> None:
        with opened() as browser:
            browser.open(self.page())
            for width in (1400, 700, 400):
                resized(browser, width, 1400)
                browser.click("#links .tools button")
                labels = self.boxes(browser, ".arcs text")
                words = [(one[0], one[1], one[2], one[3]) for one in browser.value(WORDS)]
                self.assertEqual(len(labels), 13)
                self.assertGreater(len(words), 60)
                self.assertEqual([pair for pair in itertools.combinations(labels, 2) if overlap(*pair)], [], width)
                self.assertEqual([one for one in itertools.product(labels, words) if overlap(*one)], [], width)
                lines = self.boxes(browser, ".arcs path:not(.head)")
                self.assertTrue(lines)
                frame = self.boxes(browser, ".text")[0]
                self.assertTrue(all(frame[0] - 1 <= one[0] and one[2] <= frame[2] + 1 for one in labels), width)
            self.assertEqual(browser.said, [])

    def test_stretches_in_a_lane_do_not_meet(self) -> None:
        across = "[...document.querySelectorAll('.arcs path:not(.head)')].map((one) => one.getAttribute('d'))"
        across += ".map((way) => way.match(/^M([-\\d.]+) ([-\\d.]+)H([-\\d.]+)/).slice(1).map(Number))"
        with opened() as browser:
            browser.open(self.page())
            browser.click("#links .tools button")
            found = browser.value(across)
            self.assertGreaterEqual(len(found), 13)
            for (begin, y, end), (other_begin, other_y, other_end) in itertools.combinations(found, 2):
                self.assertTrue(abs(y - other_y) > 10 or end <= other_begin or other_end <= begin, (y, other_y))

    def test_the_rest_is_dimmed(self) -> None:
        dimmed = "[...document.querySelectorAll('.arcs g')].map((one) => one.classList.contains('dim'))"
        with opened() as browser:
            browser.open(self.page())
            browser.click("#links .tools button")
            self.assertEqual(set(browser.value(dimmed)), {False})
            browser.value("document.querySelectorAll('.arcs g')[3].dispatchEvent(new Event('pointerenter'))")
            self.assertEqual([place for place, is_dim in enumerate(browser.value(dimmed)) if not is_dim], [3])
            browser.value("document.querySelectorAll('.arcs g')[3].dispatchEvent(new Event('pointerleave'))")
            self.assertEqual(set(browser.value(dimmed)), {False})
            browser.value("document.querySelector('.mark[data-intervals=ei5]').dispatchEvent(new Event('pointerenter'))")
            self.assertEqual([place for place, is_dim in enumerate(browser.value(dimmed)) if not is_dim], [5, 6, 11])

    def test_contrast(self) -> None:
        with opened() as browser:
            browser.open(self.page())
            browser.click("#links .tools button")
            browser.click(".mark[data-intervals=ei5]")
            for is_dark in (False, True):
                darkened(browser, is_dark)
                found, weak = contrasts(browser)
                self.assertGreater(found, 10)
                self.assertEqual(weak, [], f"dark: {is_dark}")

    @unittest.skipUnless(shutil.which("pdftotext"), "no program pdftotext")
    def test_no_heading_is_stranded_on_paper(self) -> None:
        with opened() as browser:
            browser.open(self.page())
            self.write("d.pdf", base64.b64decode(browser.ask("Page.printToPDF", paperHeight=6)["data"]))
        text = subprocess.run(["pdftotext", "-layout", self.path("d.pdf"), "-"], capture_output=True, text=True, check=True).stdout
        pages = [lines for one in text.split("\f") if (lines := [line.strip() for line in one.splitlines() if line.strip()])]
        self.assertGreater(len(pages), 2)
        for lines in pages:
            self.assertNotRegex(lines[-1], "^(Text|Clashes|Clash 1|Links|Why: each|In the text)")

    def test_one_stop_of_the_tabulator_for_each_group(self) -> None:
        with opened() as browser:
            browser.open(self.page())
            words = ".text .mark[data-intervals^=ei], .text .mark[data-intervals^=t]"
            for group, count in ((words, 13), (".links a", 26), (".links button", 13)):
                stops = f"[...document.querySelectorAll('{group}')].map((one) => one.tabIndex)"
                self.assertEqual(browser.value(stops), [0] + [-1] * (count - 1))
                browser.value(f"document.querySelector('{group}').focus()")
                browser.press("ArrowRight", 39)
                self.assertEqual(browser.value(stops), [-1, 0] + [-1] * (count - 2))
            self.assertEqual(browser.said, [])

    def test_the_ring_of_a_clash(self) -> None:
        with opened() as browser:
            browser.open(self.page())
            shown = browser.value("[...document.querySelectorAll('.ring text:not([aria-hidden])')].map((one) => one.textContent)")
            self.assertEqual(shown[:5], ["1", "2", "3", "4", "5"])
            points = ["end of Monday", "end of closed", "end of waited", "start of Wednesday", "start of reopened"]
            self.assertEqual(sorted(shown[5:]), points)
            self.assertEqual(browser.said, [])

    def test_identifiers_are_not_part_of_words_and_links_have_their_names(self) -> None:
        with opened() as browser:
            browser.open(self.page())
            self.assertEqual(browser.value("document.querySelectorAll('.mark sup:not([aria-hidden=true])').length"), 0)
            tree = browser.ask("Accessibility.getFullAXTree")["nodes"]
            said = [(node["role"]["value"], node.get("name", {}).get("value", "")) for node in tree if not node.get("ignored")]
            self.assertIn("main", [role for role, _ in said])
            self.assertIn(("StaticText", "waited"), said)
            self.assertNotIn("waitedei5", [name for _, name in said])
            self.assertTrue(browser.value("document.querySelector('#link5').textContent").startswith("l6: waited DURING closed"))
            browser.click(".mark[data-intervals=ei5]")
            self.assertIn("l6: waited DURING closed", browser.value("document.querySelector('#panel').innerText"))
