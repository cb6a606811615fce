"""The page of a timeline in a browser: what stays in sight, keys, names for those who do not see, contrast, and print."""

from __future__ import annotations

import base64
import os
import re
import shutil
import subprocess
import time
import unicodedata
import unittest

from browser import needs_browser
from corpus import TOP, CorpusTest, document, needs_matrix
from looking import contrasts, darkened, opened, resized
from tml_corpus.timeline.lettering import measured

SCROLLED = 1500
"""How far a page is scrolled, in pixels."""


def event(number: int, text: str = "x") -> str:
    """An event and its instance."""
    return f'<EVENT eid="e{number}" class="STATE">{text}</EVENT><MAKEINSTANCE eiid="i{number}" eventID="e{number}"/>\n'


def link(left: int, relation: str, right: int) -> str:
    """A TLINK between two instances."""
    return f'<TLINK eventInstanceID="i{left}" relatedToEventInstance="i{right}" relType="{relation}"/>\n'


def mended() -> str:
    """The sample of the port, whose clash is mended."""
    with open(os.path.join(TOP, "samples", "port.xml"), encoding="utf-8") as file:
        return file.read().replace("DURING", "AFTER")


@needs_matrix
class PageTest(CorpusTest):
    def made(self, content: str, name: str = "d.html", *words: str) -> str:
        """The path of the picture of a document."""
        self.write("d.xml", content)
        status, lines, error = self.run_it("timeline", "d.xml", "-o", name, *words)
        self.assertEqual((status, error), (0, ""), lines)
        return self.path(name)


@needs_browser
class InABrowser(PageTest):
    def test_the_axis_stays_in_sight(self) -> None:
        events, date = "".join(event(number) for number in range(300)), '<TIMEX3 tid="t" type="DATE" value="1998-01-08"/>'
        links = [f'<TLINK eventInstanceID="i{number}" relatedToTime="t" relType="IS_INCLUDED"/>' for number in range(300)]
        page = self.made(document(events + date + "".join(links)))
        with opened() as browser:
            browser.open(page)
            place = "(() => { const box = document.querySelector(SELECTOR).getBoundingClientRect(); return [box.left, box.top]; })()"
            main = browser.value(place.replace("SELECTOR", "'main'"))
            browser.value(f"document.querySelector('main').scrollTo(5000, {SCROLLED})")
            self.assertGreater(browser.value("document.querySelector('main').scrollTop"), 0.9 * SCROLLED)
            self.assertEqual(browser.value(place.replace("SELECTOR", "'.wide .axis svg'"))[1], main[1])
            # The copy of the axis lies where the picture has it: a date that both have begins at the same position.
            share = "((axis) => axis.querySelector('use').getBBox().width / axis.viewBox.baseVal.width)"
            copied = browser.value(f"{share}(document.querySelector('.wide .axis svg'))")
            self.assertAlmostEqual(copied, 1, delta=0.05)
            self.assertEqual(browser.said, [])

    def test_one_stop_of_the_tabulator_and_arrow_keys(self) -> None:
        with opened() as browser:
            browser.open(self.made(mended()))
            self.assertEqual(browser.value("document.querySelectorAll('.row[tabindex=\"0\"]').length"), 1)
            browser.value("document.querySelector('#row0').focus()")
            for key, code, place in (("ArrowDown", 40, "row1"), ("End", 35, "row12"), ("ArrowUp", 38, "row11"), ("Home", 36, "row0")):
                browser.press(key, code)
                self.assertEqual(browser.value("document.activeElement.id"), place)
            self.assertEqual(browser.value("document.querySelectorAll('.row[tabindex=\"0\"]').length"), 1)
            self.assertEqual(browser.said, [])

    def test_names_for_those_who_do_not_see(self) -> None:
        with opened() as browser:
            browser.open(self.made(mended()))
            tree = browser.ask("Accessibility.getFullAXTree")["nodes"]
            said = [(node["role"]["value"], node.get("name", {}).get("value", "")) for node in tree if not node.get("ignored")]
            self.assertIn(("main", "Timeline of d.xml"), said)
            self.assertIn(("button", "waited (ei5): event"), said)
            self.assertIn(("image", "Timeline of d.xml"), said)
            self.assertEqual([name for role, name in said if role in ("button", "main", "textbox", "group") and not name], [])

    def test_contrast(self) -> None:
        times = '<TIMEX3 tid="a" type="DATE" value="1998"/><TIMEX3 tid="b" type="DATE" value="1998-01-XX"/><TIMEX3 tid="c" type="SET"/>'
        negated = '<EVENT eid="e9" class="STATE">went</EVENT><MAKEINSTANCE eiid="i9" eventID="e9" polarity="NEG"/>'
        links = link(1, "BEFORE", 2) + link(9, "BEFORE", 2) + link(1, "BEFORE", 3)
        page = self.made(document(". ".join(map(event, range(1, 5))) + times + negated + links))
        with opened() as browser:
            browser.open(page)
            browser.value("document.querySelector('#row1').click()")
            for is_dark in (False, True):
                darkened(browser, is_dark)
                found, weak = contrasts(browser)
                self.assertGreaterEqual(found, 10)
                self.assertEqual(weak, [], f"dark: {is_dark}")

    def test_directions_do_not_mix(self) -> None:
        with opened() as browser:
            browser.open(self.made(document(event(1, "\u05d0\u05d1\u05d2") + event(2) + link(1, "BEFORE", 2))))
            edge = "(() => { const box = document.querySelector('SELECTOR').getBoundingClientRect(); return [box.left, box.right]; })()"
            text, named = (browser.value(edge.replace("SELECTOR", one)) for one in ("#row0 .label bdi", "#row0 .label .name"))
            self.assertLessEqual(text[1], named[0] + 0.5)
            self.assertEqual(browser.value("document.querySelector('.label .name').textContent"), "(i1)")

    @unittest.skipUnless(shutil.which("pdftotext"), "no program pdftotext")
    def test_no_heading_is_stranded_on_paper(self) -> None:
        events = "".join(event(number) for number in range(90))
        page = self.made(document(events + "".join(link(number, "BEFORE", number + 1) for number in range(40))))
        with opened() as browser:
            browser.open(page)
            printed = browser.ask("Page.printToPDF", landscape=True)["data"]
        self.write("d.pdf", base64.b64decode(printed))
        text = subprocess.run(["pdftotext", "-layout", self.path("d.pdf"), "-"], capture_output=True, text=True, check=True).stdout
        pages = [lines for one in text.split("\f") if (lines := [line.strip() for line in one.splitlines() if line.strip()])]
        self.assertGreater(len(pages), 1)
        for lines in pages:
            self.assertFalse(re.match("Nothing says when|Timeline of", lines[-1]), lines[-1])

    def test_what_is_measured_has_room(self) -> None:
        texts = ["waited", "WWWWMMMM", "日本語日本語", "नमस्ते दुनिया", "สวัสดีชาวโลก", "မြန်မာဘာသာ", "தமிழ்மொழி", "മലയാളം"]
        texts += ["\u0421\u043b\u043e\u0432\u043e", "السلام", "\ufdfd", "😀😀", "e\u0301"]
        with opened() as browser:
            self.write("t.svg", f'<svg xmlns="http://www.w3.org/2000/svg" width="900" height="900">{"".join(map(placed, texts))}</svg>')
            browser.open(self.path("t.svg"))
            widths = browser.value("[...document.querySelectorAll('text')].map((one) => one.getComputedTextLength())")
        for text, width in zip(texts, widths, strict=True):
            with self.subTest(text, name=unicodedata.name(text[0])):
                self.assertLessEqual(width, 13 * 0.02 + measured(text, 13))

    def test_narrow(self) -> None:
        shown = "[...document.querySelectorAll('.drawn')].filter((one) => one.getClientRects().length).map((one) => one.className).join()"
        with opened() as browser:
            browser.open(self.made(mended()))
            self.assertEqual(browser.value(shown), "drawn wide")
            for width in (320, 400, 800):
                resized(browser, width)
                self.assertEqual(browser.value(shown), "drawn narrow")
                box = "document.querySelector('#row6 .around').getBoundingClientRect()"
                self.assertIn("while it was closed", browser.value("document.querySelector('#row6 .around').innerText"))
                self.assertLessEqual(browser.value(f"{box}.right"), width)
                self.assertGreater(browser.value(f"{box}.width"), 150)
                self.assertLessEqual(browser.value("document.querySelector('main').scrollWidth"), width)
                self.assertLessEqual(browser.value("document.documentElement.scrollWidth"), width)

    def test_little_is_above_and_below_the_picture(self) -> None:
        lines = (
            "(one) => new Set([...document.querySelectorAll(one)].map((part) => Math.round(part.getBoundingClientRect().bottom / 9))).size"
        )
        columns = "new Set([...document.querySelector('#links p').getClientRects()].map((part) => part.left)).size"
        with opened() as browser:
            browser.open(self.made(mended()))
            for width in (320, 400, 1280):
                resized(browser, width)
                self.assertEqual(browser.value(f"({lines})('#search, #order')"), 1, width)
                self.assertEqual(browser.value(columns), 1, width)

    def test_links_are_drawn_in_the_layout_that_is_shown(self) -> None:
        with opened() as browser:
            browser.open(self.made(mended()))
            browser.click("#row6")
            for width, layout in ((1400, "wide"), (400, "narrow"), (1400, "wide")):
                resized(browser, width)
                is_drawn = f"document.querySelectorAll('#{layout} .link').length > 0"
                end = time.monotonic() + 10
                while not browser.value(is_drawn) and time.monotonic() < end:
                    time.sleep(0.02)
                counts = [browser.value(f"document.querySelectorAll('{one}').length") for one in (".link", f"#{layout} .link")]
                self.assertGreater(counts[1], 0)
                self.assertEqual(counts[0], counts[1])
            self.assertEqual(browser.said, [])


def placed(text: str) -> str:
    """A text in the font of pictures."""
    return f'<text y="50" style="font:13px \'DejaVu Sans\',Verdana,Helvetica,Arial,sans-serif">{text}</text>'


class Pictures(PageTest):
    def test_the_picture_of_a_page_is_that_of_the_file(self) -> None:
        for words in ((), ("--text-order",), ("--seconds",)):
            with open(self.made(mended(), "d.html", *words), encoding="utf-8") as page:
                with open(self.made(mended(), "d.svg", *words), encoding="utf-8") as file:
                    drawn = [
                        text[text.index('viewBox="0 0 600', text.rindex("<svg")) : text.index("</svg>", text.rindex("<svg"))]
                        for text in (page.read(), file.read())
                    ]
            self.assertEqual(*drawn)


if __name__ == "__main__":
    unittest.main()
