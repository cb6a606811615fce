"""The index of a report in a browser: whole words, numbers that can be read, shapes beside colours; and the colours of all pages."""

from __future__ import annotations

import os
import re
import tempfile
import unittest
from collections import Counter

from browser import Browser, needs_browser
from looking import broken_words, contrast, darkened, opened, resized
from tml_corpus.pages import colours
from tml_corpus.pages.documents import Counts, Entry
from tml_corpus.pages.frame import coded
from tml_corpus.pages.index import COLUMNS, index_of
from tml_corpus.pages.report import SHARED
from tml_corpus.pages.style import STYLE

VERDICTS = ("accepted", "clash", "fault", "dates that touch", "not judged")


PAIRS = tuple(
    (colour, ground)
    for ground, colours in (
        ("paper", ("ink", "soft", "strong", "wrong", "good", "touch", "link")),
        ("odd", ("ink", "soft", "strong", "wrong", "good", "touch", "link")),
        ("near", ("ink", "soft", "strong", "wrong", "link")),
        ("mark", ("ink", "strong")),
    )
    for colour in colours
)
"""Which colours of pages are seen on which. Lines that part things and carry no meaning are not among them."""

FOCUSED = "document.activeElement.textContent"
HEAD = "document.querySelector('#documents thead button').focus()"
STOPS = ["accepted", "10 MissingAttribute", "search", "Documents", "document", "corpus/of_news/wsj_00_interviews.xml"]
"""What the tabulator reaches: one of each group, the field of the search, and the table, which can be scrolled."""


def stops(browser: Browser) -> list[str]:
    """What the tabulator reaches one after the other, from the beginning of the page to its end."""
    found: list[str] = []
    for _ in range(len(STOPS) + 1):
        browser.press("Tab", 9)
        one = "document.activeElement.type === 'search' ? 'search' : document.activeElement.getAttribute('aria-label')"
        found.append(browser.value(f"document.activeElement === document.body ? '' : {one} || {FOCUSED}"))
    return [name for name in found if name]


def entries() -> list[Entry]:
    """The lines of an index with a document of each verdict."""
    counts = Counts(1024, 12345, 0, Counter(BEFORE=12345, DURING=617), 523776, 52377)
    said = {"fault": "10 MissingAttribute", "not judged": "tml answered status 9 to `solve`"}
    paths = [f"corpus/of_news/wsj_0{number}_interviews.xml" for number in range(len(VERDICTS))]
    return [
        Entry(path, "a.html", verdict, said.get(verdict, ""), counts=None if said.get(verdict) else counts)
        for path, verdict in zip(paths, VERDICTS, strict=True)
    ]


class IndexTest(unittest.TestCase):
    def setUp(self) -> None:
        held = tempfile.TemporaryDirectory()
        self.addCleanup(held.cleanup)
        self.index = os.path.join(held.name, "index.html")
        for name, text in {**SHARED, "index.html": index_of(entries(), 5)}.items():
            with open(os.path.join(held.name, name), "w", encoding="utf-8") as file:
                file.write(text)


@needs_browser
class InABrowser(IndexTest):
    def test_words_and_numbers_are_whole(self) -> None:
        with opened() as browser:
            browser.open(self.index)
            for width in (1400, 800, 400):
                resized(browser, width)
                self.assertEqual(broken_words(browser, "table, p, h1"), [], width)
            self.assertIn("523,776", browser.value("document.querySelector('#documents tbody').innerText"))
            self.assertEqual(browser.said, [])

    def test_what_matters_comes_first_where_it_is_narrow(self) -> None:
        with opened() as browser:
            resized(browser, 400)
            browser.open(self.index)
            cells = "[...document.querySelectorAll('#documents tbody tr')[2].cells]"
            rights = browser.value(f"{cells}.map((one) => one.getBoundingClientRect().right)")
            self.assertLessEqual(max(rights[:4]), 400)
            self.assertLessEqual(browser.value("document.documentElement.scrollWidth"), 400)

    def test_numbers_are_sorted_as_numbers(self) -> None:
        with opened() as browser:
            browser.open(self.index)
            browser.click("#documents thead th:nth-child(10) button")
            self.assertEqual(browser.value("document.querySelector('#documents tbody tr').cells[9].textContent"), "523,776")

    def test_each_group_is_one_stop_of_the_tabulator_and_arrows_go_on(self) -> None:
        with opened() as browser:
            browser.open(self.index)
            self.assertEqual(stops(browser), STOPS)
            self.assertEqual(browser.value("document.querySelectorAll('[tabindex=\"-1\"]').length"), 4 + 11 + 4)
            for column, key, code in (("verdict", "ArrowRight", 39), ("fault", "ArrowDown", 40), ("decided, in %", "End", 35)):
                browser.value(HEAD)
                for _ in range(2 if column == "fault" else 1):
                    browser.press(key, code)
                self.assertEqual(browser.value(FOCUSED), column)
            browser.value("document.activeElement.click()")
            browser.press("Home", 36)
            self.assertEqual(browser.value(FOCUSED), "document")
            self.assertEqual(browser.said, [])

    def test_arrows_go_by_the_rows_as_they_are_shown(self) -> None:
        with opened() as browser:
            browser.open(self.index)
            names = [entry.path for entry in entries()]
            browser.click("#documents thead th:nth-child(1) button")
            browser.click("#documents thead th:nth-child(1) button")
            browser.value("document.querySelector('#search input').focus()")
            browser.ask("Input.insertText", text="h")
            browser.value("document.querySelector('#documents a[tabindex=\"0\"]').focus()")
            seen = [browser.value(FOCUSED)]
            for _ in names:
                browser.press("ArrowDown", 40)
                seen.append(browser.value(FOCUSED))
            self.assertEqual(list(dict.fromkeys(seen)), [names[VERDICTS.index(one)] for one in ("dates that touch", "clash")])

    def test_what_screen_readers_say_of_links_and_buttons(self) -> None:
        with opened() as browser:
            browser.open(self.index)
            nodes = browser.ask("Accessibility.getFullAXTree")["nodes"]
            said = [(one["role"]["value"], one["name"]["value"]) for one in nodes if one.get("role", {}).get("value") in ("link", "button")]
            self.assertEqual([name for role, name in said if role == "link"], [entry.path for entry in entries()])
            buttons = [name for role, name in said if role == "button"]
            self.assertEqual(buttons, [*VERDICTS, "10 MissingAttribute", *(name for name, _ in COLUMNS)])

    def test_verdicts_differ_in_shape_and_in_colour(self) -> None:
        with opened() as browser:
            browser.open(self.index)
            look = "getComputedStyle(document.querySelector('#documents .verdict.' + NAME), '::before')"
            look = f"(() => {{ const one = {look}; return [one.clipPath, one.borderRadius, one.borderTopWidth].join(' '); }})()"
            shapes = [browser.value(look.replace("NAME", f"'{name}'")) for name in ("good", "clash", "fault", "touch", "unknown")]
            self.assertEqual(len(set(shapes)), 5)

    def test_bars_are_as_long_as_counts_are_great(self) -> None:
        with opened() as browser:
            browser.open(self.index)
            tables = "[...document.querySelectorAll('.totals table')]"
            bars = f"[...{tables}.find((one) => one.caption.textContent.startsWith('NAME')).querySelectorAll('rect')]"
            bars += ".map((one) => one.width.baseVal.value)"
            self.assertEqual(browser.value(bars.replace("NAME", "Verdicts")), [120] * 5)
            long, short = browser.value(bars.replace("NAME", "Relations"))
            self.assertEqual((long, round(short)), (120, 6))
            self.assertEqual(len(browser.value(bars.replace("NAME", "Faults"))), 1)

    def test_dark(self) -> None:
        with opened() as browser:
            browser.open(self.index)
            colour = "getComputedStyle(document.querySelector('.verdict.clash')).color"
            light = browser.value(colour)
            darkened(browser)
            self.assertEqual((light, browser.value(colour)), ("rgb(164, 0, 0)", "rgb(255, 156, 143)"))


class Parts(unittest.TestCase):
    def test_what_stands_between_backticks_is_code(self) -> None:
        rows = [
            ("write `a<b` or `c`", "<bdi>write <code>a&lt;b</code> or <code>c</code></bdi>"),
            ("one ` alone", "<bdi>one ` alone</bdi>"),
            ("", "<bdi></bdi>"),
        ]
        for text, made in rows:
            self.assertEqual(coded(text).text, made)


class Colours(unittest.TestCase):
    def test_each_pair_has_contrast(self) -> None:
        for name, palette in (("light", colours.LIGHT), ("dark", colours.DARK)):
            for colour, ground in PAIRS:
                with self.subTest(f"{name}: {colour} on {ground}"):
                    self.assertGreaterEqual(contrast(palette[colour], palette[ground]), 4.5)

    def test_each_colour_that_is_used_is_in_a_pair(self) -> None:
        paired = {colour for pair in PAIRS for colour in pair} | {"line"}
        self.assertEqual(set(colours.LIGHT), set(colours.DARK))
        self.assertEqual(set(colours.LIGHT), paired)
        self.assertLessEqual(set(re.findall(r"var\(--([a-z]+)\)", STYLE)), paired)


if __name__ == "__main__":
    unittest.main()
