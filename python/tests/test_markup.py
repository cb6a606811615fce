"""The builder of markup: that texts are texts in what it makes, and that all HTML and SVG of the sources goes through it."""

import ast
import html.parser
import json
import re
import unittest
import xml.etree.ElementTree as ElementTree
from collections.abc import Iterator
from pathlib import Path

from corpus import SOURCES
from tml.markup import NOTHING, Markup, data, element, harmless, html_file, lined, raw, svg_file, tags, together

TEXTS = (
    "<script>window.hacked = 1</script>", "<img src=x onerror='x'>", '"><b onclick="x">', "'><i>", "]]><!--", "&amp;&lt;",
    "\u05d0\u05d1\u05d2", "日本語", "a\nb", "{{7*7}}${7*7}", "`", "=1+1", "\u200cx\u200d", "",
)  # fmt: skip
NO_TEXTS = ("\u202egnihton\u2066", "\x1b[31mred\x1b[0m", "\x00", "\ufffe", "\ud800", "\u2028", "\xad\ufeff")

ELEMENTS = "a|b|bdi|body|br|button|caption|code|dd|defs|div|dl|dt|em|g|h[1-6]|head|html|i|img|input|li|line|link|main|meta|noscript|ol"
ELEMENTS += "|option"
ELEMENTS += "|output|path|pattern|pre|rect|script|section|span|stop|strong|style|sub|sup|svg|t[dhr]|table|tbody|text|thead|title|tspan|ul"
LIKE_MARKUP = re.compile(rf"</?(?:{ELEMENTS})(?:[\s/>]|$)")


class Read(html.parser.HTMLParser):
    """The names, attributes and texts of a page, as HTML has them."""

    def __init__(self, text: str) -> None:
        super().__init__()
        self.names: list[str] = []
        self.values: list[str | None] = []
        self.text = ""
        self.feed(text)
        self.close()

    def handle_starttag(self, tag: str, attrs: list[tuple[str, str | None]]) -> None:
        self.names.append(tag)
        self.values += [value for _, value in attrs]

    def handle_data(self, data: str) -> None:
        self.text += data


class Texts(unittest.TestCase):
    def test_texts_are_texts_in_xml_and_in_html(self) -> None:
        for text in TEXTS:
            with self.subTest(text):
                made = element("p", text, title=text, data_own=text).text
                root, page = ElementTree.fromstring(made), Read(made)
                value = text.replace("\n", " ")
                self.assertEqual((root.text or "", root.get("title"), root.get("data-own"), len(root)), (text, value, value, 0))
                self.assertEqual((page.names, page.text, page.values), (["p"], text, [text, text]))

    def test_what_is_no_text_is_taken_out(self) -> None:
        for text in NO_TEXTS:
            with self.subTest(text):
                made = element("p", text, title=text).text
                root = ElementTree.fromstring(made.encode())
                self.assertEqual(root.text or "", harmless(text))
                self.assertFalse(re.search("[\x00-\x08\x0b-\x1f\u202a-\u202e\u2066-\u2069\u2028\ud800\ufffe\xad]", made))
        self.assertEqual(harmless("a\r\nb\rc\td\u2028e"), "a\nb\nc d e")

    def test_markup_is_not_escaped_again_and_no_text_is_markup(self) -> None:
        self.assertEqual(element("p", element("b", "<"), ["a", [element("br")]], 1, None).text, "<p><b>&lt;</b>a<br/>1</p>")
        self.assertEqual(element("p", f"{element('b')}").text, "<p>Markup('&lt;b&gt;&lt;/b&gt;')</p>")
        self.assertEqual(together("<", NOTHING, element("a")).text, "&lt;<a></a>")
        self.assertEqual(lined("a", NOTHING, "", "b").text, "a\nb\n")
        self.assertEqual([part.text for part in tags("ol", class_='"')], ['<ol class="&quot;">', "</ol>"])

    def test_attributes(self) -> None:
        made = element("rect", x=1.25, y=2.0, height=3, rx=None, stroke_dasharray="1 2", viewBox="", for_="a").text
        self.assertEqual(made, '<rect x="1.2" y="2" height="3" stroke-dasharray="1 2" viewBox="" for="a"/>')

    def test_names_that_are_none(self) -> None:
        for name in ("p onclick=x", "", "1", "p>", "\u00e4", "a\n"):
            with self.subTest(name), self.assertRaises(ValueError):
                element(name)
            with self.subTest(name), self.assertRaises(ValueError):
                element("p", **{name: "x"})

    def test_scripts_and_styles(self) -> None:
        self.assertEqual(raw("style", "a>b{}").text, "<style>a>b{}</style>")
        for name, text in (("script", "a<b"), ("style", "</style>"), ("script", "a && b"), ("p", "a")):
            with self.subTest(text), self.assertRaises(ValueError):
                raw(name, text)

    def test_values_for_scripts(self) -> None:
        for value in (["</script><b>", "&lt;", "<!--", "日本語 \u2028"], {"a": [1, None]}):
            made = data("own", value)
            page, root = Read(html_file(made)), ElementTree.fromstring(made.text)
            self.assertEqual((page.names, json.loads(page.text.strip()), json.loads(root.text or "")), (["script"], value, value))

    def test_files(self) -> None:
        self.assertTrue(html_file(element("html")).startswith("<!DOCTYPE html>\n<html>"))
        ElementTree.fromstring(svg_file(element("svg", element("path", d="M0 0"))).encode())
        self.assertEqual(element("svg").text, '<svg xmlns="http://www.w3.org/2000/svg"></svg>')


class Sources(unittest.TestCase):
    """That no module makes markup by itself."""

    def trees(self) -> Iterator[tuple[str, ast.AST]]:
        """The modules apart from the builder."""
        for path in sorted(Path(SOURCES).rglob("*.py")):
            name = path.relative_to(SOURCES).as_posix()
            if name != "tml/markup.py":
                yield name, ast.parse(path.read_text(encoding="utf-8"))

    def test_no_other_module_makes_markup_of_a_text(self) -> None:
        found = [
            name
            for name, tree in self.trees()
            for node in ast.walk(tree)
            if isinstance(node, ast.Call) and isinstance(node.func, (ast.Name, ast.Attribute))
            if (node.func.id if isinstance(node.func, ast.Name) else node.func.attr) == Markup.__name__
        ]
        self.assertEqual(found, [])

    def test_no_other_module_has_texts_that_are_markup(self) -> None:
        found = [
            f"{name}: {node.value[:60]}"
            for name, tree in self.trees()
            for node in ast.walk(tree)
            if isinstance(node, ast.Constant) and isinstance(node.value, str) and LIKE_MARKUP.search(node.value)
        ]
        self.assertEqual(found, [])
        self.assertTrue(LIKE_MARKUP.search('<rect x="1"/>') and LIKE_MARKUP.search("</td>"))
        self.assertFalse(LIKE_MARKUP.search("<TIMEX3>, <TLINK/>"))


if __name__ == "__main__":
    unittest.main()
