"""`tml-corpus report`: what its pages say, that strangers' documents are text in them, and what they do in a browser."""

import os
import re
import subprocess
import tempfile
import unittest
import xml.etree.ElementTree as ElementTree
from collections.abc import Mapping
from pathlib import Path

from browser import Browser, needs_browser
from corpus import TML, TOP, CorpusTest, document, needed, needs_matrix, text_at
from processes import BARE
from test_timeline import Parsed, event, link

XHTML = "{http://www.w3.org/1999/xhtml}"
SVG = "{http://www.w3.org/2000/svg}"
TOUCHING = document(
    '<TIMEX3 tid="a" type="DATE" value="1998-02-26">Thursday</TIMEX3>\n<TIMEX3 tid="b" type="DATE" value="1998-02-27">Friday</TIMEX3>\n'
    '<TIMEX3 tid="c" type="DATE" value="1998-2-7">then</TIMEX3>\n<TIMEX3 tid="d" type="DURATION" value="P1D">a day</TIMEX3>\n'
    '<TLINK timeID="a" relatedToTime="b" relType="BEFORE"/>\n'
)
HOSTILE = (
    "<script>window.hacked = 1</script>", "<img src=x onerror='window.hacked = 1'>", '"><b onclick="window.hacked = 1">',
    "'><i>", "]]><!--", "</a></bdi></main>",
    "\u202egnihton\u2066", "\x1b[31mred\x1b[0m", "\u05d0\u05d1\u05d2", "日本語", "javascript:window.hacked=1", "{{7*7}}${7*7}",
)  # fmt: skip
HOSTILE_NAME = "a<img src=x onerror=window.hacked=1>&\"'\u202e\x1b[31m.xml"


def quoted(text: str) -> str:
    """A text as it stands in a document."""
    return text.replace("&", "&amp;").replace("<", "&lt;")


def hostile() -> str:
    """A document whose every text and value would be markup, where one forgot to escape it."""
    events = "".join(event(number, quoted(text)) for number, text in enumerate(HOSTILE))
    times = "".join(
        f'<TIMEX3 tid="t{number}" type="DATE" value="{quoted(text).replace(chr(34), "&quot;")}"/>\n' for number, text in enumerate(HOSTILE)
    )
    return document(events + times + "".join(link(number, "BEFORE", number + 1) for number in range(len(HOSTILE) - 1)))


@needs_matrix
class ReportTest(CorpusTest):
    """A test with a report on the documents of a folder."""

    def made(self, documents: Mapping[str, str | bytes], *words: str, status: int = 0) -> list[str]:
        """Makes the report on some documents by their names, and answers the lines that are printed."""
        for name, content in documents.items():
            self.write(os.path.join("corpus", name), content)
        printed, lines, error = self.run_it("report", "corpus", "-o", "pages", *words)
        self.assertEqual((printed, error), (status, ""), lines)
        self.assertEqual(lines[-1], "report in pages/index.html")
        return lines

    def text(self, name: str) -> str:
        """A file of the report."""
        with open(os.path.join(self.folder, "pages", name), encoding="utf-8", newline="") as file:
            return file.read()

    def page_name(self, start: str) -> str:
        """The page of the document whose name begins so."""
        [name] = [name for name in os.listdir(self.path("pages/documents")) if name.startswith(start + ".")]
        return os.path.join("documents", name)

    def root(self, name: str) -> ElementTree.Element:
        """A page, which is XML too."""
        return ElementTree.fromstring(self.text(name).encode())

    def said(self, name: str, section: str) -> str:
        """The text of a section of a page, with single spaces."""
        [found] = [one for one in self.root(name).iter() if one.get("id") == section]
        return " ".join("".join(found.itertext()).split())

    def rows(self) -> list[list[str]]:
        """The cells of the index."""
        [table] = [one for one in self.root("index.html").iter(XHTML + "table") if one.get("id") == "documents"]
        return [["".join(cell.itertext()) for cell in row] for row in needed(table.find(XHTML + "tbody"))]

    def sample(self, name: str) -> str:
        """A sample of this repository."""
        return text_at("samples", name)


class Pages(ReportTest):
    def test_the_index(self) -> None:
        mended = self.sample("port.xml").replace("DURING", "AFTER")
        documents = {
            "clash.xml": self.sample("port.xml"),
            "fault.xml": "<TimeML><EVENT/></TimeML>",
            "fits.xml": mended,
            "touching.xml": TOUCHING,
        }
        lines = self.made(documents, status=1)
        first = "4 files: 1 accepted, 1 with a clash, 1 whose only clashes are dates that touch, 1 with a fault, 0 not judged"
        self.assertEqual(lines[0], first)
        asked = subprocess.run([TML, "matrix", self.path("corpus/fits.xml")], capture_output=True, text=True, check=True)
        matrix = asked.stdout.splitlines()
        decided = sum(len(line.split(" ")) == 3 for line in matrix)
        rows = [
            ["corpus/clash.xml", "clash", "", "1", "0", "0", "0", "13", "13", "", "", ""],
            ["corpus/fault.xml", "fault", "10 MissingAttribute", *[""] * 9],
            ["corpus/fits.xml", "accepted", "", *"0000", "13", "13", *map(str, (len(matrix), decided, 100 * decided // len(matrix)))],
            ["corpus/touching.xml", "dates that touch", "", "0", "1", "2", "1", "4", "1", "6", "1", "16"],
        ]
        self.assertEqual(self.rows(), rows)

    def test_verdicts_are_those_of_check(self) -> None:
        subprocess.run([*BARE, os.path.join(TOP, "python", "tests", "ordinary.py"), self.path("corpus"), "40"], check=True)
        lines = self.made({}, status=1)
        _, checked, _ = self.run_it("check", "--clashes", "--lint", "corpus")
        self.assertEqual(lines[:-1], checked[-len(lines) + 1 :])
        listed = [path.split(":")[0] for path in checked if ": error: clash, 1 of" in path]
        self.assertEqual([row[0] for row in self.rows() if row[1] == "clash"], listed)

    def test_the_text_of_a_document(self) -> None:
        self.made(
            {
                "a.xml": self.sample("rates.xml"),
                "b.xml": document("<P>one</P><P>two <SIGNAL sid='s'>as</SIGNAL></P><TIMEX3 tid='t' type='DATE' value='1998'/>"),
            }
        )
        page = self.page_name("a.xml")
        words = [(one.get("class"), one.get("href")) for one in self.root(page).iter(XHTML + "a") if one.get("id", "").startswith("word")]
        self.assertEqual(len(words), 4)
        bars = {one.attrib["id"]: one.attrib["href"] for one in self.root(page).iter() if one.get("id", "").startswith("bar")}
        self.assertEqual({target for _, target in words}, {"#" + name for name in bars})
        self.assertEqual(sorted(bars.values()), [f"#word{number}" for number in sorted(int(name[5:]) for name in bars.values())])
        text = "".join(next(one for one in self.root(self.page_name("b.xml")).iter() if one.get("class") == "text").itertext())
        self.assertEqual(text, "one\n\ntwo as\n[1998]t")

    def test_events_with_several_instances_and_marks_within_marks(self) -> None:
        inner = '<EVENT eid="e1" class="STATE">a <TIMEX3 tid="t1" type="DATE" value="1998">b</TIMEX3></EVENT>'
        inner += '<EVENT eid="e2" class="STATE">c</EVENT>'
        instances = "".join(f'<MAKEINSTANCE eiid="i{number}" eventID="e1"/>' for number in (1, 2))
        self.made({"a.xml": document(inner + instances)})
        text = next(one for one in self.root(self.page_name("a.xml")).iter() if one.get("class") == "text")
        marks = {one.get("id"): one for one in text.iter() if one.get("id")}
        self.assertEqual(
            [(one.tag.split("}")[1], one.get("data-intervals")) for one in marks.values()], [("a", "i1 i2"), ("span", "t1"), ("span", "")]
        )
        self.assertEqual(
            (len(marks["word0"].attrib["data-bars"].split()), marks["word1"].get("tabindex"), marks["word2"].get("tabindex")),
            (2, "0", None),
        )

    def test_a_clash_step_by_step(self) -> None:
        self.made({"a.xml": self.sample("port.xml")}, status=1)
        page = self.page_name("a.xml")
        [walk] = [one for one in self.root(page).iter(XHTML + "ol") if one.get("class") == "walk"]
        self.assertEqual(
            ["".join(step.itertext()) for step in walk],
            [
                "the start of reopened ei9 is no later than the end of waited ei5, since waited IBEFORE reopened (l12: ei5 IBEFORE ei9)",
                "the end of waited ei5 is no later than the end of closed ei4, since waited DURING closed (l6: ei5 DURING ei4)",
                "the end of closed ei4 is before the end of Monday t1, since closed IS_INCLUDED Monday (l5: ei4 IS_INCLUDED t1)",
                "the end of Monday t1 is before the start of Wednesday t2, since by the calendar Monday ends at 1998-03-10T00:00:00, and "
                "Wednesday starts at 1998-03-11T00:00:00",
                "the start of Wednesday t2 is before the start of reopened ei9, since reopened IS_INCLUDED Wednesday (l11: ei9 IS_INCLUDED "
                "t2)",
            ],
        )
        self.assertIn("So the start of reopened ei9 would be before itself", self.said(page, "clash1"))
        self.assertNotIn("Timeline", self.text(page))
        self.assertIn("part of clash 1", self.said(page, "link4"))

    def test_faults_warnings_and_dates_that_touch(self) -> None:
        self.made({"fault.xml": "<TimeML>\n<EVENT/></TimeML>", "touching.xml": TOUCHING, "gone.xml": b"\xff" * 5_000_000}, status=2)
        self.assertIn("line 2, column 1: 10 MissingAttribute", self.said(self.page_name("fault.xml"), "faults"))
        touching = self.page_name("touching.xml")
        self.assertIn(
            "Thursday ends exactly where Friday begins, and BEFORE asks for a gap: write IBEFORE", self.said(touching, "touching")
        )
        self.assertIn("read here as the relation that holds", self.said(touching, "timeline"))
        self.assertIn("value-form", self.said(touching, "warnings"))
        self.assertIn("then (c)", self.said(touching, "free"))
        self.assertIn("the dates touch: IBEFORE", self.said(touching, "link0"))
        self.assertIn("4,194,304 bytes", self.said(self.page_name("gone.xml"), "faults"))

    def test_further_clashes(self) -> None:
        inner = event(1) + event(2) + event(3) + event(4)
        self.made(
            {"a.xml": document(inner + link(1, "BEFORE", 2) + link(2, "BEFORE", 1) + link(3, "BEFORE", 4) + link(4, "BEFORE", 3))},
            "--more",
            "3",
            status=1,
        )
        self.assertEqual(self.rows()[0][3], "2")
        self.assertIn("Clash 2: These links cannot all be true", self.said(self.page_name("a.xml"), "clashes"))

    def test_own_wrappers(self) -> None:
        self.write("corpus/tml-corpus.toml", 'wrappers = ["own"]\n')
        self.made({"a.xml": document(f"<own>{event(1, 'word')}</own>")})
        self.assertIn("word", self.said(self.page_name("a.xml"), "text"))

    def test_the_same_again_and_no_folder_of_others(self) -> None:
        self.made({"a.xml": TOUCHING}, status=1)
        names = [
            os.path.relpath(os.path.join(place, name), self.path("pages"))
            for place, _, names in os.walk(self.path("pages"))
            for name in names
        ]
        before = {name: self.text(name) for name in names}
        self.made({}, "--jobs", "1", status=1)
        self.assertEqual({name: self.text(name) for name in names}, before)
        self.write("other/index.html", "mine")
        status, lines, error = self.run_it("report", "corpus", "-o", "other")
        self.assertEqual((status, lines, os.listdir(self.path("other"))), (2, [], ["index.html"]))
        self.assertIn("other has files that are not part of a report", error)
        for target in ("corpus/a.xml", "corpus/a.xml/x"):
            self.assertEqual(self.run_it("report", "corpus", "-o", target)[0], 2)

    def test_what_cannot_be_read(self) -> None:
        os.mkdir(self.path("corpus"))
        os.symlink("nowhere", self.path("corpus/a.xml"))
        lines = self.made({}, status=2)
        self.assertEqual(lines[0], "corpus/a.xml: not judged: no such file or directory")
        self.assertEqual(
            (lines[1], self.rows()[0][:2]),
            ("1 file: 0 accepted, 0 with a clash, 0 with a fault, 1 not judged", ["corpus/a.xml", "not judged"]),
        )


class Strangers(ReportTest):
    def pages(self) -> list[str]:
        """A report on hostile documents: one that fits, one with a clash, one with a fault."""
        content = hostile()
        clash = content.replace("</TimeML>", link(3, "AFTER", 4) + "</TimeML>")
        fault = "<TimeML>\n" + quoted(HOSTILE[0]) + f'<EVENT class="{quoted(HOSTILE[1])}" eid="e"/></TimeML>'
        self.made({HOSTILE_NAME: content, "clash.xml": clash, "fault.xml": fault}, status=1)
        return ["index.html", *(os.path.join("documents", name) for name in os.listdir(self.path("pages/documents")))]

    def test_pages_have_no_markup_of_strangers(self) -> None:
        for name in self.pages():
            with self.subTest(name):
                page, parsed = self.text(name), Parsed(self.text(name))
                self.assertEqual((parsed.open, parsed.wrong), ([], []))
                self.assertIn("default-src 'none'; style-src 'self'; script-src 'self'; base-uri 'none'; form-action 'none'", page)
                self.assertFalse(set(parsed.names) & {"img", "b", "i", "style", "form", "iframe", "object"})
                scripts = [one for one in self.root(name).iter(XHTML + "script")]
                self.assertEqual([(one.text, os.path.basename(one.attrib["src"])[-3:]) for one in scripts], [(None, ".js")])
                for one in self.root(name).iter():
                    self.assertFalse([key for key in one.keys() if key.startswith("on") or key == "style"], one.tag)
                    self.assertRegex(
                        one.get("href", "#a"),
                        r"^(#(word|bar|link)\d+|#a|#narrow|#wide|\.\./index\.html|(\.\./)?report\.css|documents/[\w.-]+\.html)$",
                    )
                self.assertFalse(re.search(r"[\x00-\x09\x0b-\x1f\u202a-\u202e\u2066-\u2069]", page))

    @needs_browser
    def test_a_browser_shows_them_as_text(self) -> None:
        names = self.pages()
        with Browser() as browser:
            for name in names:
                browser.open(os.path.join(self.folder, "pages", name))
                self.assertEqual(browser.value("window.hacked === undefined && document.querySelectorAll('img, b, i, iframe').length"), 0)
                if name != "index.html":
                    browser.value(
                        "document.querySelectorAll('button, .mark, a.leading')"
                        ".forEach((one) => { one.focus(); one.dispatchEvent(new Event('pointerenter')); })"
                    )
                    browser.value("document.querySelectorAll('button').forEach((one) => one.click())")
                self.assertEqual(browser.value("window.hacked === undefined && document.querySelectorAll('img, b, i, iframe').length"), 0)
            self.assertEqual(browser.said, [])
            browser.open(self.path("pages/index.html"))
            shown = browser.value("document.querySelector('#documents tbody').innerText")
            self.assertIn("a<img src=x onerror=window.hacked=1>&\"'\ufffd[31m.xml", shown)
            [page] = [name for name in names if "a_img" in name]
            browser.open(self.path("pages/" + page))
            shown = browser.value("document.querySelector('.text').innerText")
            for text in HOSTILE[:6]:
                self.assertIn(text, shown)
            self.assertIn("gnihton", shown)
            self.assertIn("\ufffd[31mred\ufffd[0m", shown)


@needs_browser
class InABrowser(ReportTest):
    def test_a_bar_and_its_word_light_up_together(self) -> None:
        self.made({"a.xml": self.sample("port.xml").replace("DURING", "AFTER")})
        with Browser() as browser:
            browser.open(self.path("pages/" + self.page_name("a.xml")))
            marked = "[...document.querySelectorAll('.on[id]')].map((one) => one.id).sort().join(' ')"
            word = browser.value("document.querySelector('#bar6').dataset.word")
            browser.click("#bar6")
            self.assertEqual(browser.value(marked), f"bar6 {word}")
            self.assertIn("waited (ei5): event", browser.value("document.querySelector('#panel').innerText"))
            self.assertEqual(browser.value("document.querySelectorAll('.arcs text').length"), 3)
            browser.click("#bar6")
            other = browser.value("document.querySelector('a.mark').dataset.bars")
            browser.click("a.mark")
            self.assertEqual(browser.value(marked), f"bar{other} word0")
            browser.press("Escape", 27)
            self.assertEqual(browser.value(marked), "")
            self.assertEqual(browser.said, [])

    def test_keys(self) -> None:
        self.made({"a.xml": self.sample("rates.xml")})
        with Browser() as browser:
            browser.open(self.path("pages/" + self.page_name("a.xml")))
            browser.value("document.querySelector('#bar0').focus()")
            browser.press("ArrowDown", 40)
            self.assertEqual(
                browser.value("document.activeElement.id + ' ' + document.activeElement.getAttribute('class')"), "bar1 leading row event on"
            )
            reached = set()
            browser.value("document.activeElement.blur()")
            for _ in range(40):
                browser.press("Tab", 9)
                reached.add(browser.value("document.activeElement.id || document.activeElement.textContent"))
            self.assertLessEqual({"word0", "Draw all links", "draw"}, reached)
            for group in ("bar", "word"):
                self.assertEqual(len([one for one in reached if one.startswith(group)]), 1, "one of a group is a stop of the tabulator")
            self.assertEqual(browser.said, [])

    def test_a_clash_is_walked_through(self) -> None:
        self.made({"a.xml": self.sample("port.xml")}, status=1)
        with Browser() as browser:
            browser.open(self.path("pages/" + self.page_name("a.xml")))
            seen = []
            for _ in range(6):
                browser.click(".clash .tools button")
                seen.append(
                    browser.value("[...document.querySelectorAll('.mark.on')].map((one) => one.dataset.intervals).sort().join(' ')")
                )
                self.assertEqual(browser.value("document.querySelectorAll('.arcs text').length"), 1)
            self.assertEqual(seen, ["ei5 ei9", "ei4 ei5", "ei4 t1", "t1 t2", "ei9 t2", "ei5 ei9"])
            self.assertEqual(browser.said, [])

    def test_links_are_drawn_on_demand(self) -> None:
        self.made({"a.xml": self.sample("port.xml")}, status=1)
        with Browser() as browser:
            browser.open(self.path("pages/" + self.page_name("a.xml")))
            drawn = "[...document.querySelectorAll('.arcs text')].map((one) => one.textContent).join(' ')"
            self.assertEqual(browser.value(drawn), "")
            browser.click("#link5 button")
            self.assertEqual(browser.value(drawn), "DURING")
            browser.click("#link5 button")
            self.assertEqual(browser.value(drawn), "")
            browser.click("#links .tools button")
            self.assertEqual(len(browser.value(drawn).split(" ")), 13)

    def test_the_index_is_sorted_and_searched(self) -> None:
        documents = {
            f"{name}.xml": document("".join(event(number) for number in range(count))) for name, count in (("b", 1), ("a", 10), ("c", 2))
        }
        self.made({**documents, "d.xml": "<TimeML>"}, status=1)
        with Browser() as browser:
            browser.open(self.path("pages/index.html"))
            rows = "[...document.querySelectorAll('#documents tbody tr')]"
            order = rows + ".filter((row) => !row.hidden).map((row) => row.cells[0].textContent[7]).join('')"
            self.assertEqual(browser.value(order), "abcd")
            seen = []
            for column in (8, 8, 1, 1, 2):
                browser.click(f"#documents thead th:nth-child({column}) button")
                seen.append(browser.value(order))
            self.assertEqual(seen, ["acbd", "bcad", "abcd", "dcba", "abcd"])
            browser.value("document.querySelector('#search input').focus()")
            browser.ask("Input.insertText", text="FAULT")
            self.assertEqual(browser.value(order + " + document.querySelector('output').textContent"), "d 1 of 4")
            browser.value("[...document.querySelectorAll('.totals button')].find((one) => one.textContent === 'no-creation-time').click()")
            self.assertEqual(browser.value(order), "abc")
            self.assertEqual(browser.said, [])

    def test_without_scripts(self) -> None:
        self.made({"a.xml": self.sample("rates.xml")})
        page = self.page_name("a.xml")
        with Browser() as browser:
            browser.ask("Emulation.setScriptExecutionDisabled", value=True)
            browser.open(self.path("pages/" + page))
            self.assertEqual(browser.value("document.querySelectorAll('button, #panel').length"), 0)
            browser.click("#bar0")
            word = browser.value("document.querySelector('#bar0').dataset.word")
            self.assertEqual(browser.value("document.querySelector('.mark:target').id"), word)
            self.assertNotEqual(browser.value("getComputedStyle(document.querySelector('.mark:target')).outlineStyle"), "none")
            self.assertEqual(browser.said, [])

    def test_dark(self) -> None:
        self.made({"a.xml": self.sample("rates.xml")})
        with Browser() as browser:
            browser.open(self.path("pages/" + self.page_name("a.xml")))
            seen = "getComputedStyle(document.querySelector('.picture')).filter"
            colours = f"[getComputedStyle(document.body).backgroundColor, {seen}].join(' ')"
            light = browser.value(colours)
            browser.ask("Emulation.setEmulatedMedia", features=[{"name": "prefers-color-scheme", "value": "dark"}])
            dark = "rgb(21, 24, 28) invert(1) hue-rotate(180deg)"
            self.assertEqual((light, browser.value(colours)), ("rgb(255, 255, 255) none", dark))


class Parts(unittest.TestCase):
    def test_an_index_that_was_interrupted(self) -> None:
        from tml_corpus.pages.documents import Entry
        from tml_corpus.pages.index import index_of

        entries = [Entry("a.xml", None, "not judged", "why")]
        self.assertNotIn("Interrupted", index_of(entries, 1))
        self.assertIn("Interrupted: 1 of 3 documents were looked at.", index_of(entries, 3))
        self.assertIn("Report on 0 documents", index_of([], 0))

    def test_a_link_to_the_page_for_browsers_if_it_is_there(self) -> None:
        from tml_corpus.asking.program import CannotRun
        from tml_corpus.pages.report import Folder

        with tempfile.TemporaryDirectory() as held:
            page, index = Path(held, "tml.html"), Path(held, "index.html")
            page.write_text("mine", encoding="utf-8")
            folder = Folder(held)
            folder.prepare()
            folder.write_index(0)
            links = [one.get("href") for one in ElementTree.fromstring(index.read_bytes()).iter(XHTML + "a")]
            self.assertEqual((links, page.read_text(encoding="utf-8")), (["tml.html"], "mine"))
            page.unlink()
            folder.write_index(0)
            self.assertNotIn("tml.html", index.read_text(encoding="utf-8"))
        with tempfile.TemporaryDirectory() as held:
            for name in ("tml.html", "notes.txt"):
                Path(held, name).touch()
            with self.assertRaisesRegex(CannotRun, "not part of a report"):
                Folder(held).prepare()

    def test_readable_texts(self) -> None:
        from tml.markup import harmless

        rows = [
            ("a\r\nb\rc\td", "a\nb\nc d"),
            ("\u202ea\u2066", "a"),
            ("\x1b[0m\x00", "\ufffd[0m\ufffd"),
            ("\u200cx\u200d", "\u200cx\u200d"),
            ("\ud800", "\ufffd"),
        ]
        for text, shown in rows:
            with self.subTest(text):
                self.assertEqual(harmless(text), shown)


class Walks(unittest.TestCase):
    def test_orders_are_those_of_the_reference(self) -> None:
        from reference.relations import ORDERS
        from tml.statuses import ORDERS as PLACED

        names = {"A0": "a.start", "A1": "a.finish", "B0": "b.start", "B1": "b.finish"}
        signs = {"<": "<", "=": "<="}
        orders = {
            relation.encode(): tuple(f"{names[one[:2]]} {signs[one[2]]} {names[one[3:]]}" for one in texts)
            for relation, texts in PLACED.items()
        }
        self.assertEqual(orders, dict(ORDERS))


if __name__ == "__main__":
    unittest.main()
