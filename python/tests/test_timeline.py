"""`tml-corpus timeline`: rows in the order of starts, escaped texts, clashes and faults, and that only what is verified is drawn."""

import html.parser
import json
import os
import re
import unittest
import xml.etree.ElementTree as ElementTree
from typing import Any

from browser import needs_browser
from corpus import EVENT, INSTANCE, TML, TOP, CorpusTest, document, needed, needs_matrix, text_at
from looking import opened
from picture_reader import Picture
from tml.statuses import INTERVAL_LIMIT
from tml_corpus.figure.shapes import LABEL
from tml_corpus.timeline.lettering import measured

Attributes = list[tuple[str, str | None]]
SVG = "{http://www.w3.org/2000/svg}"
XHTML = "{http://www.w3.org/1999/xhtml}"


def event(number: int, text: str = "x") -> str:
    """An event and its instance."""
    return f'<EVENT eid="e{number}" class="STATE">{text}</EVENT><MAKEINSTANCE eiid="i{number}" eventID="e{number}"/>\n'


def link(left: int, relation: str, right: int) -> str:
    """A TLINK between two instances."""
    return f'<TLINK eventInstanceID="i{left}" relatedToEventInstance="i{right}" relType="{relation}"/>\n'


SEEN = {
    "links": "[...document.querySelectorAll('#links div')].map((one) => one.textContent)",
    "drawn": "[...document.querySelectorAll('.relation')].map((one) => one.textContent)",
    "sequence": "[...document.querySelectorAll('.row')].map((one) => Number(one.id.slice(3)))",
    "dim": "rows.map((row) => row.classList.contains('dim'))",
    "faint": "rows.map((row, place) => bars[place].every((part) => part.classList.contains('dim')))",
}
"""What is looked at in a page: the panel, the relations of links, the order of the rows, and those that were not found."""


class Parsed(html.parser.HTMLParser):
    """The tags of a page that are open, and the names of all that were opened."""

    def __init__(self, text: str) -> None:
        super().__init__()
        self.open: list[str] = []
        self.names: list[str] = []
        self.wrong: list[str] = []
        self.feed(text)
        self.close()

    def handle_starttag(self, tag: str, attrs: Attributes) -> None:
        self.names.append(tag)
        self.open.append(tag)

    def handle_startendtag(self, tag: str, attrs: Attributes) -> None:
        self.names.append(tag)

    def handle_endtag(self, tag: str) -> None:
        if not self.open or self.open.pop() != tag:
            self.wrong.append(tag)


class TimelineTest(CorpusTest):
    def drawn(self, content: str, name: str = "d.svg") -> str:
        """The picture of a document, as text."""
        self.write("d.xml", content)
        status, lines, error = self.run_it("timeline", "d.xml", "-o", name)
        self.assertEqual((status, error), (0, ""), lines)
        self.assertRegex(lines[0], rf"^d\.xml: drawn in {re.escape(name)}: \d+ intervals?, \d+ links?, an axis of \d+ places?$")
        with open(self.path(name), encoding="utf-8", newline="") as file:
            return file.read()

    def rows(self, picture: str) -> dict[str, str]:
        """The kind of each interval that has a bar, in the order of the file."""
        return {bar.name: bar.classes[1] for bar in Picture.read(picture).bars}

    def texts(self, picture: str) -> list[str]:
        """The texts of a picture."""
        return [text for *_, text in Picture.read(picture).texts]

    def titles(self, picture: str) -> list[str]:
        """What is shown of each bar."""
        return [title.text or "" for title in ElementTree.fromstring(picture.encode()).iterfind(f".//{SVG}g/{SVG}title")]

    def shown(self, content: str, *words: str) -> Any:
        """What the panel of a page has after something is done: `focus:1` to the second row, `Enter:1` a key there, `search:word`.

        `see:` answers something else, by the names of `SEEN`.
        """
        self.drawn(content, "d.html")
        with opened() as browser:
            browser.open(self.path("d.html"))
            found = [self.done(browser, *word.split(":")) for word in words]
            self.assertEqual(browser.said, [])
        return found

    def done(self, browser: Any, kind: str, place: str) -> Any:
        """What is seen after something is done."""
        if kind == "see":
            return browser.value(SEEN[place])
        one = f"document.querySelectorAll('.row')[{place}]" if place.isdigit() else f"document.getElementById({place!r})"
        if kind == "search":
            browser.value(f"search.value = {place!r}")
            one, kind = "search", "input"
        if kind == "focus":
            browser.value(f"{one}.focus()")
        elif kind in ("click", "pointermove", "input"):
            browser.value(f"{one}.dispatchEvent(new Event({kind!r}))")
        else:
            browser.value(f"{one}.dispatchEvent(new KeyboardEvent('keydown', {{ key: {kind!r} }}))")
        return browser.value(SEEN["links"])

    def refused(self, status: int, content: str, *words: str, tml: str = TML) -> list[str]:
        """What is printed of a document that is not drawn; there is no file then, and nothing is left of one."""
        self.write("d.xml", content)
        printed, lines, error = self.run_it("timeline", "d.xml", "-o", "d.svg", *words, tml=tml)
        self.assertEqual((printed, error), (status, ""), lines)
        self.assertEqual([name for name in os.listdir(self.folder) if name not in ("d.xml", "fake")], [])
        return lines


class Rows(TimelineTest):
    def mended(self) -> str:
        """The sample without its clash."""
        lines = text_at("samples/port.xml").splitlines(keepends=True)
        return "".join(line.replace("DURING", "AFTER") if 'lid="l6"' in line else line for line in lines)

    def test_the_mended_sample(self) -> None:
        picture = self.drawn(self.mended())
        rows = self.rows(picture)
        self.assertEqual({name for name, kind in rows.items() if kind == "exact"}, {"t0", "t1", "t2"})
        self.assertEqual({name for name, kind in rows.items() if kind == "event"}, {f"ei{number}" for number in range(1, 11)})
        axis = [" ".join(sorted(points)) for _, points in Picture.read(picture).places]
        names = "t1-,ei3-,ei3+,ei4-,ei4+,t1+,t2-,ei5+ ei9-,ei9+,t0- t2+,ei10-,ei10+,t0+"
        self.assertEqual(",".join(axis), names)

    def test_the_picture_of_the_sample_is_that_of_the_command(self) -> None:
        self.write("mended.xml", self.mended())
        self.assertEqual(self.run_it("timeline", "mended.xml", "-o", "port.svg")[0], 0)
        with open(self.path("port.svg"), "rb") as made, open(os.path.join(TOP, "samples", "port.svg"), "rb") as kept:
            content = kept.read()
            self.assertEqual(made.read(), content)
        self.assertLess(len(content), 30_000)

    def test_links_are_told_in_the_words_of_the_text(self) -> None:
        [printed] = {title for title in self.titles(self.drawn(self.mended())) if title.startswith("waited (ei5)")}
        links = ["waited AFTER closed (l6: ei5 AFTER ei4)", "turned IS_INCLUDED waited (l7: ei6 IS_INCLUDED ei5)"]
        ends = ["starts after the end of closed (ei4) and before the start of reopened (ei9)", "ends at the start of reopened (ei9)"]
        ends.append("the start of waited (ei5) is before the start of turned (ei6)")
        said = ["waited (ei5): event", "Three ships waited while it was closed, and", *ends, *links]
        self.assertEqual(printed.split("\n"), [*said, "waited IBEFORE reopened (l12: ei5 IBEFORE ei9)"])

    def test_intervals_that_overlap(self) -> None:
        times = '<TIMEX3 tid="a" type="SET"/>\n<TIMEX3 tid="b" type="SET"/>\n'
        picture = self.drawn(document(times + '<TLINK timeID="b" relatedToTime="a" relType="OVERLAPPED_BY"/>'))
        self.assertEqual([points for _, points in Picture.read(picture).places], [["a-"], ["b-"], ["a+"], ["b+"]])
        self.assertIn("b OVERLAPPED_BY a (link 0: b OVERLAPPED_BY a)", self.titles(picture)[0])

    def test_kinds_and_dates(self) -> None:
        times = [
            ("a", "DATE", "1998-01-08", "exact", "8 January 1998"),
            ("b", "TIME", "1998-01-08T18:30:05", "exact", "8 January 1998, 18:30:05 to 18:30:06"),
            ("c", "DATE", "1998-01-XX", "within", "within January 1998"),
            ("d", "DURATION", "P3D", "free", "no date"),
            ("e", "DATE", "1998-H2", "exact", "July to December 1998"),
            ("f", "DATE", "199", "exact", "1990 to 1999"),
            ("g", "DATE", "19", "exact", "1900 to 1999"),
            ("h", "DATE", "1998-HX", "within", "within 1998"),
        ]
        picture = self.drawn(
            document(
                "".join(f'<TIMEX3 tid="{name}" type="{kind}" value="{value}"/>\n' for name, kind, value, _, _ in times) + EVENT + INSTANCE
            )
        )
        kinds = self.rows(picture)
        self.assertEqual(kinds, {name: kind for name, _, _, kind, _ in times if kind != "free"})
        shown = self.texts(picture)
        for _, _, _, kind, civil in times:
            self.assertEqual(civil in shown or re.sub("([A-Z][a-z][a-z])[a-z]+", r"\1", civil) in shown, kind == "exact", civil)
        self.assertIn("1998-01-08T00:00:00 to 1998-01-09T00:00:00", picture)
        self.assertIn("P3D (d)", shown)

    def test_what_a_picture_means_is_said(self) -> None:
        said = " ".join(self.texts(self.drawn(document(event(1) + event(2) + event(3) + link(1, "BEFORE", 2) + link(1, "BEFORE", 3)))))
        for words in (
            "start or end, before all to its right; width says nothing",
            "may last, up to a line only if it touches it",
            "no limit",
        ):
            self.assertIn(words, said)

    def test_numbers_of_intervals(self) -> None:
        for count in (0, 1, 2, 100, INTERVAL_LIMIT):
            with self.subTest(count):
                events = "".join(event(number) for number in range(count))
                picture = self.drawn(document(events + "".join(link(number, "AFTER", number - 1) for number in range(1, count))))
                listed = Picture.read(picture).listed
                self.assertEqual([*self.rows(picture), *listed], [f"i{number}" for number in range(count)])
                self.assertEqual("There is no interval" in picture, count == 0)
                seen = Picture.read(picture)
                self.assertTrue(all(0 <= bar.left <= bar.right <= seen.width for bar in seen.bars))


class Strangers(TimelineTest):
    TEXTS = ("<b>&amp;", "\"q\" 'x' ]]>", "日本語", "Straße 𝄞", "</title></svg><script>x</script>", "&#0;&#xFFFF;", "\x01\u202ey", "")

    def content(self) -> str:
        escaped = [text.replace("&", "&amp;").replace("<", "&lt;") if "#" not in text else text for text in self.TEXTS]
        links = "".join(link(number, "BEFORE", number + 1) for number in range(len(self.TEXTS) - 1))
        return document("".join(event(number, text) for number, text in enumerate(escaped)) + links)

    def test_texts_are_escaped(self) -> None:
        picture = self.drawn(self.content())
        made = [*self.TEXTS[:4], "\ufffd", "\ufffdy", "i7"]
        self.assertLessEqual(set(made), set(self.texts(picture)))
        self.assertTrue(any(text.startswith("</title></svg><script>") for text in self.texts(picture)))
        told = self.titles(picture)[0].split("\n")
        self.assertEqual(told[:2], ["<b>&amp; (i0): event", "<b>&amp; \"q\" 'x' ]]> 日本語 Straße"])
        self.assertTrue(told[3].startswith("<b>&amp; BEFORE \"q\" 'x' ]]> (link 0: "))

    @needs_matrix
    def test_pages_parse_and_load_nothing(self) -> None:
        for content in (self.content(), document(""), document(event(1) + link(1, "IDENTITY", 1))):
            page = self.drawn(content, "d.html")
            root = ElementTree.fromstring(page.encode())
            parsed = Parsed(page)
            self.assertEqual((parsed.open, parsed.wrong), ([], []))
            self.assertEqual(parsed.names.count("script"), 4)
            self.assertEqual([tag.tag for tag in root], [XHTML + "head", XHTML + "body"])
            self.assertEqual([one.get("id") for one in root.iter(SVG + "svg")], [None, "narrow", None, "wide"])
            self.assertEqual([tag.get(name) for tag in root.iter() for name in ("src", "href") if tag.get(name)], ["#narrow", "#wide"])
            self.assertIn("default-src 'none'", page)

    @needs_matrix
    def test_the_rows_that_a_page_marks_are_those_of_the_links(self) -> None:
        links = link(3, "BEFORE", 1) + link(2, "AFTER", 1) + link(3, "IDENTITY", 3)
        page = self.drawn(document(event(1) + event(2) + event(3) + links), "d.html")
        [ends] = re.findall(r'<script type="application/json" id="ends">(.*?)</script>', page)
        rows = [f"({one.get('data-interval')}):" for one in ElementTree.fromstring(page.encode()).iter(XHTML + "div") if one.get("title")]
        self.assertEqual((rows, ends), (["(i3):", "(i1):", "(i2):"], '[[0,"BEFORE",1],[2,"AFTER",1],[0,"IDENTITY",0]]'))

    def test_long_texts_are_cut(self) -> None:
        for text in ("word " * 50, "W" * 300, "日" * 300, "e\u0301" * 300):
            with self.subTest(text[:9]):
                picture = self.drawn(document(event(1, text) + event(2) + link(1, "BEFORE", 2)))
                self.assertEqual(len([label for label in self.texts(picture) if re.fullmatch(r".{10,160}(…|\.\.\.)", label)]), 1)
                self.assertIn(" ".join(text.split())[:77] + "... (i1)", self.titles(picture)[0])

    def test_names_of_files(self) -> None:
        name = 'a<&">é\udce9\n.xml'
        self.write(name, document(event(1)))
        status, lines, _ = self.run_it("timeline", name, "-o", "d.svg")
        self.assertEqual((status, lines[0].split(": ")[0]), (0, 'a<&">é\\xe9\\x0a.xml'))
        heading = needed(ElementTree.parse(self.path("d.svg")).getroot().find(SVG + "title")).text
        self.assertEqual(heading, 'Timeline of a<&">é\ufffd .xml')


@needs_browser
@needs_matrix
class Open(TimelineTest):
    """What a page shows of what is open."""

    DURING = document(event(1, "a&lt;b") + event(2, "&amp;") + event(3) + link(1, "DURING", 2))

    def test_the_row_that_is_pointed_at(self) -> None:
        [first], [second] = self.shown(self.DURING, "focus:0"), self.shown(self.DURING, "pointermove:1")
        ends = ["starts not after the start of a<b (i1)", "ends not before the end of a<b (i1)"]
        said = "a<b DURING & (link 0: i1 DURING i2)"
        self.assertEqual(first[:3], ["a<b (i1): event", "a<b & x", said])
        self.assertEqual(second[2:5], [*ends, said])
        self.assertEqual(first[3:5], ["What it can be to the others:", "IS_INCLUDED or SIMULTANEOUS or BEGINS or ENDS: & (i2)"])
        self.assertEqual(first[5:], ["any relation: x (i3)"])
        self.assertEqual(second[6], "INCLUDES or SIMULTANEOUS or BEGUN_BY or ENDED_BY: a<b (i1)")

    def test_a_row_is_kept_by_a_click_and_by_a_key(self) -> None:
        for pin in ("click", "Enter", " "):
            panels = self.shown(self.DURING, "focus:0", f"{pin}:0", "focus:1", "pointermove:2", f"{pin}:0", "pointermove:1")
            self.assertEqual([lines[0][:3] for lines in panels], ["a<b"] * 5 + ["& ("])

    def test_arrow_keys_go_from_row_to_row(self) -> None:
        panels = self.shown(self.DURING, "focus:0", "ArrowDown:0", "ArrowDown:1", "ArrowDown:2", "ArrowUp:2", "ArrowUp:0", "x:0")
        self.assertEqual([lines[0].split(" ")[1] for lines in panels], [f"(i{number}):" for number in (1, 2, 3, 3, 2, 2, 2)])

    def test_one_question_is_asked(self) -> None:
        fake = self.fake(f'echo "$1" >> asked\nexec {TML} "$@"')
        self.write("d.xml", self.DURING)
        for name, count in (("d.html", 1), ("d.svg", 1)):
            self.write("asked", "")
            self.assertEqual(self.run_it("timeline", "d.xml", "-o", name, tml=fake)[0], 0)
            with open(self.path("asked"), encoding="utf-8") as file:
                self.assertEqual(file.read().split().count("matrix"), count)

    def test_answers_that_do_not_belong_together(self) -> None:
        apart, solved = (f"the answers of tml to `{command}` and `matrix` do not belong together" for command in ("check", "solve"))
        rows = [
            ("sed 1d", apart),
            ("sed s/^i1/i2/", apart),
            ("cat - d.xml", apart),
            ("sed 's/ IS_INCLUDED SIM/ SIM IS_INCLUDED/'", "the answer of tml to `matrix` cannot be read"),
            ("sed 's/ .*//'", apart),
            ("sed 's/^i1 i2 .*/i1 i2 AFTER/;s/^i. i3 .*/& BEFORE/'", "the answer of tml to `matrix` cannot be read"),
            ("sed 's/ BEFORE AFTER.*$/ BEFORE/'", solved),
        ]
        for change, said in rows:
            with self.subTest(change):
                fake = self.fake(f'if [ $1 = matrix ]; then {TML} "$@" | {change}; exit 0; fi\nexec {TML} "$@"')
                self.write("d.xml", self.DURING)
                status, lines, _ = self.run_it("timeline", "d.xml", "-o", "d.html", tml=fake)
                self.assertEqual((status, lines), (2, [f"d.xml: not judged: {said}"]))

    def test_documents_of_all_sizes(self) -> None:
        for count in (0, 1, 2, 300):
            with self.subTest(count):
                links = "".join(link(number, "BEFORE", number + 1) for number in range(count - 1))
                page = self.drawn(document("".join(event(number) for number in range(count)) + links), "d.html")
                [text] = re.findall(r'<script type="application/json" id="possible">(.*?)</script>', page)
                self.assertEqual([len(row) for row in json.loads(text)["rows"]], list(reversed(range(count))))


class NotDrawn(TimelineTest):
    def instead(self, content: str, name: str, *words: str) -> tuple[list[str], str]:
        """What is printed of a document that no timeline fits, and the texts of the picture that is drawn instead."""
        self.write("d.xml", content)
        status, lines, error = self.run_it("timeline", "d.xml", "-o", name, *words)
        self.assertEqual((status, error), (1, ""), lines)
        with open(self.path(name), encoding="utf-8") as file:
            root = ElementTree.fromstring(file.read())
        return lines, " ".join(one.text or "" for one in root.iter(SVG + "text") if one.get("fill") != "none")

    def test_links_that_clash_are_those_of_clashes(self) -> None:
        for name in ("d.svg", "d.html"):
            lines, shown = self.instead(text_at("samples", "plant.xml"), name)
            clashes = self.run_it("clashes", "d.xml")[1][:-1]
            self.assertEqual(len([line for line in clashes if ": error: clash, " in line]), 3)
            said = ["d.xml: not drawn: no timeline fits, since these links clash", f"d.xml: its first clash is drawn in {name}"]
            self.assertEqual(lines, [*clashes, *said])
            self.assertRegex(shown, "1 (start|end) of .* is (before|no later than) .* So the .* would be before itself")

    def test_a_fault_is_that_of_check(self) -> None:
        faulty = document(EVENT + "<EVENT/>")
        for name, words in (("d.svg", ()), ("d.html", ()), ("d.svg", ("--seconds",)), ("d.svg", ("--bare", "--width", "40mm"))):
            lines, shown = self.instead(faulty, name, *words)
            self.assertEqual(lines, [*self.run_it("check", "--quiet", "d.xml")[1], f"d.xml: its fault is drawn in {name}"])
            self.assertTrue(lines[0].startswith("d.xml:2:40: error: 10 MissingAttribute: "), lines)
            self.assertIn("<EVENT/>", shown.split())
            self.assertIn("Line 2, column 40: MissingAttribute: ", shown)

    def test_the_place_of_a_fault_is_in_the_picture(self) -> None:
        for text in ("x" * 500, "\u738b" * 500, "a\u0301" * 300, "\u202e<!-- -->\t" * 20, ""):
            for after in ("y" * 500, "\u0633" * 90, ""):
                _, shown = self.instead(f"<TimeML>{text}<EVENT/>{after}</TimeML>", "d.svg", "--bare")
                self.assertIn(" <EVENT/> ", f" {shown} ")
                with open(self.path("d.svg"), encoding="utf-8") as file:
                    root = ElementTree.fromstring(file.read())
                width = float(root.get("viewBox", "").split()[2])
                for one in root.iter(SVG + "text"):
                    room = measured(one.text or "", LABEL) * {"start": 1, "middle": 0.5, "end": 0}[one.get("text-anchor", "start")]
                    self.assertLessEqual(float(one.get("x", "")) + room, width)
                    self.assertGreaterEqual(float(one.get("x", "")) + room - measured(one.text or "", LABEL), 0)

    def test_only_what_verify_accepts_is_drawn(self) -> None:
        content = document(event(1) + event(2) + link(1, "BEFORE", 2))
        rows = [
            ("s/^at 0 1$/at 2 3/", "tml verify did not accept the timeline of tml solve: evidence claim 0 part 1 Link 0"),
            ("s/^timeline 2$/timeline 1/", "tml verify did not accept the timeline of tml solve: evidence line 5"),
            ("s/^timeline 2$/counter 1 BEFORE 0\\ntimeline 2/", "tml answered status 0 to `solve`, and a text that does not go with it"),
            ("s/^at 2 3$/at 4 5/", "the timeline that tml solve printed is not the least one"),
            ("s/^at 2 3$/at 2 4294967295/", "the timeline that tml solve printed is not the least one"),
        ]
        for change, printed in rows:
            with self.subTest(change):
                fake = self.fake(f'if [ $1 = solve ]; then {TML} "$@" | sed "{change}"; exit 0; fi\nexec {TML} "$@"')
                self.assertEqual(self.refused(2, content, tml=fake), [f"d.xml: not judged: {printed}"])

    def test_verify_has_the_last_word(self) -> None:
        refused = "tml verify did not accept the timeline of tml solve: verified clash 0"
        rows = [("echo verified clash 0", refused)]
        rows += [
            (answer, f"tml answered status {status} to `verify`, and a text that does not go with it")
            for answer, status in (("echo verified timeline; exit 7", 7), ("printf 'verified timeline'", 0), ("true", 0))
        ]
        for answer, said in rows:
            with self.subTest(answer):
                fake = self.fake(f'if [ $1 = verify ]; then {answer}; exit; fi\nexec {TML} "$@"')
                [line] = self.refused(2, document(event(1)), tml=fake)
                self.assertEqual(line, f"d.xml: not judged: {said}")

    def test_answers_that_do_not_belong_together(self) -> None:
        for answer in (
            "solve ] && echo fault 10 MissingAttribute 9 && exit 1",
            "solve ] && exit 2",
            "solve ] && exit 6",
            "dates ] && exit 0",
        ):
            with self.subTest(answer):
                fake = self.fake(f'[ $1 = {answer}\nexec {TML} "$@"')
                [line] = self.refused(2, document(event(1) + '<TIMEX3 tid="t" type="DATE"/>'), tml=fake)
                self.assertTrue(line.startswith("d.xml: not judged: "), line)

    def test_files_that_cannot_be_read_or_written(self) -> None:
        self.write("d.xml", document(event(1)))
        os.mkdir(self.path("dir.svg"))
        os.link(self.path("d.xml"), self.path("same.svg"))
        rows = [
            (["gone.xml", "-o", "a.svg"], "gone.xml: not judged: no such file or directory"),
            ([".", "-o", "a.svg"], ".: not judged: is not a regular file"),
            (["d.xml", "-o", "same.svg"], "d.xml: not judged: the picture would be written over it"),
            (["d.xml", "-o", "gone/a.svg"], "tml-corpus: gone/a.svg cannot be written: no such file or directory"),
            (["d.xml", "-o", "dir.svg"], "tml-corpus: dir.svg cannot be written: is not a regular file"),
            (["d.xml", "-o", "a.png"], "a.png ends in none of .svg, .html, .pdf and .tex"),
            (["d.xml"], "required: -o/--output"),
        ]
        for words, printed in rows:
            with self.subTest(words):
                status, lines, error = self.run_it("timeline", *words)
                self.assertEqual(status, 2)
                self.assertIn(printed, "\n".join(lines) + error)
        self.assertEqual(sorted(os.listdir(self.folder)), ["d.xml", "dir.svg", "same.svg"])

    def test_a_picture_that_is_there_stays_if_none_is_drawn(self) -> None:
        self.write("d.svg", "old")
        self.assertEqual(self.run_it("timeline", "gone.xml", "-o", "d.svg")[0], 2)
        with open(self.path("d.svg"), encoding="utf-8") as file:
            self.assertEqual(file.read(), "old")
        self.drawn(document(event(1)))

    def test_help_has_an_example(self) -> None:
        status, lines, _ = self.run_it("timeline", "--help")
        self.assertEqual(status, 0)
        self.assertIn("Example: tools/tml-corpus timeline samples/rates.xml -o rates.html", " ".join(lines))


if __name__ == "__main__":
    unittest.main()
