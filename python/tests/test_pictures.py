"""Pictures of timelines: what they state is what `tml matrix` says, read from their geometry; and they can be read."""

from __future__ import annotations

import functools
import importlib.util
import itertools
import random
import re
import subprocess
import unittest
import xml.etree.ElementTree as ElementTree
from collections import Counter
from collections.abc import Collection, Iterator, Mapping

from browser import needs_browser
from corpus import TML, CorpusTest, by_library, needs_library, needs_matrix, text_at
from hard_documents import ORDINARY, WORDS, hard_document, labels_of
from looking import opened
from picture_forms import by_pdf, by_tex
from picture_reader import SVG, Picture, Statement
from reference.relations import holds
from tml.statuses import BASE_RELATIONS, RELATIONS
from tml_corpus.figure.draw import PAGE, SCREEN, Paper, width_of
from tml_corpus.timeline.lettering import measured, plain
from tml_corpus.timeline.timeline import Choices, draw_document

DOCUMENTS = 200
needs_cairo = unittest.skipUnless(importlib.util.find_spec("cairosvg"), "no library cairosvg")

KINDS = ("places in order", "places at once", "full from", "full to", "reaches from", "reaches to", "may reach", "open side",
         "mark begun", "mark not-ended", "line before", "line never-after", "line together", "listed", "in words")  # fmt: skip
"""The kinds of statements that each form makes somewhere."""


def signs_of_relations() -> dict[str, tuple[str, str, str, str]]:
    """Of each base relation how the start and the end of an interval are to the start and the end of another one, by the reference."""
    intervals = list(itertools.combinations(range(4), 2))
    found = {}
    for relation in BASE_RELATIONS:
        one, other = next(pair for pair in itertools.product(intervals, repeat=2) if holds(pair[0], relation.encode(), pair[1]))
        signs = ["<" if first < second else "=" if first == second else ">" for first in one for second in other]
        found[relation] = (signs[0], signs[1], signs[2], signs[3])
    return found


SIGNS = signs_of_relations()


class Truth:
    """What `tml matrix` says of the points of a document: which are never after which others, and which are before them."""

    def __init__(self, text: str) -> None:
        self.never_after: set[tuple[str, str]] = set()
        self.before: set[tuple[str, str]] = set()
        self.decided: list[tuple[str, str]] = []
        for line in text.splitlines():
            first, second, *relations = line.split(" ")
            self.note(first + "-", first + "+", {"<"})
            self.note(second + "-", second + "+", {"<"})
            for place, (one, other) in enumerate(itertools.product("-+", repeat=2)):
                self.note(first + one, second + other, {SIGNS[relation][place] for relation in relations})
            if len(relations) == 1:
                self.decided.append((first, second))

    def note(self, first: str, second: str, signs: set[str]) -> None:
        """Notes how one point can be to another one."""
        self.never_after |= {(point, point) for point in (first, second)}
        self.never_after |= {pair for pair, wrong in (((first, second), ">"), ((second, first), "<")) if wrong not in signs}
        self.before |= {pair for pair, only in (((first, second), {"<"}), ((second, first), {">"})) if signs == only}

    def confirms(self, said: Statement) -> bool:
        """Whether a statement is so."""
        pair, turned = (said.first, said.second), (said.second, said.first)
        if said.sign == "may be <":
            return turned not in self.never_after
        return {"<": pair in self.before, "≤": pair in self.never_after, "=": {pair, turned} <= self.never_after}[said.sign]


def closure(statements: list[Statement], points: set[str]) -> tuple[set[tuple[str, str]], set[tuple[str, str]]]:
    """What follows from statements: which points are never after which others, and which are before them."""
    weak = {(point, point) for point in points} | {(point, point[:-1] + "+") for point in points}
    strict = {(point, point[:-1] + "+") for point in points if point.endswith("-")}
    for said in statements:
        if said.sign != "may be <":
            weak.add((said.first, said.second))
            weak |= {(said.second, said.first)} if said.sign == "=" else set()
            strict |= {(said.first, said.second)} if said.sign == "<" else set()
    for middle in points:
        into, out = [one for one in points if (one, middle) in weak], [one for one in points if (middle, one) in weak]
        for one, other in itertools.product(into, out):
            weak.add((one, other))
            if (one, middle) in strict or (middle, other) in strict:
                strict.add((one, other))
    return weak, strict


def random_document(number: int) -> str:
    """A document that some timeline fits: links that hold between intervals whose places are drawn first, dates, and durations."""
    chance = random.Random(f"pictures {number}")
    tags, intervals, links = [], {}, []
    for place in range(chance.randrange(2, 12)):
        name, kind = f"i{place}", chance.choice(["event"] * 5 + ["exact", "exact", "within", "free"])
        first = chance.randrange(0, 28)
        if kind == "event":
            tags.append(f'<EVENT eid="e{place}" class="STATE">w{place}</EVENT><MAKEINSTANCE eiid="{name}" eventID="e{place}"/>')
        elif kind == "free":
            tags.append(f'<TIMEX3 tid="{name}" type="DURATION" value="P3D">w{place}</TIMEX3>')
        elif kind == "within":
            tags.append(f'<TIMEX3 tid="{name}" type="DATE" value="1998-01-XX">w{place}</TIMEX3>')
        else:
            tags.append(f'<TIMEX3 tid="{name}" type="DATE" value="1998-01-{first + 1:02}">w{place}</TIMEX3>')
        length = {"exact": 4, "within": 4}.get(kind, chance.choice([1, 2, 4, 8, 16, 40]))
        begin = 4 * first if kind in ("exact", "within") else chance.randrange(-20, 130)
        intervals[name] = (begin, begin + length)
    for one, other in itertools.permutations(intervals, 2):
        fitting = [relation for relation in RELATIONS if holds(intervals[one], relation.encode(), intervals[other])]
        if fitting and chance.random() < 0.16:
            is_time = [f'tid="{name}"' in "".join(tags) for name in (one, other)]
            left, right = "timeID" if is_time[0] else "eventInstanceID", "relatedToTime" if is_time[1] else "relatedToEventInstance"
            links.append(f'<TLINK {left}="{one}" {right}="{other}" relType="{chance.choice(fitting)}"/>')
    return "<TimeML>" + ". ".join(tags) + "".join(links) + "</TimeML>"


def layout_of(page: str, name: str) -> str:
    """One of the two pictures of a page."""
    [found] = [one for one in ElementTree.fromstring(page.encode()).iter(SVG + "svg") if one.get("id") == name]
    return ElementTree.tostring(found, encoding="unicode")


class Pictures(CorpusTest):
    """Pictures that are drawn in this process."""

    FORMS: Mapping[str, Paper] = {
        "screen": SCREEN, "84mm": Paper(".svg", width_of("84mm")), "174mm": Paper(".svg", width_of("174mm")),
        "narrow": SCREEN, "wide": SCREEN,
    }  # fmt: skip
    """The forms by their names: files, and the two layouts of a page."""

    def drawn(self, content: str, form: str) -> str:
        """The picture of a document in a form, as the reader takes it."""
        if form in ("narrow", "wide"):
            return layout_of(self.page(content), form)
        return self.made(content, Choices(paper=self.FORMS[form]), "d.svg").decode()

    @functools.lru_cache(1)
    def page(self, content: str) -> str:
        """The page of a document, which has two layouts."""
        return self.made(content, Choices(), "d.html").decode()

    def made(self, content: str, choices: Choices, name: str) -> bytes:
        """The file of a picture."""
        found = draw_document(self.program, "d.xml", content.encode(), name, choices)
        self.assertEqual(found.status, 0, found.text)
        assert found.picture is not None
        return found.picture.encode() if isinstance(found.picture, str) else found.picture

    def setUp(self) -> None:
        super().setUp()
        self.program = by_library()

    def truth(self, content: str) -> Truth:
        """What `tml matrix` says of a document."""
        self.write("d.xml", content)
        done = subprocess.run([TML, "matrix", self.path("d.xml")], stdout=subprocess.PIPE, check=True)
        return Truth(done.stdout.decode())


@needs_matrix
@needs_library
class Stated(Pictures):
    """That pictures state what follows, and nothing else."""

    def test_random_documents(self) -> None:
        self.tried(self.FORMS)

    @needs_cairo
    def test_other_forms(self) -> None:
        self.tried(("pdf", "tex"))

    def drawn(self, content: str, form: str) -> str:
        if form not in ("pdf", "tex"):
            return super().drawn(content, form)
        drawn = self.made(content, Choices(paper=Paper(f".{form}", width_of("84mm"))), f"d.{form}")
        source = super().drawn(content, "84mm")
        return by_pdf(source, drawn) if form == "pdf" else by_tex(source, drawn.decode())

    def tried(self, forms: Collection[str]) -> None:
        """Looks at the statements of all documents in some forms, each of which makes statements of all kinds."""
        counts = {form: Counter[str]() for form in forms}
        decided = 0
        for number in range(DOCUMENTS):
            content = random_document(number)
            truth = self.truth(content)
            for form in forms:
                stated = self.stated(content, form, truth, number)
                counts[form].update(said.kind for said in stated)
            decided += len(truth.decided)
        for form, found in counts.items():
            self.assertEqual([kind for kind in KINDS if not found[kind]], [], form)
        self.assertGreater(decided, 1000)

    def test_what_is_decided_is_exact(self) -> None:
        tags = "".join(f'<EVENT eid="e{n}" class="STATE">w{n}</EVENT><MAKEINSTANCE eiid="i{n}" eventID="e{n}"/>' for n in range(12))
        links = "".join(
            f'<TLINK eventInstanceID="i{n}" relatedToEventInstance="i{n + 1}" relType="{"IBEFORE" if n % 3 else "BEFORE"}"/>'
            for n in range(11)
        )
        picture = Picture.read(self.drawn(f"<TimeML>{tags}{links}</TimeML>", "84mm"))
        self.assertEqual(sum(len(points) for _, points in picture.places), 24)
        self.assertEqual([bar.classes for bar in picture.bars], [("full", "event")] * 12)
        self.assertEqual((picture.lines, picture.marks, picture.listed), ([], [], {}))

    def stated(self, content: str, form: str, truth: Truth, number: int) -> list[Statement]:
        """The statements of a picture, all of which are so, and from which all follows that is known of two points."""
        named = re.findall(r"(?:eiid|tid)=\"(i\d+)\"", content)
        stated = list(Picture.read(self.drawn(content, form)).statements())
        wrong = [said for said in stated if not truth.confirms(said)]
        self.assertEqual(wrong, [], f"document {number}, {form}: {content}")
        weak, strict = closure(stated, {name + end for name in named for end in "-+"})
        self.assertEqual((truth.never_after - weak, truth.before - strict), (set(), set()), f"document {number}, {form}: {content}")
        return stated


SIZES = ((3, 1), (10, 3), (34, 9), (60, 15), (300, 40))
"""How many events and dates the documents have that are made to be hard to draw."""

Box = tuple[float, float, float, float, str]
"""The left, top, right and bottom edge of a text, and its words."""


def apart(one: Box, other: tuple[float, float, float, float]) -> bool:
    """Whether a text is not over something else."""
    return one[2] <= other[0] + 0.02 or other[2] <= one[0] + 0.02 or one[3] <= other[1] or other[3] <= one[1]


def text_boxes(picture: Picture) -> list[Box]:
    """The boxes of the texts of a picture, as broad as they are at most."""
    return [(x, y - 0.72 * size, x + measured(text, size), y + 0.15 * size, text) for x, y, _, size, text in picture.texts]


@needs_matrix
@needs_library
class Read(Pictures):
    """That pictures can be read."""

    def contents(self) -> Iterator[str]:
        """Documents of several kinds and sizes."""
        yield from map(random_document, range(0, DOCUMENTS, 10))
        yield from (text_at("samples", name) for name in ("ferry.xml", "rates.xml", "bridge.xml"))
        yield from (hard_document(events, dates, 1) for events, dates in SIZES)

    def test_texts_and_bars(self) -> None:
        for content, form in itertools.product(self.contents(), self.FORMS):
            picture = Picture.read(self.drawn(content, form))
            with self.subTest(form=form, content=content):
                self.are_texts_apart(picture)
                self.are_bars_apart(picture)
                self.are_texts_over_their_own_bars(picture, {name: plain(text) or name for name, text in labels_of(content).items()})
                self.are_names_of_dates_whole(picture)

    def are_texts_apart(self, picture: Picture) -> None:
        """Each text is in the picture, and over no other text."""
        boxes = text_boxes(picture)
        self.assertEqual({anchor for _, _, anchor, _, _ in picture.texts}, {"start"})
        for left, top, right, bottom, text in boxes:
            self.assertTrue(0 <= left and right <= picture.width + 0.1 and 0 <= top and bottom <= picture.height, text)
        for one, other in itertools.combinations(boxes, 2):
            self.assertTrue(apart(one, other[:4]), (one, other))

    def are_bars_apart(self, picture: Picture) -> None:
        """Bars of different intervals do not meet."""
        for one, other in itertools.combinations(picture.whole_bars(), 2):
            is_apart = min(one.right, other.right) <= max(one.left, other.left) + 0.02 or min(one.bottom, other.bottom) <= max(
                one.top, other.top
            )
            self.assertTrue(is_apart, (one, other))

    def are_texts_over_their_own_bars(self, picture: Picture, labels: Mapping[str, str]) -> None:
        """A text that is over a bar is the label of that bar, or the name of that date, and then it is inside."""
        for bar, box in itertools.product(picture.whole_bars(), text_boxes(picture)):
            if not apart(box, (bar.left, bar.top, bar.right, bar.bottom)):
                # A label that is cut has an ellipsis where words are missing.
                parts = (re.escape(part[:70]) for part in box[4].split("\u2026"))
                is_own = re.match(".*".join(parts), labels[bar.name], re.DOTALL) is not None
                is_date = bar.classes[1] == "exact" and bar.left <= box[0] and box[2] <= bar.right
                self.assertTrue(is_own or is_date, (box, bar))

    def are_names_of_dates_whole(self, picture: Picture) -> None:
        """Each date above the axis has a name, in its box or at the end of a line that leads to it, and none is cut."""
        top = min((bar.top for bar in picture.bars if bar.classes[1] != "exact"), default=picture.height)
        names = [box for box in text_boxes(picture) if box[3] < top]
        self.assertEqual([text for *_, text in names if "\u2026" in text or "..." in text], [])
        for bar in picture.bars:
            if bar.bottom < top:
                inside = [box for box in names if bar.left <= box[0] and box[2] <= bar.right and bar.top <= box[1] and box[3] <= bar.bottom]
                ends = [x for y, *xs in picture.leaders if bar.top < y < bar.bottom for x in xs]
                self.assertTrue(inside or any(abs(x - side) < 0.1 for x in ends for side in (bar.left, bar.right)), bar)

    def test_labels_of_different_texts_differ(self) -> None:
        texts = [f"{verb} a restructuring of the {part} division" for verb in ("announced", "denied") for part in ("European", "Asian")]
        texts += ["Donaudampfschifffahrtsgesellschaftskapit\u00e4n", "Donaudampfschifffahrtsgesellschaftskapit\u00e4nin"]
        links = "".join(
            f'<TLINK eventInstanceID="i{n}" relatedToEventInstance="i{n + 1}" relType="BEFORE"/>' for n in range(len(texts) - 1)
        )
        tags = "".join(
            f'<EVENT eid="e{n}" class="STATE">{text}</EVENT><MAKEINSTANCE eiid="i{n}" eventID="e{n}"/>' for n, text in enumerate(texts)
        )
        for form in self.FORMS:
            picture = Picture.read(self.drawn(f"<TimeML>{tags}{links}</TimeML>", form))
            bottom = max(bar.bottom for bar in picture.bars)
            labels = [text for _, y, _, _, text in picture.texts if y < bottom]
            self.assertEqual(len({*labels}), len(texts), (form, labels))
            for label, begin in itertools.product(labels, ("announced a", "denied a")):
                self.assertFalse(label.rstrip("\u2026") in begin, (form, label))

    def test_a_label_is_cut_only_for_lack_of_room(self) -> None:
        text = "announced a restructuring of its whole division"
        tag = f'<EVENT eid="e" class="STATE">{text}</EVENT><MAKEINSTANCE eiid="i" eventID="e"/>'
        tag += '<TIMEX3 tid="t" type="DATE" value="1998-01-08"/>'
        other = '<EVENT eid="f" class="STATE">fell</EVENT><MAKEINSTANCE eiid="j" eventID="f"/>'
        ends = "".join(
            f'<TLINK eventInstanceID="{one}" relatedToTime="t" relType="{how}"/>' for one, how in (("i", "BEFORE"), ("j", "AFTER"))
        )
        begun = '<TLINK eventInstanceID="i" relatedToTime="t" relType="BEGINS"/>'
        for content in (tag + other + ends, tag + other + begun):
            picture = Picture.read(self.drawn(f"<TimeML>{content}</TimeML>", "174mm"))
            self.assertIn(text, [words for *_, words in picture.texts])

    def test_letters_from_right_to_left_keep_their_direction(self) -> None:
        text = "\u05d4\u05d5\u05d3\u05d9\u05e2 (\u05de\u05d9\u05d3)"
        content = f'<TimeML><EVENT eid="e" class="STATE">{text}</EVENT><MAKEINSTANCE eiid="i" eventID="e"/>'
        content += '<EVENT eid="f" class="STATE">fell</EVENT><MAKEINSTANCE eiid="j" eventID="f"/>'
        content += '<TLINK eventInstanceID="i" relatedToEventInstance="j" relType="BEFORE"/></TimeML>'
        root = ElementTree.fromstring(self.drawn(content, "84mm").encode())
        directions = {one.text: one.get("unicode-bidi") for one in root.iter(SVG + "text") if one.text in (text, "fell")}
        self.assertEqual(directions, {text: "plaintext", "fell": None})

    def test_how_many_events_a_page_has_room_for(self) -> None:
        for events, dates, form, words, most in (
            (34, 9, "174mm", WORDS, PAGE / 2), (60, 15, "174mm", WORDS, PAGE), (60, 15, "84mm", ORDINARY, PAGE),
        ):  # fmt: skip
            for seed in range(1, 6):
                picture = Picture.read(self.drawn(hard_document(events, dates, seed, words), form))
                self.assertLessEqual(picture.height, most, (events, form, seed))

    def test_those_who_do_not_see_are_told(self) -> None:
        root = ElementTree.fromstring(self.drawn(text_at("samples", "ferry.xml"), "84mm").encode())
        said = [next(root.iter(SVG + name)).text or "" for name in ("title", "desc")]
        self.assertEqual((root.get("role"), said[0]), ("img", "Timeline of d.xml"))
        self.assertIn("left (ei1): starts after the start of 9 March 1998 (t1); ends before the end of 9 March 1998 (t1).", said[1])
        self.assertIn("Also, the end of warned (ei2) is before the start of strike (ei3).", said[1])
        self.assertIn("Nothing says when: planned (ei8), raised (ei9).", said[1])


LENGTHS = """[...document.querySelectorAll("svg text")].filter((one) => one.getAttribute("fill") !== "none")
.map((one) => one.getComputedTextLength())"""
"""How long the texts of a picture are as a browser sets them."""


@needs_browser
@needs_matrix
@needs_library
class Seen(Pictures):
    """That pictures can be read in a browser, whose letters have a breadth of their own."""

    def test_each_text_is_in_the_picture_and_over_no_other(self) -> None:
        with opened() as browser:
            for (events, dates), form in itertools.product(SIZES, ("screen", "84mm", "narrow")):
                drawn = self.drawn(hard_document(events, dates, 3), form)
                self.write("d.svg", drawn)
                browser.open(self.path("d.svg"))
                picture = Picture.read(drawn)
                pairs = zip(text_boxes(picture), browser.value(LENGTHS), strict=True)
                boxes = [(left, top, left + length, bottom, text) for (left, top, _, bottom, text), length in pairs]
                self.assertEqual([one for one in boxes if one[2] > picture.width + 0.1], [], form)
                over = [pair for pair in itertools.combinations(boxes, 2) if not apart(pair[0], pair[1][:4])]
                self.assertEqual(over, [], form)


if __name__ == "__main__":
    unittest.main()
