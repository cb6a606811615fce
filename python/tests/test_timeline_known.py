"""What `tml-corpus timeline` shows beside bars: intervals that nothing ties, words around events, and what is asserted."""

import unittest

import test_timeline
from browser import needs_browser
from corpus import document, needs_matrix, needs_seconds
from picture_reader import Picture
from test_timeline import event, link
from tml_corpus.document.around import words_after, words_before
from tml_corpus.document.date_words import stretch


class Dates(unittest.TestCase):
    """Stretches of the calendar in words."""

    def test_stretches(self) -> None:
        rows = [
            ("1998-03-09T00:00:00", "1998-03-10T00:00:00", "9 March 1998"),
            ("1996-02-29T00:00:00", "1996-03-01T00:00:00", "29 February 1996"),
            ("1998-02-23T00:00:00", "1998-03-02T00:00:00", "23 February to 1 March 1998"),
            ("1998-12-28T00:00:00", "1999-01-04T00:00:00", "28 December 1998 to 3 January 1999"),
            ("1998-01-05T00:00:00", "1998-01-12T00:00:00", "5 to 11 January 1998"),
            ("1998-03-01T00:00:00", "1998-04-01T00:00:00", "March 1998"),
            ("1998-12-01T00:00:00", "1999-03-01T00:00:00", "December 1998 to February 1999"),
            ("1998-01-01T00:00:00", "1999-01-01T00:00:00", "1998"),
            ("1990-01-01T00:00:00", "2000-01-01T00:00:00", "1990 to 1999"),
            ("9999-12-31T00:00:00", "10000-01-01T00:00:00", "31 December 9999"),
            ("1998-01-08T18:30:00", "1998-01-08T18:31:00", "8 January 1998, 18:30 to 18:31"),
            ("1998-01-08T18:30:00", "1998-01-09T06:00:05", "8 January 1998, 18:30 to 9 January 1998, 06:00:05"),
            ("second 5", "second 6", "second 5 – second 6"),
        ]
        for first, last, said in rows:
            self.assertEqual(stretch(first, last), said)


class Words(unittest.TestCase):
    """The words around an event."""

    def test_sentences(self) -> None:
        self.assertEqual(words_before("It rained. Then, as the day broke, the dockers "), "the day broke, the dockers ")
        self.assertEqual(words_before("It rained. \u201cThe "), "\u201cThe ")
        self.assertEqual(words_before("a title\n\nThe "), "The ")
        self.assertEqual(words_after(" out. The port"), " out.")
        self.assertEqual(words_after(". The port"), ".")
        self.assertEqual(words_after(" one two three four five six"), " one two three four five")
        self.assertEqual((words_before(""), words_after(" "), words_after("\u202ex\x01")), ("", "", "x\ufffd"))


@needs_matrix
class Known(test_timeline.TimelineTest):
    """What is drawn of it."""

    def test_what_nothing_ties_stands_apart(self) -> None:
        times = '<TIMEX3 tid="a" type="SET" value="P1D"/><TIMEX3 tid="b" type="DATE" value="1998"/>'
        picture = self.drawn(document(event(3) + event(1) + event(2) + event(4) + times + link(1, "BEFORE", 2) + link(4, "IDENTITY", 4)))
        seen = Picture.read(picture)
        self.assertEqual({bar.name for bar in seen.bars}, {"i1", "i2"})
        self.assertEqual(list(seen.listed.values()), ["x (i3)", "x (i4)", "P1D (a)", "1998 (b)"])
        self.assertEqual(picture.count("Nothing says when:"), 2, "in the picture, and in its description")
        self.assertNotIn("Nothing says when", self.drawn(document(event(1) + event(2) + link(1, "BEFORE", 2))))
        page = self.drawn(document(event(1) + event(2) + link(1, "BEFORE", 1 + 1) + event(3)), "d.html")
        self.assertEqual([text for *_, text in Picture.read(page).texts].count("Nothing says when:"), 1)
        self.assertIn("x (i3): event, nothing says when", page)

    def test_rows_in_the_order_of_the_text(self) -> None:
        content = document("".join(event(number) for number in (3, 1, 4, 2)) + link(1, "BEFORE", 2) + link(2, "BEFORE", 3))
        self.write("d.xml", content)
        self.assertEqual([bar.name for bar in Picture.read(self.drawn(content)).bars], ["i1", "i2", "i3"])
        self.assertEqual(self.run_it("timeline", "--text-order", "d.xml", "-o", "d.svg")[0], 0)
        with open(self.path("d.svg"), encoding="utf-8") as file:
            bars = Picture.read(file.read()).bars
        self.assertEqual([bar.name for bar in bars], ["i3", "i1", "i2"])
        self.assertEqual(len({bar.top for bar in bars}), 3, "a lane for each")

    @needs_browser
    def test_links_search_and_order_of_a_page(self) -> None:
        content = document(event(3, "fell") + ". " + event(1, "rose") + event(4) + event(2) + link(1, "BEFORE", 2) + link(2, "BEFORE", 3))
        self.assertEqual(self.shown(content, "focus:1", "see:drawn")[1], ["BEFORE", "BEFORE"])
        moved = self.shown(content, "click:order", "see:sequence", "click:order", "see:sequence")
        self.assertEqual((moved[1], moved[3]), ([2, 0, 1, 3], [0, 1, 2, 3]))
        found = self.shown(content, "search:FELL", "see:dim", "see:faint", "Enter:search", "search:", "see:dim")
        self.assertEqual((found[1], found[2], found[5]), ([True, True, False, True], [True, True, False, True], [False] * 4))
        self.assertTrue(found[3][0].startswith("fell (i3): event"))


@needs_matrix
class Asserted(test_timeline.TimelineTest):
    """What a document says of its events without asserting them."""

    NEGATED = '<EVENT eid="e9" class="STATE">went</EVENT><MAKEINSTANCE eiid="i9" eventID="e9" polarity="NEG"></MAKEINSTANCE>\n'

    def content(self, relation: str = "MODAL") -> str:
        links = link(1, "BEFORE", 2) + link(2, "BEFORE", 3) + link(1, "BEFORE", 3) + link(9, "BEFORE", 1)
        slink = f'<SLINK eventInstanceID="i1" subordinatedEventInstance="i2" relType="{relation}"/>'
        return document(event(1, "said") + event(2) + event(3) + self.NEGATED + links + slink)

    def test_they_look_different(self) -> None:
        for relation, is_asserted in [("MODAL", False), ("CONDITIONAL", False), ("NEG_EVIDENTIAL", False), ("COUNTER_FACTIVE", False)] + [
            (relation, True) for relation in ("EVIDENTIAL", "FACTIVE", "INTENSIONAL")
        ]:
            picture = self.drawn(self.content(relation))
            found = [bar.name for bar in Picture.read(picture).bars if "unasserted" in bar.classes]
            self.assertEqual(found, ["i9"] if is_asserted else ["i9", "i2"], relation)
            self.assertEqual(picture.count('font-style="italic"'), 2 * len(found), "with halos")
        titles = "\n".join(self.titles(self.drawn(self.content())))
        self.assertIn("not asserted: MODAL of said (i1)", titles)
        self.assertIn("not asserted: negative polarity", titles)

    def test_a_copy_without_them_is_asked(self) -> None:
        self.write("d.xml", self.content())
        status, lines, error = self.run_it("timeline", "--asserted", "d.xml", "-o", "d.svg")
        said = "d.xml: drawn in d.svg: 2 intervals, 1 link, an axis of 4 places; 2 events not asserted and 3 links left out"
        self.assertEqual((status, error, lines), (0, "", [said]))
        with open(self.path("d.svg"), encoding="utf-8") as file:
            self.assertEqual([bar.name for bar in Picture.read(file.read()).bars], ["i1", "i3"])

    def test_links_that_clash_only_with_them(self) -> None:
        clashing = self.content().replace("</TimeML>", link(3, "BEFORE", 2) + "</TimeML>")
        self.write("d.xml", clashing)
        self.assertEqual(self.run_it("timeline", "d.xml", "-o", "d.svg")[0], 1)
        self.assertEqual(self.run_it("timeline", "--asserted", "d.xml", "-o", "d.svg")[0], 0)

    def test_a_fault_is_told_of_the_whole_document(self) -> None:
        self.write("d.xml", self.content().replace('eventID="e3"', ""))
        status, lines, _ = self.run_it("timeline", "--asserted", "d.xml", "-o", "d.svg")
        self.assertEqual((status, "MissingAttribute" in lines[0]), (1, True))

    @needs_seconds
    def test_placings(self) -> None:
        self.write("d.xml", self.content())
        status, lines, _ = self.run_it("timeline", "--seconds", "--asserted", "d.xml", "-o", "d.svg")
        said = "d.xml: drawn in d.svg: 2 intervals, 1 link, in seconds; 2 events not asserted and 3 links left out"
        self.assertEqual((status, lines), (0, [said]))


if __name__ == "__main__":
    unittest.main()
