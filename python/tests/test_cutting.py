"""Documents that are cut into units without `tml spans`: the units are those that it prints."""

import os
import random
import unittest

from corpus import TML, CorpusTest, document, needed
from ordinary import Item
from tml.tags.cutting import cut
from tml.tags.source import Source
from tml.tags.units import read_units
from tml_corpus.asking.program import ACCEPTED, Program
from tml_corpus.document.words import Wording

PIECES = (
    "<!-- a < b > \"c' & d -- e -->", "<!---->", "<!-- <P/>\r\n-->", "<P/>", "<P\t>x</P \n>", "<S n = \"1>2\"\r\n\tm= '/>' />",
    "<p a='\"' b=\"'\" c=''></p>",
    "<ENAMEX xmlns:é=\"ü&lt;\" _.-='=\"' />", "&amp;&#38;&#xe9;", "日本語 𝄞", "\ufeff", " \t\r\n", "\r", "a = \"b\" / > c", "]]>",
)  # fmt: skip
"""What may stand in the text of an accepted document."""

BEGINNINGS = (
    "",
    "\ufeff",
    "\ufeff \n",
    '<?xml version="1.0"?>',
    "<?xml\tx='<y>' > & ?>\r\n",
    "<!-- first -->",
    "\n<!DOCTYPE TimeML SYSTEM 'a \"b\" & c'>\n",
)
"""What may stand before the root."""

SPACES = (" ", "\n", "\r\n  ", "\t")


def varied(number: int) -> bytes:
    """An ordinary document with other pieces, spaces, quotes and ends of lines in it; each number has its own."""
    draw = random.Random(number)
    before, root, rest = Item(number).document().partition("<TimeML>")
    inner, end, after = rest.partition("</TimeML>")
    lines = [line + draw.choice(PIECES) if draw.randrange(3) == 0 else line for line in inner.split("\n")]
    text = draw.choice(["\n", "\r\n", "\r"]).join(lines)
    if draw.randrange(2):
        text = text.replace(" eid=", draw.choice(SPACES) + "eid = ").replace(" relType=", draw.choice(SPACES) + "relType\n=")
    if draw.randrange(2):
        text = text.replace('tid="t0"', "tid='t0'").replace('"BEFORE"', "'BEFORE'")
    return ((draw.choice(BEGINNINGS) if draw.randrange(2) else before) + root + text + end + after).encode()


class Cuts(CorpusTest):
    def setUp(self) -> None:
        super().setUp()
        self.program = Program(os.path.abspath(TML))

    def test_units_are_those_that_tml_prints(self) -> None:
        for number in range(80):
            with self.subTest(number):
                self.is_cut_as_tml_cuts_it(varied(number))

    def test_so_are_those_of_documents_with_a_fault_of_their_tags(self) -> None:
        for inner in ("<q/>", "</P>", "<P>", "<P a='1' a=\"2\"/>", "<EVENT eid='e'/>", "<TLINK/>", "<?xml ?>", "<!DOCTYPE x>"):
            with self.subTest(inner):
                self.is_cut_as_tml_cuts_it(document(inner).encode())
        self.is_cut_as_tml_cuts_it(b"x")
        self.is_cut_as_tml_cuts_it(b"<TimeML>" + b"<p>" * 5000)

    def is_cut_as_tml_cuts_it(self, text: bytes) -> None:
        """Compares the units, their attributes and the values of these."""
        reply = self.program.spans(text)
        self.assertEqual(reply.status, ACCEPTED)
        printed, found = read_units(reply), needed(cut(text))
        self.assertEqual(list(found), list(printed))
        self.assertEqual([list(unit.attributes) for unit in found], [list(unit.attributes) for unit in printed])
        source = Source(text, found)
        for unit in printed:
            values = {one.name: one.value(text).decode() for one in reversed(list(unit.attributes))}
            self.assertEqual(source.values(unit) if unit.opens() else {}, values)

    def test_intervals_and_links_are_those_that_tml_numbers(self) -> None:
        for number in range(0, 80, 4):
            with self.subTest(number):
                text = varied(number)
                reply = self.program.check(text)
                self.assertEqual(reply.status, ACCEPTED, reply.text)
                lines = list(reply.lines())
                wording = Wording(self.program, text)
                links = [wording.link(link) for link in range(len(wording.link_tags))]
                self.assertEqual([line[2] for line in lines if line[0] == "interval"], wording.intervals)
                self.assertEqual(
                    [line[2:] for line in lines if line[0] == "tlink"], [[link.left, link.relation, link.right] for link in links]
                )

    def test_own_wrappers_are_cut_as_they_are_asked_about(self) -> None:
        self.write("tml-corpus.toml", 'wrappers = ["FILEID"]\n')
        self.write("d.xml", document("<FILEID>é</FILEID><EVENT eid='e' class='STATE'></EVENT>"))
        status, lines, _ = self.run_it("check", "--lint", "--clashes", "d.xml")
        self.assertEqual((status, [line.split(" ")[0] for line in lines if "[empty-tag]" in line]), (0, ["d.xml:2:19:"]))


class NoCuts(unittest.TestCase):
    def test_what_does_not_follow_over_the_whole_document(self) -> None:
        for text in (
            b"",
            b"<",
            b"<a",
            b"a<a b=\"c'>",
            b"<a>< /a>",
            b"<![CDATA[x]]>",
            b"<!-- x",
            b"<?x?>",
            b"<!DOCTYPE a [<b>]>",
            b"</>",
            b"<a/" + b" b='" * 50_000,
        ):
            with self.subTest(text[:20]):
                self.assertIsNone(cut(text))
