"""What notebooks draw of answers: well formed, with all words of documents escaped."""

from __future__ import annotations

import os
import unittest
import xml.etree.ElementTree as ElementTree
from pathlib import Path

import tml
from corpus import TML, TOP
from picture_reader import Picture
from tml import notebooks

PORT, RATES = Path(TOP, "samples", "port.xml"), Path(TOP, "samples", "rates.xml")
HOSTILE = "&lt;script&gt;alert(1)&lt;/script&gt;\"'&#1;&#x202e;"
EVENTS = f'<EVENT eid="e1" class="STATE">{HOSTILE}</EVENT><EVENT eid="e2" class="STATE">{"x" * 999}</EVENT>'
INSTANCES = '<MAKEINSTANCE eiid="ei1" eventID="e1"/><MAKEINSTANCE eiid="ei2" eventID="e2"/>'
LINK = '<TLINK eventInstanceID="ei1" relatedToEventInstance="ei2" relType="{}"/>'
FITS = f"<TimeML>{EVENTS}{INSTANCES}{LINK.format('BEFORE')}</TimeML>".encode()
CLASHES = FITS.replace(b"</TimeML>", LINK.format("AFTER").encode() + b"</TimeML>")


def texts(drawn: str) -> str:
    """The words of something that was drawn, which has to be well formed."""
    return "".join(ElementTree.fromstring(drawn).itertext())


@unittest.skipUnless(os.access(TML, os.X_OK), f"no program {TML}: build it as README.md says, or name one by TML=PROGRAM")
class Notebook(unittest.TestCase):
    by = tml.Process(TML)

    def test_a_fault_has_its_mark(self) -> None:
        found = tml.expect(tml.check(PORT.read_bytes().replace(b"OCCURRENCE", b"<OCC&"), by=self.by), tml.Fault)
        drawn = found._repr_html_()
        self.assertIn("^", texts(drawn))
        self.assertIn('class="<OCC&"', texts(drawn))
        self.assertNotIn("<OCC", drawn)

    def test_a_clash_has_its_links_in_words(self) -> None:
        found = tml.expect(tml.clash(PORT, by=self.by), tml.Clash)
        words = texts(found._repr_html_())
        for part in ("4 links that cannot all be true by the dates of the document", "l5", "closed (ei4)", "IS_INCLUDED", "Monday (t1)"):
            self.assertIn(part, words)
        hostile = tml.expect(tml.clash(CLASHES, by=self.by), tml.Clash)._repr_html_()
        self.assertNotIn("<script", hostile)
        self.assertIn("<script>alert(1)</script>", texts(hostile))
        self.assertNotIn("\u202e", hostile)
        self.assertLess(len(hostile), 2000)

    def test_a_timeline_is_a_picture(self) -> None:
        for question in (tml.solve, tml.timeline):
            files: tuple[tml.File, ...] = (RATES, FITS, b"<TimeML/>")
            for file in files:
                drawn = tml.expect(question(file, by=self.by), tml.Timeline)._repr_svg_()
                self.assertTrue(drawn.startswith('<svg xmlns="http://www.w3.org/2000/svg"'))
                self.assertIn("Timeline of ", texts(drawn))
                self.assertNotIn("<script", drawn)
        drawn = tml.expect(tml.timeline(RATES, by=self.by), tml.Timeline)._repr_svg_()
        self.assertIn("1998-01-07T00:00:00 to 1998-01-08T00:00:00", texts(drawn))
        seen = Picture.read(drawn)
        self.assertEqual({bar.name for bar in seen.bars}, {"t0", "t1", "ei1", "ei2"})

    def test_it_is_the_picture_of_the_command(self) -> None:
        drawn = tml.expect(tml.solve(Path(TOP, "samples", "ferry.xml"), by=self.by), tml.Timeline)._repr_svg_()
        kept = Path(TOP, "samples", "ferry.svg").read_text(encoding="utf-8")
        self.assertEqual(drawn.partition("</title>")[2], kept.partition("</title>")[2].rstrip("\n"))

    def test_a_matrix_is_a_table(self) -> None:
        found = tml.expect(tml.matrix(RATES, by=self.by), tml.Matrix)
        words = texts(found._repr_html_())
        self.assertIn("5 possible", words)
        self.assertIn("INCLUDES", words)
        many = tml.Matrix([f"t{number}" for number in range(notebooks.MOST_INTERVALS + 3)], [("BEFORE",)])
        many.cells.extend([0] * (43 * 42 // 2))
        self.assertIn("3 intervals not shown", texts(many._repr_html_()))

    def test_a_matrix_is_a_frame(self) -> None:
        found = tml.expect(tml.matrix(RATES, by=self.by), tml.Matrix)
        try:
            frame = found.to_frame()
        except ImportError:
            self.skipTest("no pandas")
        self.assertEqual(list(frame.columns), ["t0", "t1", "ei1", "ei2"])
        self.assertEqual(
            (frame.loc["t1", "ei2"], frame.loc["ei2", "t1"], frame.loc["t0", "t0"]), ("INCLUDES", "IS_INCLUDED", "SIMULTANEOUS")
        )
        self.assertEqual(frame.loc["ei1", "t1"].split(" "), list(found.possible("ei1", "t1")))


if __name__ == "__main__":
    unittest.main()
