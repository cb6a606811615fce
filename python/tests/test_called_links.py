"""How messages call a link: by its lid, and by its number only where it has none."""

from __future__ import annotations

import json
import unittest

import tml_corpus
from corpus import TML, CorpusTest, document

TIMES = '<TIMEX3 tid="a" type="SET"/><TIMEX3 tid="b" type="SET"/>\n'
LINK = '<TLINK {}timeID="a" relatedToTime="b" relType="{}"/>\n'
CLASH = document(TIMES + LINK.format('lid="l5" ', "BEFORE") + LINK.format("", "AFTER"))
AGAIN = document(TIMES + LINK.format('lid="l5" ', "BEFORE") + LINK.format("", "BEFORE"))


class CalledLinks(CorpusTest):
    def test_clashes(self) -> None:
        self.write("d.xml", CLASH)
        _, lines, _ = self.run_it("clashes", "d.xml")
        said = [line for line in lines if ": error: " in line]
        self.assertIn("(l5: a BEFORE b)", said[0])
        self.assertIn("(link 1: a AFTER b)", said[1])
        self.assertNotIn("link 0", "".join(lines))

    def test_json(self) -> None:
        self.write("d.xml", CLASH)
        _, lines, _ = self.run_it("clashes", "--format", "jsonl", "d.xml")
        [clash] = json.loads(lines[0])["clashes"]
        self.assertEqual([(link["number"], link["lid"]) for link in clash["links"]], [(0, "l5"), (1, None)])
        self.assertIn("l5: ", clash["links"][0]["message"])

    def test_agreement(self) -> None:
        self.write("d.xml", document(TIMES + LINK.format('lid="l5" ', "BEFORE")))
        self.write("k.xml", document(TIMES + LINK.format("", "AFTER")))
        _, lines, _ = self.run_it("agree", "--links", "--format", "jsonl", "d.xml", "k.xml")
        self.assertEqual([(link["number"], link["lid"]) for link in json.loads(lines[0])["links"]], [(0, "l5"), (0, None)])

    def test_a_repeated_link(self) -> None:
        self.write("d.xml", AGAIN)
        _, lines, _ = self.run_it("check", "--lint", "d.xml")
        self.assertIn("a BEFORE b is given by l5 at 3:1 already", "".join(lines))

    def test_functions(self) -> None:
        self.write("d.xml", CLASH)
        [report] = tml_corpus.clashes(self.path("d.xml"), asked=tml_corpus.Asked(program=TML))
        self.assertEqual([link.named() for link in report.clashes[0].links], ["l5: a BEFORE b", "link 1: a AFTER b"])


if __name__ == "__main__":
    unittest.main()
