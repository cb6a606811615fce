"""The functions of `tml_corpus`: that they give what the commands print."""

from __future__ import annotations

import os
import unittest

import tml_corpus
from corpus import EVENT, INSTANCE, TML, CorpusTest, document
from tml import CannotRun

ASKED = tml_corpus.Asked(program=TML, jobs=2)
ITSELF = '<TLINK eventInstanceID="i1" relatedToEventInstance="i1" relType="BEFORE"/>'
SAME = ITSELF.replace("BEFORE", "IDENTITY")


class Functions(CorpusTest):
    def setUp(self) -> None:
        super().setUp()
        for name, inner in {"fits": EVENT + INSTANCE, "clash": EVENT + INSTANCE + ITSELF, "fault": "<EVENT/>"}.items():
            self.write(f"c/{name}.xml", document(inner))

    def names(self, paths: list[str]) -> list[str]:
        """The paths of files below the folder, without their endings."""
        return [os.path.basename(path).removesuffix(".xml") for path in paths]

    def test_check_folder(self) -> None:
        judgements = tml_corpus.check_folder(self.path("c"), asked=ASKED)
        accepted = {name: one.accepted() for name, one in zip(self.names([one.path for one in judgements]), judgements, strict=True)}
        self.assertEqual(accepted, {"clash": True, "fault": False, "fits": True})
        status, lines, _ = self.run_it("check", "c")
        self.assertEqual((status, sum("error:" in line for line in lines)), (1, sum(len(one.faults) for one in judgements)))

    def test_check_folder_with_warnings(self) -> None:
        [judgement] = tml_corpus.check_folder(self.path("c/clash.xml"), lint=True, asked=ASKED)
        self.assertIn("self-link", [warning.name for warning in judgement.warnings])

    def test_clashes(self) -> None:
        reports = tml_corpus.clashes(self.path("c"), repair=True, asked=ASKED)
        self.assertEqual([report.verdict() for report in reports], ["clash", "fault", "fits"])
        [clash] = reports[0].clashes
        self.assertEqual([link.link.number for link in clash.links], [0])
        self.assertIsNotNone(reports[0].repair)

    def test_agree(self) -> None:
        self.write("keys/fits.xml", document(EVENT + INSTANCE))
        found = tml_corpus.agree(self.path("c"), self.path("keys"), asked=ASKED)
        self.assertEqual((len(found.pairs), found.corpus.pairs), (1, 1))
        self.assertEqual(sorted(self.names([one.path for one in found.without_partner])), ["clash", "fault"])

    def test_report(self) -> None:
        made = tml_corpus.report(self.path("c"), output=self.path("pages"), asked=ASKED)
        self.assertTrue(os.path.isfile(made.index))
        self.assertEqual([report.verdict() for report in made.files], ["clash", "fault", "fits"])

    def test_what_cannot_be_run(self) -> None:
        with self.assertRaises(CannotRun):
            tml_corpus.check_folder(self.path("c"), asked=tml_corpus.Asked(program="/no/such/tml"))
        [judgement] = tml_corpus.check_folder(self.path("gone.xml"), asked=ASKED)
        self.assertIsNotNone(judgement.problem)

    def test_names(self) -> None:
        with self.assertRaises(AttributeError):
            tml_corpus.no_such_function


if __name__ == "__main__":
    unittest.main()
