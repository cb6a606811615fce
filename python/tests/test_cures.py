"""No cure makes it worse: what is printed of slips is done word for word, and nothing that is accepted then differs from what was meant."""

import unittest
from collections import Counter
from random import Random

from advice import Outcome, Reference, judged, search_once, tally
from slips import SLIPS
from stories import Story

OF_EACH = 2
"""How many slips of each kind are made; `python3 python/tests/advice.py 5000` makes more."""

NOT_SEEN = {
    "attribute lost",
    "attribute emptied",
    "link lost",
    "month and day exchanged",
    "invisible letter between links",
    "another month",
}
"""Slips after which a document may be one that somebody may have meant, as one without the tense of an instance."""

ALWAYS_CURED = {
    "/> lost", "closing quote lost", "name of a tag in small letters", "letter for a digit in a reference", "line pasted twice",
    "tag pasted into itself", "second document", "O for 0 in a date", "quarter before its year", "hour of one digit", "zone by its name",
    "invisible letter in an identifier", "invisible letter in a value", "byte order mark twice", "UTF-16",
    "end tag of another kind",
}  # fmt: skip
"""Kinds of slips of which each is cured in one step."""


def setUpModule() -> None:
    search_once()


class Cures(unittest.TestCase):
    kinds: dict[str, Counter[Outcome]]
    damaged: list[tuple[str, list[bytes]]]

    @classmethod
    def setUpClass(cls) -> None:
        cls.kinds, cls.damaged = tally(Reference(), OF_EACH * len(SLIPS), seed=1)

    def test_nothing_is_accepted_and_different(self) -> None:
        self.assertEqual([(name, *(document.decode("utf-8", "replace") for document in documents)) for name, documents in self.damaged], [])

    def test_slips_of_each_kind_are_made_and_seen(self) -> None:
        for name, counts in self.kinds.items():
            with self.subTest(name):
                self.assertTrue(counts)
                self.assertTrue(name in NOT_SEEN or not counts[Outcome.SILENT])

    def test_what_has_one_cure_is_cured_in_one_step(self) -> None:
        for name in ALWAYS_CURED:
            with self.subTest(name):
                self.assertTrue(self.kinds[name][Outcome.CURED])
                self.assertLessEqual(set(self.kinds[name]), {Outcome.CURED, Outcome.HARMLESS})

    def test_nothing_is_said_of_clean_documents(self) -> None:
        program = Reference()
        for number in range(40):
            judgement = judged(program, Story(Random(number)).document().encode())
            self.assertTrue(judgement.is_plain(), [*(one.text for one in judgement.faults), *(one.text for one in judgement.warnings)])


if __name__ == "__main__":
    unittest.main()
