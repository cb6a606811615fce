"""Clashes, what is kept where they are taken out by confidence, relations of pairs, and timelines with words, in Python."""

from __future__ import annotations

import os
import tempfile
import unittest
from collections.abc import Sequence
from pathlib import Path
from random import Random
from unittest import mock

import tml
import tml_corpus
from corpus import TML, TOP
from tml.results import Relation
from tml.statuses import INVERSES, LINK_LIMIT, ORDERS

PORT, RATES = Path(TOP, "samples", "port.xml"), Path(TOP, "samples", "rates.xml")
VALUES = ("1998", "1998-01", "1998-01-XX", "1998-01-08", "1998-01-09", "1998-01-08T18:30", "199", "1998-W02", "XXXX-12-25")
"""Dates that lie in each other, touch, are within bounds, or have no place."""


class Counting(tml.Process):
    """The program, of which the questions are counted."""

    asked: list[str]

    def answer(self, command: str, files: Sequence[bytes], arguments: Sequence[str] = ()) -> tuple[int, bytes]:
        self.asked.append(command)
        return super().answer(command, files, arguments)


def cycle(*names: str) -> list[tuple[str, str, str]]:
    """Relations that cannot all be true."""
    return [(one, "BEFORE", other) for one, other in zip(names, (*names[1:], names[0]), strict=True)]


@unittest.skipUnless(os.access(TML, os.X_OK), f"no program {TML}: build it as README.md says, or name one by TML=PROGRAM")
class Clashes(unittest.TestCase):
    by = tml.Process(TML)

    def clashes(self, document: bytes | Path, most: int | None = None) -> list[tml.Clash]:
        """The clashes of a document."""
        found = tml.expect(tml.clashes(document, most, by=self.by), list)
        assert all(isinstance(one, tml.Clash) for one in found)
        return found

    def test_all_that_have_no_link_in_common(self) -> None:
        document = tml.document_of([*cycle("a", "b", "c"), ("c", "BEFORE", "d"), *cycle("x", "y"), *cycle("u", "v", "w", "z")])
        found = self.clashes(document)
        self.assertEqual(sorted(sorted(link.number for link in one.links) for one in found), [[0, 1, 2], [4, 5], [6, 7, 8, 9]])
        for one in found:
            claim = tml.Claim("clash", links=tuple(link.number for link in one.links))
            self.assertEqual(tml.verify(document, one.evidence, by=self.by), tml.Verified((claim,)))
            self.assertEqual(
                [tml.expect(tml.check(document, by=self.by), tml.Accepted).links[link.number] for link in one.links], list(one.links)
            )
        self.assertEqual(len(self.clashes(document, 2)), 2)
        self.assertEqual(found[0], tml.clash(document, by=self.by))

    def test_by_the_dates(self) -> None:
        self.assertEqual([str(link) for link in self.clashes(PORT)[0].links][0], "l5: ei4 IS_INCLUDED t1")
        self.assertEqual(self.clashes(RATES), [])
        self.assertIsInstance(tml.clashes(b"<TimeML>", by=self.by), tml.Fault)

    def test_without_the_links_of_all_of_them_nothing_clashes(self) -> None:
        random = Random(5)
        for _ in range(12):
            triples = [(f"e{random.randrange(8)}", random.choice(list(ORDERS)), f"e{random.randrange(8)}") for _ in range(18)]
            found = self.clashes(tml.document_of(triples))
            cited = [link.number for one in found for link in one.links]
            self.assertEqual(len(cited), len(set(cited)))
            rest = [triple for number, triple in enumerate(triples) if number not in cited]
            self.assertIsNone(tml.clash(tml.document_of(rest), by=self.by))

    def test_they_are_those_of_the_companion(self) -> None:
        random = Random(11)
        with tempfile.TemporaryDirectory() as folder:
            for number in range(6):
                triples = [(f"e{random.randrange(9)}", random.choice(list(ORDERS)), f"e{random.randrange(9)}") for _ in range(24)]
                Path(folder, f"{number}.xml").write_bytes(tml.document_of(triples))
            Path(folder, "port.xml").write_bytes(PORT.read_bytes())
            for report in tml_corpus.clashes(folder, more=99, asked=tml_corpus.Asked(program=TML)):
                wanted = [[link.link.number for link in clash.links] for clash in report.clashes]
                self.assertEqual([[link.number for link in one.links] for one in self.clashes(Path(report.judgement.path))], wanted)

    def test_links_in_comments_are_none(self) -> None:
        document = tml.document_of(cycle("a", "b")).replace(b"<TLINK", b"<!-- <TLINK/> --><TLINK")
        self.assertEqual([[link.number for link in one.links] for one in self.clashes(document)], [[0, 1]])


@unittest.skipUnless(os.access(TML, os.X_OK), f"no program {TML}: build it as README.md says, or name one by TML=PROGRAM")
class ByConfidence(unittest.TestCase):
    by = tml.Process(TML)

    def test_the_least_confident_of_each_clash_goes(self) -> None:
        links = [*cycle("ei1", "ei2"), ("ei1", "IS_INCLUDED", "t1"), ("t0", "BEFORE", "ei1")]
        found = tml.expect(tml.consistent(RATES, links, [0.9, 0.2, 0.8, 0.5], by=self.by), tml.Consistent)
        self.assertEqual(found.kept, (("ei1", "BEFORE", "ei2"), ("ei1", "IS_INCLUDED", "t1")))
        self.assertEqual(set(found.dropped), {("ei2", "BEFORE", "ei1"), ("t0", "BEFORE", "ei1")})
        self.assertEqual([one.says() for one in tml.expect(tml.check(found.document, by=self.by), tml.Accepted).links], list(found.kept))
        self.assertIsNone(tml.clash(found.document, by=self.by))

    def test_what_fits_is_kept_whole_and_links_may_be_those_of_a_document(self) -> None:
        links = tml.expect(tml.check(RATES, by=self.by), tml.Accepted).links
        found = tml.expect(tml.consistent(RATES, links, [0.0] * len(links), by=self.by), tml.Consistent)
        self.assertEqual((found.kept, found.dropped), (tuple(one.says() for one in links), ()))
        self.assertEqual(tml.expect(tml.consistent(RATES, [], [], by=self.by), tml.Consistent).kept, ())

    def test_of_equal_weights_the_later_one_goes(self) -> None:
        found = tml.expect(
            tml.consistent(tml.document_of(cycle("a", "b", "c")), cycle("a", "b", "c"), [1, 1, 1], by=self.by), tml.Consistent
        )
        self.assertEqual(found.dropped, (("c", "BEFORE", "a"),))

    def drawn(self, random: Random) -> tuple[bytes, list[Relation], list[float]]:
        """A document with dates, relations of which many clash, and a weight for each, of which some are the same."""
        times = {f"t{number}": random.choice(VALUES) for number in range(4)}
        names = [*(f"e{number}" for number in range(8)), *times]
        triples = [Relation(random.choice(names), random.choice(list(ORDERS)), random.choice(names)) for _ in range(24)]
        document = tml.document_of([(one, "BEFORE", other) for one, other in zip(names[:8], names[1:8])], times)
        return document, triples, [random.choice((0.5, 0.9, random.random())) for _ in triples]

    def kept_one_by_one(self, document: bytes, triples: list[Relation], weights: list[float]) -> list[Relation]:
        """The relations that are kept where each is put beside those that are kept before it, from the most confident one on."""
        kept = list[int]()
        for number in sorted(range(len(triples)), key=lambda number: (-weights[number], number)):
            beside = tml.with_links(document, [triples[one] for one in [*kept, number]], by=self.by)
            kept += [number] if tml.clash(tml.expect(beside, bytes), by=self.by) is None else []
        return [triples[number] for number in sorted(kept)]

    def test_each_that_clashes_with_more_confident_ones_goes_by_four_questions(self) -> None:
        random, by = Random(7), Counting(TML)
        for _ in range(12):
            document, triples, weights = self.drawn(random)
            by.asked = []
            found = tml.expect(tml.consistent(document, triples, weights, by=by), tml.Consistent)
            self.assertGreater(len(found.dropped), 5)
            self.assertEqual(by.asked, ["check", "solve", "dates", "matrix"])
            self.assertEqual(list(found.kept), self.kept_one_by_one(document, triples, weights))
            self.assertEqual(sorted(found.kept + found.dropped), sorted(triples))
            self.assertIsNone(tml.clash(found.document, by=self.by))

    def test_what_was_counted_wrongly_is_put_right_by_what_tml_says(self) -> None:
        random = Random(8)
        for _ in range(4):
            document, triples, weights = self.drawn(random)
            for count in (0, len(triples)):
                with mock.patch("tml.confidence.fitting", return_value=list(range(count))):
                    found = tml.expect(tml.consistent(document, triples, weights, by=self.by), tml.Consistent)
                self.assertIsNone(tml.clash(found.document, by=self.by))
                for one in found.dropped:
                    beside = tml.with_links(document, [*found.kept, one], by=self.by)
                    self.assertIsNotNone(tml.clash(tml.expect(beside, bytes), by=self.by))

    def test_what_is_no_question(self) -> None:
        link = ("ei1", "BEFORE", "ei2")
        many = LINK_LIMIT + 1
        rows: list[tuple[list[tuple[str, str, str]], list[float]]] = [([link], []), ([link], [float("nan")]), ([link] * many, [1.0] * many)]
        for links, weights in rows:
            with self.assertRaises(ValueError):
                tml.consistent(RATES, links, weights, by=self.by)
        with self.assertRaises(tml.UnknownName):
            tml.consistent(RATES, [("ei1", "BEFORE", "e2")], [1.0], by=self.by)
        self.assertIsInstance(tml.consistent(b"<TimeML>", [], [], by=self.by), tml.Fault)


@unittest.skipUnless(os.access(TML, os.X_OK), f"no program {TML}: build it as README.md says, or name one by TML=PROGRAM")
class Relations(unittest.TestCase):
    by = tml.Process(TML)

    def relations(self, document: bytes | Path, *, one_per_pair: bool = False, both_directions: bool = False) -> list[tml.Relation]:
        """The relations of a document."""
        found = tml.relations(document, self.by, one_per_pair=one_per_pair, both_directions=both_directions)
        return [tml.Relation(*one) for one in tml.expect(found, list)]

    def test_the_strongest_one_of_a_pair(self) -> None:
        for relation in ORDERS:
            document = tml.document_of([("a", relation, "b")])
            [found] = self.relations(document, one_per_pair=True)
            wanted = "SIMULTANEOUS" if relation == "IDENTITY" else relation
            self.assertEqual(found, ("a", wanted, "b"))
            for other in self.relations(document):
                self.assertIsInstance(tml.ask(tml.document_of([found]), *other, by=self.by), tml.Proof)

    def test_both_directions(self) -> None:
        for one_per_pair in (False, True):
            plain = self.relations(RATES, one_per_pair=one_per_pair)
            both = self.relations(RATES, one_per_pair=one_per_pair, both_directions=True)
            self.assertEqual(both[::2], plain)
            self.assertEqual(both[1::2], [(one.second, INVERSES[one.relation], one.first) for one in plain])
        self.assertIsInstance(tml.relations(PORT, self.by, one_per_pair=True), tml.Clash)

    def test_a_timeline_in_words(self) -> None:
        found = tml.expect(tml.timeline(RATES, by=self.by), tml.Timeline)
        self.assertEqual(
            [(row.name, row.text, row.kind) for row in found.rows],
            [("ei1", "fell", "event"), ("t1", "Wednesday", "time"), ("ei2", "spoke", "event"), ("t0", "Jan 8", "time")],
        )
        self.assertEqual({row.name: (row.start, row.end) for row in found.rows}, found.ranks)
        self.assertEqual(found.rows[1].date, tml.expect(tml.dates(RATES, by=self.by), dict)["t1"])
        self.assertEqual(found, tml.solve(RATES, by=self.by))
        self.assertIsInstance(tml.timeline(PORT, by=self.by), tml.Clash)


if __name__ == "__main__":
    unittest.main()
