"""A document as a container of its tags, and what its mappings say of an identifier that is not there."""

from __future__ import annotations

import copy
import json
import os
import pickle
import unittest
from collections.abc import Callable, Mapping
from importlib import import_module
from importlib.util import find_spec
from itertools import product
from operator import getitem
from typing import Any

import tml
from answer_kinds import BY, FITS, RATES
from corpus import TML

PORT = RATES.with_name("port.xml")
IDENTIFIERS = ["t0", "e1", "e2", "t1", "s1", "ei1", "ei2", "l1", "l2"]
"""Those of the tags of samples/rates.xml, in the order of the tags."""

NAMELESS = FITS.replace(b'lid="l1"', b'lid=""')


def read(file: tml.File = RATES) -> Any:
    """The model of a document."""
    return tml.expect(tml.read(file, BY), tml.Document)


def timeline() -> tml.Timeline:
    """The timeline of a document."""
    return tml.expect(tml.solve(RATES, BY), tml.Timeline)


def mappings() -> Mapping[str, Callable[[], Any]]:
    """What makes each mapping by names of intervals that explains itself."""
    return {
        "intervals": lambda: read().intervals,
        "ranks of solve": lambda: timeline().ranks,
        "ranks of timeline": lambda: tml.expect(tml.timeline(RATES, BY), tml.Timeline).ranks,
    }


@unittest.skipUnless(os.access(TML, os.X_OK), f"no program {TML}: build it as README.md says, or name one by TML=PROGRAM")
class Container(unittest.TestCase):
    def said(self, ask: Callable[..., object], *given: Any) -> str:
        """What is said of a name that is not there."""
        with self.assertRaises(KeyError) as raised:
            ask(*given)
        self.assertIsInstance(raised.exception, tml.UnknownName)
        return str(raised.exception)

    def test_in(self) -> None:
        document = read()
        for identifier in IDENTIFIERS:
            self.assertIn(identifier, document)
        for other in ("", "e9", "E1", 0, None, ("e1",)):
            self.assertNotIn(other, document)

    def test_iter_has_the_identifiers_in_the_order_of_the_tags(self) -> None:
        self.assertEqual([*read()], sorted(IDENTIFIERS, key=lambda name: int(read()[name].bytes.start)))
        self.assertEqual(sorted(read()), sorted(IDENTIFIERS))
        files: tuple[tml.File, ...] = (PORT, NAMELESS)
        for file in files:
            document = read(file)
            tags = [document[identifier] for identifier in document]
            self.assertEqual([tag.id for tag in tags], list(document))
            self.assertEqual([tag.bytes.start for tag in tags], sorted({tag.bytes.start for tag in tags}))

    def test_len(self) -> None:
        files: tuple[tml.File, ...] = (RATES, PORT, NAMELESS, b"<TimeML/>")
        for file in files:
            document = read(file)
            self.assertEqual(len(document), len(list(document)))
        self.assertEqual((len(read()), len(read(NAMELESS)), len(read(b"<TimeML/>"))), (9, 8, 0))

    def test_get(self) -> None:
        document = read()
        for identifier in document:
            self.assertIs(document.get(identifier), document[identifier])
        self.assertEqual((document.get("e9"), document.get("e9", 7), document.get("", 7), document.get("e1", 7).text), (None, 7, 7, "fell"))

    def test_unknown_intervals_are_explained(self) -> None:
        self.assertEqual(self.said(getitem, read().intervals, "e1"), self.said(tml.possible, RATES, "e1", "ei2", BY))
        for (name, made), unknown in product(mappings().items(), ("ei3", "EI1", "q", "", "e1")):
            with self.subTest(name, unknown=unknown):
                said, wanted = self.said(getitem, made(), unknown), self.said(tml.possible, RATES, unknown, "ei2", BY)
                # A timeline does not know events.
                self.assertEqual(said if unknown != "e1" else said[:39], wanted if unknown != "e1" else wanted[:39])

    def test_they_stay_dictionaries(self) -> None:
        for name, made in mappings().items():
            with self.subTest(name):
                found = made()
                self.assertIsInstance(found, dict)
                self.assertEqual(found, dict(found))
                self.assertEqual((list(found), found.get("e1"), "e1" in found, len(found)), (["t0", "t1", "ei1", "ei2"], None, False, 4))
                for again in (pickle.loads(pickle.dumps(found)), copy.copy(found), copy.deepcopy(found)):
                    self.assertEqual(again, found)
                    self.assertIn("is not an interval of the document", self.said(getitem, again, "e1"))
                self.assertEqual(list(found), ["t0", "t1", "ei1", "ei2"], "looking for a name adds none")

    def test_ranks_go_to_json_and_to_pandas(self) -> None:
        ranks = timeline().ranks
        self.assertEqual(json.loads(json.dumps(ranks)), {name: list(pair) for name, pair in ranks.items()})
        if find_spec("pandas") is not None:
            pandas: Any = import_module("pandas")
            frame = pandas.DataFrame.from_dict(ranks, orient="index", columns=["start", "end"])
            self.assertEqual(frame["start"].to_dict(), {name: pair.start for name, pair in ranks.items()})
            self.assertEqual(pandas.Series(ranks)["ei2"], ranks["ei2"])
        self.assertIn("is not an interval of the document", self.said(getitem, ranks, "e1"))

    def test_an_empty_lid_is_no_identifier(self) -> None:
        document = read(NAMELESS)
        self.assertEqual([link.lid for link in document.links], [None, "l2"])
        self.assertEqual([link.lid for link in tml.expect(tml.check(NAMELESS, BY), tml.Accepted).links], [None, "l2"])
        self.assertEqual((document.links[0].called(), document.links[0].id, document.links[0].attributes["lid"]), ("link 0", None, ""))
        self.assertTrue(self.said(getitem, document, "").startswith("no tag of the document has the identifier ''"))
        self.assertNotIn("", document)
        other = NAMELESS.replace(
            b"</TimeML>", b'<SLINK lid="" eventInstanceID="ei1" subordinatedEventInstance="ei2" relType="MODAL"/></TimeML>'
        )
        self.assertEqual([tag.id for tag in read(other).other_links], [None])


if __name__ == "__main__":
    unittest.main()
