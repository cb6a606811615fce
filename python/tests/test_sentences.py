"""Answers as people read them: a sentence in the words of the text by `str`, a short `repr`, and `help` with all that a call needs."""

from __future__ import annotations

import os
import pydoc
import random
import re
import unittest
from collections.abc import Iterable
from typing import Any

import tml
from answer_kinds import BY, CLASHES, FITS, NEVER, RATES, answer_classes, every_answer, public_functions
from corpus import TML
from stories import Story

PORT, BRIDGE = RATES.with_name("port.xml"), RATES.with_name("bridge.xml")
LONGEST = 400
"""How many characters a `repr` has at most."""

FILE_ERRORS = ("TypeError", "OSError", "MemoryError", "CannotRun")
"""What each question about a file may raise."""

UNITS = {
    "ask": ("rank",), "clashes": ("1 or more",), "consistent": ("weight", "number"), "dates": ("second", "1970-01-01"),
    "drill": ("1 to 1024", "bytes"), "score": ("fraction",), "seconds": ("second", "1970-01-01"), "solve": ("rank",), "spans": ("byte",),
    "timeline": ("rank",),
}  # fmt: skip
"""What the numbers of an answer, or those that are given, are said to count."""


def of_kind(kind: type[Any]) -> Any:
    """An answer of a class."""
    return next(answer for _, answer in every_answer() if type(answer) is kind)


def in_order(parts: Iterable[str], text: str) -> bool:
    """Whether a text has some parts, one not before the other."""
    place = 0
    for part in parts:
        place = text.find(part, place)
        if place < 0:
            return False
    return True


@unittest.skipUnless(os.access(TML, os.X_OK), f"no program {TML}: build it as README.md says, or name one by TML=PROGRAM")
class Sentences(unittest.TestCase):
    def test_each_answer_is_one_line_of_words(self) -> None:
        answers = {type(answer): answer for _, answer in every_answer()}
        for kind in sorted(answer_classes(), key=lambda one: one.__name__):
            with self.subTest(kind.__name__):
                said = str(answers[kind])
                self.assertNotEqual(said, repr(answers[kind]))
                self.assertRegex(said, r"^[^\n<>{}\[\]]*[a-z]{2}[,:]? [^\n{}\[\]]*$")
                self.assertNotRegex(said, rf"\b{kind.__name__}\(|\w=\w|=\(")

    def test_what_the_sentences_have(self) -> None:
        less = tml.document_of([("a", "BEFORE", "b"), ("b", "BEFORE", "c"), ("a", "BEFORE", "c")])
        rows: list[tuple[Any, str]] = [
            (tml.check(FITS, BY), "2 events.* 4 intervals.* 2 links"),
            (tml.read(RATES, BY), r"rates\.xml.* 2 events.* 2 links"),
            (tml.reduce(less, BY), "2 of 3 links"),
            (tml.score(FITS, FITS, BY), "precision 1.*recall 1.*F1 1"),
            (tml.matrix(FITS, BY), "4 intervals"),
            (tml.possible(FITS, "ei1", "t1", BY), "BEFORE, IS_INCLUDED, IBEFORE, BEGINS.* OVERLAPS"),
            (tml.seconds(FITS, BY), "4 intervals"),
            (of_kind(tml.Verified), "timeline"),
            (of_kind(tml.Confirmed), "placing"),
            (of_kind(tml.Malformed), r"line 1\b.*"),
            (tml.Refused("Link 0", 0, 1), "claim 0.*Link 0"),
            (tml.Refused("Size 4"), "Size 4"),
            (tml.consistent(FITS, [("ei1", "BEFORE", "ei2"), ("ei2", "BEFORE", "ei1")], [1, 0], BY), "1 relation.*kept.*1.*dropped"),
            (tml.drill(2, BY), "3 links"),
        ]  # fmt: skip
        for answer, pattern in rows:
            with self.subTest(type(answer).__name__):
                self.assertRegex(str(answer), pattern)

    def test_a_proof_says_each_step_by_its_link(self) -> None:
        proof = tml.expect(tml.ask(FITS, "ei1", "BEFORE", "ei2", BY), tml.Proof)
        self.assertIn("fell BEFORE spoke (l1: ei1 BEFORE ei2)", str(proof))
        documents = [BRIDGE.read_bytes(), *(Story(random.Random(seed)).document().encode() for seed in (3, 4, 5, 6, 8))]
        cited = 0
        for document in documents:
            triples: Any = tml.relations(document, BY, one_per_pair=True)
            model = tml.read(document, BY)
            if not isinstance(triples, list) or not isinstance(model, tml.Document):
                continue
            for triple in triples[:6]:
                proof = tml.expect(tml.ask(document, triple.first, triple.relation, triple.second, BY), tml.Proof)
                links = [str(model.links[step.first]) for walk in proof.walks for step in walk if step.kind == "via"]
                cited += len(links)
                words = [model.intervals[name].text for name in (triple.first, triple.second)]
                self.assertTrue(in_order(links, str(proof)), (links, str(proof)))
                for word in (*words, triple.relation):
                    self.assertIn(" ".join(word.split()), str(proof))
                if any(step.kind == "calendar" for walk in proof.walks for step in walk):
                    self.assertIn("date", str(proof))
        self.assertGreater(cited, 20)

    def test_a_counterexample_is_in_words(self) -> None:
        found = tml.expect(tml.ask(FITS, "ei1", "AFTER", "ei2", BY), tml.Counterexample)
        self.assertRegex(str(found), r"fell \(ei1\).*AFTER.*spoke \(ei2\)")
        self.assertRegex(str(found), r"\bnot\b")
        nameless = tml.document_of([("flood", "BEFORE", "rescue")])
        self.assertRegex(str(tml.ask(nameless, "flood", "AFTER", "rescue", BY)), "^[^(]*flood.*AFTER.*rescue")

    def test_a_clash_is_in_words(self) -> None:
        found = tml.expect(tml.clash(PORT, BY), tml.Clash)
        for part in ("clash of 4 links", "closed IS_INCLUDED Monday (l5: ei4 IS_INCLUDED t1)", *map(str, found.links)):
            self.assertIn(part, str(found))
        self.assertIn("date", str(found))
        [of_two] = tml.expect(tml.clashes(CLASHES, by=BY), list)
        self.assertTrue(in_order(["fell BEFORE spoke (l1: ei1 BEFORE ei2)", "spoke BEFORE fell (l3: ei2 BEFORE ei1)"], str(of_two)))
        nameless = tml.document_of([("flood", "BEFORE", "rescue"), ("rescue", "BEFORE", "flood")])
        said = "clash of 2 links, which cannot all be true: link 0: flood BEFORE rescue; link 1: rescue BEFORE flood"
        self.assertEqual(str(tml.clash(nameless, BY)), said)

    def test_a_timeline_is_in_its_order(self) -> None:
        for question in (tml.solve, tml.timeline):
            found: Any = question(FITS, BY)
            self.assertTrue(in_order(["fell (ei1)", "spoke (ei2)", "Jan 8 (t0)"], str(found)), str(found))
            self.assertIn("Wednesday (t1)", str(found))
            found = question(tml.document_of([("flood", "BEFORE", "rescue"), ("calm", "BEFORE", "flood")]), BY)
            self.assertTrue(in_order(["calm", "flood", "rescue"], str(found)), str(found))

    def test_a_cycle_is_in_words(self) -> None:
        found = tml.expect(tml.seconds(NEVER, BY), tml.Cycle)
        [link] = [step.first for step in found.steps if step.kind == "via"][:1]
        model = tml.expect(tml.read(NEVER, BY), tml.Document)
        self.assertIn(str(model.links[link]), str(found))


@unittest.skipUnless(os.access(TML, os.X_OK), f"no program {TML}: build it as README.md says, or name one by TML=PROGRAM")
class Representations(unittest.TestCase):
    def test_each_is_short_and_either_an_expression_or_in_angle_brackets(self) -> None:
        names = {name: getattr(tml, name) for name in getattr(tml, "__all__")}
        long = tml.document_of([(f"event-number-{number}", "BEFORE", f"event-number-{number + 1}") for number in range(60)])
        questions: list[Any] = [tml.read, tml.check, tml.solve, tml.timeline, tml.matrix, tml.reduce, tml.seconds]
        answers = [answer for _, answer in every_answer()] + [question(long, BY) for question in questions] + [tml.clash(PORT, BY)]
        for answer in (one for one in answers if isinstance(one, tuple(answer_classes()))):
            with self.subTest(type(answer).__name__):
                said = repr(answer)
                self.assertLessEqual(len(said), LONGEST, said[:LONGEST])
                self.assertNotIn("\n", said)
                if said.startswith("<"):
                    self.assertRegex(said, rf"^<(tml\.)?{type(answer).__name__}\b.*>$")
                else:
                    self.assertEqual(eval(said, dict(names)), answer)


class Help(unittest.TestCase):
    def help_of(self, name: str) -> str:
        """What `help` says of a public function, on one line."""
        return " ".join(pydoc.plain(pydoc.render_doc(getattr(tml, name))).split())

    def test_help_of_ask(self) -> None:
        text = self.help_of("ask")
        for part in ("document", "first", "relation", "second", "by", "BEFORE", "bytes", "path", "rank", "UnknownName", *FILE_ERRORS):
            self.assertRegex(text.partition("->")[2], rf"\b{part}\b", part)
        self.assertRegex(text, r'tml\.ask\("samples/rates\.xml", "ei1", "BEFORE", "ei2"\)')

    def test_help_of_each_function(self) -> None:
        for name, function in sorted(public_functions().items()):
            text = self.help_of(name).partition("->")[2]
            with self.subTest(name):
                arguments = [one for one in function.__annotations__ if one not in ("return", "wished")]
                errors = FILE_ERRORS if any(one in arguments for one in ("document", "evidence")) else ()
                for part in (*arguments, *errors, *UNITS.get(name, ())):
                    self.assertRegex(text, rf"\b{re.escape(part)}", part)
                self.assertRegex(text, rf"\btml\.{name}\(", "an example")


if __name__ == "__main__":
    unittest.main()
