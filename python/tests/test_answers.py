"""Answers have no truth value: `.ok` says whether one says yes, and nothing in the package goes by the truth of one."""

from __future__ import annotations

import os
import unittest
from collections.abc import Callable
from itertools import product
from typing import Any
from unittest import mock

import tml
from answer_kinds import BY, CLASHES, FITS, NOT_OK, QUESTIONS, answer_classes, every_answer, functions_of_files, public_functions
from corpus import TML

USES: tuple[Callable[[Any], object], ...] = (
    bool, lambda one: not one, lambda one: one and 1, lambda one: 1 if one else 2, lambda one: all([one])
)  # fmt: skip
"""Ways to use the truth of something."""


def no_truth(answer: object) -> bool:
    """What `bool` comes to if an answer has no truth value."""
    raise AssertionError(f"the truth of a {type(answer).__name__} is used")


@unittest.skipUnless(os.access(TML, os.X_OK), f"no program {TML}: build it as README.md says, or name one by TML=PROGRAM")
class Truth(unittest.TestCase):
    def test_each_class_of_answers_refuses_bool(self) -> None:
        classes = answer_classes()
        self.assertGreaterEqual(classes, {tml.Document, tml.Matrix, tml.NotAnswered, tml.Refused, tml.Timeline})
        for kind in sorted(classes, key=lambda one: one.__name__):
            with self.subTest(kind.__name__):
                # A class that is added later needs no example here.
                with self.assertRaisesRegex(TypeError, rf"(?s)\b{kind.__name__}\b.*\.ok\b"):
                    bool(object.__new__(kind))

    def test_each_way_to_use_truth_is_refused(self) -> None:
        answers: list[Any] = [tml.check(FITS, BY), tml.ask(FITS, "ei1", "AFTER", "ei2", BY), tml.read(FITS, BY), tml.matrix(FITS, BY)]
        for answer, use in product(answers, USES):
            with self.subTest(type(answer).__name__):
                with self.assertRaisesRegex(TypeError, r"\.ok\b"):
                    use(answer)

    def test_ok_of_every_answer(self) -> None:
        answers = {type(answer): answer for _, answer in every_answer()}
        classes = answer_classes()
        self.assertEqual({one.__name__ for one in classes - set(answers)}, set(), "no question here is answered so")
        for kind in sorted(classes, key=lambda one: one.__name__):
            with self.subTest(kind.__name__):
                self.assertIs(getattr(answers[kind], "ok", None), kind.__name__ not in NOT_OK)
                self.assertIsInstance(getattr(kind, "ok", None), property)
                with self.assertRaises(AttributeError):
                    answers[kind].ok = True

    def test_only_answers_have_no_truth(self) -> None:
        document, timeline = tml.expect(tml.read(FITS, BY), tml.Document), tml.expect(tml.timeline(FITS, BY), tml.Timeline)
        self.assertIs(bool(tml.clashes(FITS, by=BY)), False)
        self.assertIs(bool(tml.clashes(CLASHES, by=BY)), True)
        self.assertIs(bool(tml.dates(b"<TimeML/>", BY)), False)
        # These may be None, and are looked at for that; and links and relations are tuples.
        parts: list[Any] = [document.creation_time, timeline.rows[1].date, document.events[0], document.links[0], timeline.ranks]
        parts += [tml.expect(tml.check(FITS, BY), tml.Accepted).links[0], *tml.expect(tml.relations(FITS, BY), list)]
        self.assertTrue(all(parts))
        for part in (*parts, tml.clashes(FITS, by=BY), None):
            self.assertFalse(hasattr(part, "ok"), part)
        answers: list[Any] = [timeline, document]
        for answer in answers:
            with self.assertRaises(TypeError):
                bool(answer)

    def test_documents_have_a_length_and_no_truth(self) -> None:
        for source, count in ((FITS, 9), (b"<TimeML/>", 0)):
            document: Any = tml.read(source, BY)
            self.assertEqual(len(document), count)
            with self.assertRaisesRegex(TypeError, r"\bDocument\b.*\.ok\b"):
                bool(document)
            self.assertIs(document.ok, True)

    def test_match_tells_answers_apart_where_truth_does_not(self) -> None:
        for relation, wanted in (("BEFORE", "proof"), ("AFTER", "counterexample")):
            answer = tml.ask(FITS, "ei1", relation, "ei2", BY)
            is_proved = getattr(answer, "ok")
            match answer:
                case tml.Proof(relation=said):
                    found = "proof"
                case tml.Counterexample(relation=said):
                    found = "counterexample"
            self.assertEqual((found, said, is_proved), (wanted, ("ei1", relation, "ei2"), wanted == "proof"))
            self.assertIsInstance(answer, tml.Result)
            self.assertEqual(answer, tml.ask(FITS, "ei1", relation, "ei2", BY))

    def test_nothing_inside_goes_by_the_truth_of_an_answer(self) -> None:
        self.assertEqual({name for name, _ in QUESTIONS}, functions_of_files())
        asked = {*functions_of_files(), "drill", "expect", "folder", "document_of"}
        self.assertEqual(set(public_functions()), asked, "a function that is asked nothing here")
        for kind in answer_classes():
            self.enterContext(mock.patch.object(kind, "__bool__", no_truth, create=True))
        answers = {type(answer): answer for _, answer in every_answer()}
        for kind in answer_classes():
            with self.subTest(kind.__name__):
                self.use(answers[kind])

    def use(self, answer: Any) -> None:
        """Does with an answer what programs and notebooks do."""
        self.assertEqual(answer.to_dict()["result"], type(answer).__name__)
        self.assertEqual((answer, [answer]), (answer, [answer]))
        for name in ("__repr__", "__str__", "_repr_html_", "_repr_svg_"):
            if hasattr(answer, name):
                self.assertIsInstance(getattr(answer, name)(), str)
        with self.assertRaises(tml.Unexpected):
            tml.expect(answer, str)


if __name__ == "__main__":
    unittest.main()
