"""What is wrong with a query is said in words of the query, before anything is asked."""

from __future__ import annotations

import datetime
import os
import subprocess
import sys
import unittest
from collections.abc import Callable, Sequence
from itertools import product
from pathlib import Path
from typing import Any

import tml
from answer_kinds import BY, CLASHES, FAULTY, FITS, QUESTIONS, RATES, Files, right_files
from corpus import SOURCES, TML

ANY: Any = None
SEVEN: Any = 7

Rows = list[tuple[Any, str]]
"""What is given, and a part of what is said of it."""


class Unasked(tml.Process):
    """A program that is to be asked nothing."""

    def answer(self, command: str, files: Sequence[bytes], arguments: Sequence[str] = ()) -> tuple[int, bytes]:
        raise AssertionError(f"it is asked {command}")


@unittest.skipUnless(os.access(TML, os.X_OK), f"no program {TML}: build it as README.md says, or name one by TML=PROGRAM")
class WrongQueries(unittest.TestCase):
    def said(self, kind: type[Exception], ask: Callable[[], object]) -> str:
        """What is said of a wrong query: one line."""
        with self.assertRaises(kind) as raised:
            ask()
        self.assertEqual(len(str(raised.exception).splitlines()), 1)
        return str(raised.exception)

    def test_how_many_clashes(self) -> None:
        most: Any
        for document, most in product((CLASHES, FITS, FAULTY), (0, -1, 1.5, "2", True)):
            with self.subTest(most):
                said = self.said(ValueError, lambda: tml.clashes(document, most, Unasked(TML)))
                self.assertEqual(said, f"most is how many clashes are wanted, 1 or more, and not {most!r}")
        self.assertEqual(tml.clashes(CLASHES, 1, BY), tml.clashes(CLASHES, None, BY))

    def test_values_of_times(self) -> None:
        rows: Rows = [
            ({"a": None}, "'a' is a text, as 1998-01-08, and not None"), ({"a": 1998}, "'a' is a text, as 1998-01-08, and not 1998"),
            ({"b": datetime.date(1998, 1, 8)}, "'b' is a text, as 1998-01-08, and not datetime.date(1998, 1, 8)"),
        ]  # fmt: skip
        for times, said in rows:
            with self.subTest(said):
                self.assertEqual(self.said(TypeError, lambda: tml.document_of([], times)), f"the value of the time {said}")
        others: list[Any] = ["t1", ["t1"], [None], 7]
        for other in others:
            with self.subTest(other):
                self.assertRegex(self.said(TypeError, lambda: tml.document_of([], other)), "^times are values by their names, or Times")

    def test_words_that_are_no_texts(self) -> None:
        model = tml.expect(tml.read(RATES, BY), tml.Document)
        rows: Rows = [
            (lambda: tml.ask(RATES, "ei1", ANY, "t0", Unasked(TML)), "relation is a text, as BEFORE, and not NoneType"),
            (lambda: tml.ask(RATES, ANY, "BEFORE", "t0", Unasked(TML)), "first is a text, the name of an interval, and not NoneType"),
            (lambda: tml.ask(RATES, "ei1", "BEFORE", SEVEN, Unasked(TML)), "second is a text, the name of an interval, and not int"),
            (lambda: tml.possible(RATES, "ei1", ANY, Unasked(TML)), "second is a text, the name of an interval, and not NoneType"),
        ]  # fmt: skip
        for ask, said in rows:
            with self.subTest(said):
                self.assertEqual(self.said(TypeError, ask), said)
        tag: Any = model["ei1"]
        said = self.said(TypeError, lambda: tml.ask(model, tag, "BEFORE", "t0", Unasked(TML)))
        self.assertEqual(said, "first is a text, the name of an interval, and not Instance: give its id, 'ei1'")

    def test_an_empty_path(self) -> None:
        for (name, question), empty in product(QUESTIONS, vars(right_files())):
            with self.subTest(name, empty=empty):
                try:
                    # What a question is not about may be anything.
                    self.assertEqual(question(Files(**{**vars(right_files()), empty: ""}), BY), question(right_files(), BY))
                except OSError as error:
                    self.assertEqual((type(error), error.filename), (FileNotFoundError, ""))

    def test_a_fault_says_whether_it_is_that_of_the_key(self) -> None:
        of_document = tml.expect(tml.score(FAULTY, FITS, BY), tml.Fault)
        of_key = tml.expect(tml.score(FITS, FAULTY, BY), tml.Fault)
        self.assertTrue(str(of_document).startswith("4:7: 11 BadValue: "))
        self.assertEqual(str(of_key), f"key {of_document}")
        self.assertIn("<strong>key 4:7: 11 BadValue</strong>", of_key._repr_html_())
        with self.assertRaisesRegex(tml.Unexpected, "the answer is Fault: key 4:7: 11 BadValue"):
            tml.expect(of_key, tml.Score)

    def test_help_of_the_command_line(self) -> None:
        for word in ("--help", "-h"):
            done = self.python_m_tml(word, TML="", TML_LIBRARY="", PATH="/nowhere")
            self.assertEqual((done.returncode, done.stderr), (0, ""))
            self.assertTrue(done.stdout.startswith("usage: python -m tml "), done.stdout)
            for form in ("check DOC", "ask DOC X REL Y", "possible DOC X Y", "score DOC KEY", "verify DOC EVIDENCE", "drill N"):
                self.assertIn(form, done.stdout)
            for said in ("--version", "standard input", "TML_LIBRARY", "TML"):
                self.assertIn(said, done.stdout)
            self.assertLessEqual(max(map(len, done.stdout.splitlines())), 100)
        wrong = self.python_m_tml("no", TML=TML, TML_LIBRARY="")
        self.assertEqual((wrong.returncode, wrong.stdout), (3, ""))
        self.assertIn("--help", wrong.stderr)

    def python_m_tml(self, *words: str, **variables: str) -> subprocess.CompletedProcess[str]:
        """A run of the package as a program."""
        environment = {**os.environ, "PYTHONPATH": SOURCES, **variables}
        return subprocess.run(
            [sys.executable, "-m", "tml", *words], env=environment, cwd=Path(SOURCES), capture_output=True, text=True, check=False
        )


if __name__ == "__main__":
    unittest.main()
