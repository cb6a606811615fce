"""Questions that `tml.folder` sends to other processes: with libraries, about pairs of files, of programs and notebooks; and errors."""

from __future__ import annotations

import copy
import errno
import importlib.util
import json
import os
import pickle
import shutil
import subprocess
import sys
import tempfile
import unittest
from collections.abc import Callable, Iterator
from functools import partial
from pathlib import Path
from typing import Any, NoReturn
from unittest import mock

import tml
from answer_kinds import BY, CLASHES, FAULTY, FITS, NEVER, RATES
from corpus import SOURCES, TESTS, TML

REFUSED = "another process can only be asked a function of a module that it can import"
"""How the sentence begins that says which functions can be asked, and what to do."""

LENGTHS = """
import functools
import os

import tml

FACTOR = 3


def scaled(path, factor=1):
    return FACTOR * factor * os.path.getsize(path)


class Scaled:
    def __call__(self, path):
        return scaled(path)


for question in (scaled, functools.partial(scaled, factor=1), Scaled(), lambda path: scaled(path)):
    try:
        print([answer for _, answer in tml.folder(FILES, question, jobs=2)])
    except TypeError as problem:
        print(problem)
"""
"""A program that asks functions of its own."""


class Odd(Exception):
    """An error with arguments of its own."""

    def __init__(self, place: int, *, hint: str) -> None:
        super().__init__(f"{hint} at {place}")
        self.place, self.hint = place, hint


class Held(Exception):
    """An error that cannot be sent."""

    def __init__(self) -> None:
        super().__init__("held")
        self.held = lambda: None


def of_the_system(path: str) -> NoReturn:
    """Fails as a system does about two files."""
    raise OSError(errno.EXDEV, os.strerror(errno.EXDEV), path, None, "other.xml")


def fails(path: str) -> NoReturn:
    """Raises what a file is called."""
    kinds: dict[str, Callable[[], BaseException]] = {"odd": lambda: Odd(7, hint="look"), "held": Held, "key": lambda: KeyError("k")}
    raise kinds[Path(path).stem]()


def answers_of(paths: Any, question: Any, jobs: int | None = None) -> list[Any]:
    """The answers, without the paths."""
    return [one.answer for one in tml.folder(paths, question, jobs)]


@unittest.skipUnless(os.access(TML, os.X_OK), f"no program {TML}: build it as README.md says, or name one by TML=PROGRAM")
class Asking(unittest.TestCase):
    def setUp(self) -> None:
        held = tempfile.TemporaryDirectory()
        self.addCleanup(held.cleanup)
        self.folder = Path(held.name)
        self.enterContext(mock.patch.dict(os.environ, {"TML": TML, "TML_LIBRARY": ""}))

    def written(self, **contents: bytes) -> list[str]:
        """The paths of some files."""
        for name, content in contents.items():
            (self.folder / f"{name}.xml").write_bytes(content)
        return [str(self.folder / f"{name}.xml") for name in contents]


class Errors(Asking):
    def errors(self, name: str, question: Callable[[str], Any]) -> Iterator[tuple[Any, Any]]:
        """What is answered about a file in this process and in another one, with the errors."""
        for jobs in (1, 2):
            with self.subTest(name, jobs=jobs):
                [answer] = answers_of(self.written(**{name: b""}), question, jobs)
                self.assertIsInstance(answer, tml.NotAnswered)
                yield answer, answer.error

    def test_an_error_with_its_own_init_comes_back_as_itself(self) -> None:
        for answer, error in self.errors("odd", fails):
            self.assertIs(type(error), Odd)
            self.assertEqual((error.args, error.place, error.hint, str(error)), (("look at 7",), 7, "look", "look at 7"))
            self.assertRegex(answer.reason, r"^Odd: look at 7 \(tests/test_folder_questions\.py:\d+\)$")

    def test_errors_of_python_and_of_the_package(self) -> None:
        for _, error in self.errors("key", fails):
            self.assertEqual((type(error), error.args), (KeyError, ("k",)))
        for answer, error in self.errors("name", partial(tml.possible, b"<TimeML/>", second="t9")):
            self.assertIs(type(error), tml.UnknownName)
            self.assertIn(str(error), answer.reason)

    def test_an_error_of_the_system_keeps_its_number_and_its_files(self) -> None:
        for answer, error in self.errors("gone", of_the_system):
            self.assertEqual((error.errno, os.path.basename(error.filename), error.filename2), (errno.EXDEV, "gone.xml", "other.xml"))
        for jobs in (1, 2):
            [answer] = answers_of([str(self.folder / "no.xml")], tml.check, jobs)
            self.assertIs(type(answer.error), FileNotFoundError)
            self.assertEqual((answer.error.errno, answer.error.filename), (errno.ENOENT, str(self.folder / "no.xml")))
            self.assertEqual(answer, tml.NotAnswered("no such file or directory"))
            self.assertEqual(json.loads(json.dumps(answer.to_dict())), {"result": "NotAnswered", "reason": answer.reason})

    def test_an_error_that_cannot_be_sent_leaves_its_reason(self) -> None:
        for jobs in (1, 2):
            held, odd = answers_of(self.written(held=b"", odd=b""), fails, jobs)
            self.assertRegex(held.reason, r"^Held: held \(tests/test_folder_questions\.py:\d+\)$")
            self.assertIsInstance(held.error, Held if jobs == 1 else Held | None)
            self.assertIs(type(odd.error), Odd)


class Sending(Asking):
    @unittest.skipUnless(shutil.which("cc"), "no program cc")
    def test_a_question_with_a_library(self) -> None:
        # It accepts all documents, so it is seen who answers.
        path = str(self.folder / "stand-in.so")
        subprocess.run(["cc", "-shared", "-fPIC", "-o", path, os.path.join(TESTS, "library_stand_in.c")], check=True)
        library = tml.Library(path)
        found = answers_of(self.written(a=FAULTY, b=FITS), partial(tml.check, by=library), 2)
        self.assertEqual(found, [tml.Accepted(0, 0, 0, 0, 0, 0, 0, (), ())] * 2)
        for again in (pickle.loads(pickle.dumps(library)), copy.copy(library), copy.deepcopy(library)):
            self.assertEqual((again.path, tml.check(FAULTY, again)), (path, found[0]))

    def test_functions_of_a_program_or_a_notebook_are_asked_or_refused(self) -> None:
        files = self.written(a=FITS, b=FAULTY)
        wanted = str([3 * os.path.getsize(path) for path in files])
        source = f"FILES = {files!r}\n{LENGTHS}"
        (self.folder / "program.py").write_text(source, encoding="utf-8")
        for words, given in (([str(self.folder / "program.py")], ""), (["-"], source)):
            done = subprocess.run(
                [sys.executable, *words],
                input=given,
                env={**os.environ, "PYTHONPATH": SOURCES},
                capture_output=True,
                text=True,
                check=False,
            )
            self.assertEqual((done.stderr, len(done.stdout.splitlines())), ("", 4))
            for line in done.stdout.splitlines():
                self.assertTrue(line == wanted or line.startswith(REFUSED) and "jobs=1" in line, line)
        # A path is no function.
        (self.folder / "__main__").mkdir()
        key = self.folder / "__main__" / "key.xml"
        key.write_bytes(FITS)
        self.assertEqual(answers_of(files[:1], partial(tml.score, key=str(key)), 2), [tml.score(FITS, FITS, BY)])

    def test_functions_of_a_module_that_others_cannot_import(self) -> None:
        (self.folder / "lonely_questions.py").write_text("def size(path):\n    return len(open(path, 'rb').read())\n", encoding="utf-8")
        made = importlib.util.spec_from_file_location("lonely_questions", self.folder / "lonely_questions.py")
        assert made is not None and made.loader is not None
        module = importlib.util.module_from_spec(made)
        self.enterContext(mock.patch.dict(sys.modules, {"lonely_questions": module}))
        made.loader.exec_module(module)
        files = self.written(a=FITS, b=FAULTY)
        self.assertEqual(answers_of(files, module.size, 1), [len(FITS), len(FAULTY)])
        try:
            found = answers_of(files, module.size, 2)
        except TypeError as problem:
            self.assertTrue(str(problem).startswith(REFUSED), problem)
            return
        self.assertEqual(found, [len(FITS), len(FAULTY)])


class Pairs(Asking):
    def test_pairs_of_files(self) -> None:
        files = self.written(a=FITS, b=CLASHES, c=NEVER, d=FAULTY)
        keys = [*reversed(files)]
        wanted = [tml.score(document, key, BY) for document, key in zip(files, keys, strict=True)]
        self.assertEqual(len({type(one) for one in wanted}), 3)
        for jobs in (1, 2):
            with self.subTest(jobs=jobs):
                folder: Any = tml.folder
                found = [*folder(zip(files, keys, strict=True), tml.score, jobs)]
                self.assertEqual([one.answer for one in found], wanted)
                self.assertEqual([one.path for one in found], files)
                self.assertEqual(answers_of([(Path(files[0]), keys[0])], partial(tml.score, by=tml.Process(TML)), jobs), wanted[:1])

    def test_files_that_are_no_pairs(self) -> None:
        # As many files as a pair has are two files.
        files = self.written(a=FITS, b=FAULTY)
        for jobs in (1, 2):
            self.assertEqual(answers_of(tuple(files), tml.check, jobs), [tml.check(one, BY) for one in files])
            self.assertEqual(answers_of([tuple(files)], tml.score, jobs), [tml.score(files[0], files[1], BY)])

    def test_a_pair_of_which_one_cannot_be_read(self) -> None:
        [file] = self.written(a=FITS)
        gone = str(self.folder / "gone.xml")
        for jobs in (1, 2):
            found = answers_of([(file, gone), (gone, file), (file, file)], tml.score, jobs)
            self.assertEqual([type(one) for one in found], [tml.NotAnswered, tml.NotAnswered, tml.Score])
            self.assertEqual([one.error.filename for one in found[:2]], [gone, gone])


class Processors(Asking):
    def test_a_system_without_affinity(self) -> None:
        files = self.written(a=FITS, b=FAULTY)
        for count in (2, None):
            with mock.patch.object(os, "sched_getaffinity"), mock.patch.object(os, "cpu_count", return_value=count):
                del os.sched_getaffinity
                self.assertEqual(answers_of(files, tml.check), [tml.check(one, BY) for one in files])
        self.assertTrue(hasattr(os, "sched_getaffinity"))
        self.assertEqual(answers_of([str(RATES)], tml.check), [tml.check(RATES, BY)])


if __name__ == "__main__":
    unittest.main()
