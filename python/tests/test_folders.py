"""Many documents: `tml.folder` asks about them by processes, in order, and goes on where one of them cannot be asked about."""

from __future__ import annotations

import errno
import importlib
import os
import re
import subprocess
import sys
import tempfile
import unittest
from collections.abc import Callable
from functools import partial
from pathlib import Path
from typing import Any
from unittest import mock

import tml
from corpus import SOURCES, TML, TOP
from processes import children_of

SAMPLES = os.path.join(TOP, "samples")
FOUND = {"TML": TML, "TML_LIBRARY": ""}


def ends_its_process(path: str) -> str:
    """A question at which a process ends, where a file is so called."""
    if path.endswith("bad.xml"):
        os._exit(3)
    return path


class Odd(Exception):
    """An error that cannot be sent."""

    def __init__(self, one: str, other: str) -> None:
        super().__init__(f"{one} and {other}")


class Broken:
    """An answer that cannot be read."""

    def __reduce__(self) -> tuple[type[tml.UnknownName], tuple[()]]:
        return tml.UnknownName, ()


HERE = r"\(tests/test_folders\.py:\d+\)"
RAISED: dict[str, tuple[Callable[[], object], str]] = {
    "bug": (lambda: FOUND["x"], rf"KeyError: 'x' {HERE}"),
    "memory": (lambda: bytearray(1 << 62), "no memory to take the document apart"),
    "misuse": (
        lambda: tml.possible(b"<TimeML/>", "x", "y"),
        r"UnknownName: 'x' is not an interval of the document: it has none \(tml/\w+\.py:\d+\)",
    ),
    "none": (lambda: "an answer", "an answer"),
    "odd": (lambda: deep(Odd("one", "other")), rf"Odd: one and other {HERE}"),
    "encoding": (lambda: b"\xe9".decode(), rf"UnicodeDecodeError: 'utf-8' codec .* {HERE}"),
    "recursion": (lambda: deep(None), rf"RecursionError: maximum recursion depth exceeded.* {HERE}"),
}
"""What is raised about a file that is so called, and what is said of it."""


def hard_to_send(path: str) -> object:
    """A question with answers of which some cannot be sent, and some cannot be read."""
    return {"a.xml": lambda: path, "b.xml": Broken()}.get(os.path.basename(path), path)


def deep(error: Exception | None) -> object:
    """Raises an error, or calls itself without an end."""
    if error is not None:
        raise error
    return [deep(error)]


def raises(path: str) -> object:
    """A question that raises something: what the file is called, or the number of an error of the system."""
    name = os.path.basename(path).removesuffix(".xml")
    if name not in RAISED:
        raise OSError(int(name), os.strerror(int(name)))
    return RAISED[name][0]()


def own(name: str) -> Any:
    """A function of this file as other processes can import it."""
    return getattr(importlib.import_module("test_folders"), name)


@unittest.skipUnless(os.access(TML, os.X_OK), f"no program {TML}: build it as README.md says, or name one by TML=PROGRAM")
class Folders(unittest.TestCase):
    def setUp(self) -> None:
        held = tempfile.TemporaryDirectory()
        self.addCleanup(held.cleanup)
        self.folder = Path(held.name)
        self.enterContext(mock.patch.dict(os.environ, FOUND))

    def test_models_of_a_folder(self) -> None:
        wanted = sorted(str(path) for path in Path(SAMPLES).rglob("*") if path.suffix in (".tml", ".xml"))
        for jobs in (1, 3):
            found = list(tml.folder(SAMPLES, jobs=jobs))
            self.assertEqual(sorted(path for path, _ in found), wanted)
            for path, document in found:
                self.assertEqual(document, tml.read(path))

    def test_other_questions_in_the_order_of_the_paths(self) -> None:
        paths = [os.path.join(SAMPLES, name) for name in ("rates.xml", "port.xml", "rates.xml", "bridge.xml")]
        found = list(tml.folder(paths, tml.solve, jobs=2))
        self.assertEqual([(one.path, one.answer) for one in found], [(path, tml.solve(path)) for path in paths])
        [one] = tml.folder(Path(paths[0]), partial(tml.ask, first="ei1", relation="BEFORE", second="ei2"), jobs=2)
        self.assertIsInstance(one.answer, tml.Proof)

    def test_what_cannot_be_read(self) -> None:
        for jobs in (1, 2):
            found = list(tml.folder(["no such", os.path.join(SAMPLES, "rates.xml")], tml.check, jobs=jobs))
            self.assertEqual(found[0].answer, tml.NotAnswered("no such file or directory"))
            self.assertIsInstance(found[1].answer, tml.Accepted)

    def test_a_process_that_ends_takes_one_file_along(self) -> None:
        for name in ("a.xml", "bad.xml", "c.xml", "d.tml", "e.txt"):
            (self.folder / name).write_text("x")
        found = list(tml.folder(self.folder, own("ends_its_process"), jobs=2))
        answers = [one.answer for one in found]
        self.assertEqual(
            answers,
            [
                str(self.folder / "a.xml"),
                tml.NotAnswered("the process that was asked about it ended"),
                str(self.folder / "c.xml"),
                str(self.folder / "d.tml"),
            ],
        )

    def test_what_is_no_document_of_a_folder(self) -> None:
        (self.folder / "a.xml").write_text("<TimeML/>")
        os.mkfifo(self.folder / "b.xml")
        (self.folder / "c.xml").symlink_to("gone")
        (self.folder / "d.xml").mkdir()
        (self.folder / "e").symlink_to(self.folder)
        found = [(os.path.basename(path), type(answer)) for path, answer in tml.folder(self.folder, tml.check, jobs=1)]
        self.assertEqual(found, [("a.xml", tml.Accepted), ("c.xml", tml.NotAnswered)])

    def test_what_a_question_raises_is_said_of_its_file(self) -> None:
        names = [*map(str, errno.errorcode), *RAISED]
        for name in names:
            (self.folder / f"{name}.xml").write_text("<TimeML/>")
        for jobs in (1, 3):
            found = {
                os.path.basename(path).removesuffix(".xml"): answer for path, answer in tml.folder(self.folder, own("raises"), jobs=jobs)
            }
            self.assertEqual(sorted(found), sorted(names))
            for name, answer in found.items():
                said = RAISED[name][1] if name in RAISED else re.escape(os.strerror(int(name)).lower())
                with self.subTest(name, jobs=jobs):
                    self.assertRegex(str(answer), f"^{said}$")
                    self.assertEqual(isinstance(answer, tml.NotAnswered), name != "none")

    def test_an_answer_that_cannot_be_sent_is_the_only_one_lost(self) -> None:
        for name in ("a.xml", "b.xml", "c.xml"):
            (self.folder / name).write_text("<TimeML/>")
        first, second, third = (answer for _, answer in tml.folder(self.folder, own("hard_to_send"), jobs=2))
        self.assertRegex(first.reason, r"^AttributeError: Can't pickle local object .* \(tml/attempts\.py:\d+\)$|\(tml/workers\.py:\d+\)$")
        self.assertRegex(second.reason, r"^TypeError: .* \(tml/workers\.py:\d+\)$")
        self.assertEqual(third, str(self.folder / "c.xml"))

    def test_nothing_found(self) -> None:
        (self.folder / "a.txt").touch()
        for jobs in (1, 2):
            [found] = tml.folder(self.folder, tml.check, jobs=jobs)
            self.assertEqual(found, (str(self.folder), tml.NotAnswered("no name in this folder ends in .tml or .xml")))
        (self.folder / "B.TML").write_text("<TimeML/>")
        (self.folder / "c.Xml").write_text("<TimeML/>")
        self.assertEqual([os.path.basename(path) for path, _ in tml.folder(self.folder, tml.check, jobs=1)], ["B.TML", "c.Xml"])

    def test_what_cannot_be_sent(self) -> None:
        with self.assertRaisesRegex(TypeError, "^another process can only be asked a function of a module"):
            tml.folder(SAMPLES, lambda path: path, jobs=2)
        self.assertEqual(len(list(tml.folder([SAMPLES], lambda path: path, jobs=1))), len(list(tml.folder(SAMPLES, tml.check, jobs=1))))
        wrong: Any = b"samples"
        for given, kind in ((0, ValueError), (-1, ValueError)):
            with self.assertRaises(kind):
                tml.folder(SAMPLES, jobs=given)
        with self.assertRaises(TypeError):
            list(tml.folder(wrong))

    def test_whoever_stops_early_leaves_no_process(self) -> None:
        before = children_of(os.getpid())
        asked = tml.folder([os.path.join(SAMPLES, "rates.xml")] * 500, tml.check, jobs=2)
        self.assertIsInstance(next(asked).answer, tml.Accepted)
        self.assertEqual(len(children_of(os.getpid()) - before), 2)
        del asked
        self.assertEqual(children_of(os.getpid()), before)

    def test_a_program_without_a_guard(self) -> None:
        program = self.folder / "program.py"
        program.write_text(f"import tml\nprint([type(one.answer).__name__ for one in tml.folder({SAMPLES!r}, tml.check, jobs=2)])\n")
        done = subprocess.run(
            [sys.executable, str(program)], env={**os.environ, "PYTHONPATH": SOURCES}, capture_output=True, text=True, check=False
        )
        self.assertEqual((done.returncode, done.stderr), (0, ""))
        self.assertIn("Accepted", done.stdout)


if __name__ == "__main__":
    unittest.main()
