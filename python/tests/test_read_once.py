"""A file is read once, and no question is asked twice about the same bytes: so a pipe does, and a file may be saved meanwhile."""

from __future__ import annotations

import os
import sys
import tempfile
import threading
import unittest
from collections import Counter
from collections.abc import Iterator, Sequence
from contextlib import contextmanager
from dataclasses import fields, replace
from pathlib import Path
from typing import Any

import tml
from answer_kinds import BY, CLASHES, FAULTY, FITS, NEVER, QUESTIONS, Files, Question, Remembering, functions_of_files, right_files
from corpus import TML

Asked = tuple[str, tuple[bytes, ...], tuple[str, ...]]
"""A command, what its files have, and its words."""


class ReadAgain(Exception):
    """A file is opened for the second time."""


class Opened:
    """How often each file of a folder is opened for reading while this watches. The second time is refused, before it can hang."""

    def __init__(self) -> None:
        self.folder, self.counts = "", Counter[str]()
        sys.addaudithook(self.note)

    def note(self, event: str, given: tuple[Any, ...]) -> None:
        """Is told of all that Python does."""
        if not self.folder or event != "open" or not isinstance(given[0], (str, bytes)) or given[2] & os.O_ACCMODE != os.O_RDONLY:
            return
        folder, name = os.path.split(os.path.abspath(os.fsdecode(given[0])))
        if folder == self.folder:
            self.counts[name] += 1
            if self.counts[name] > 1:
                raise ReadAgain(name)

    @contextmanager
    def watching(self, folder: str) -> Iterator[None]:
        """Watches for a while."""
        self.counts.clear()
        self.folder = folder
        try:
            yield
        finally:
            self.folder = ""


OPENED = Opened()


class Noting(Remembering):
    """The program, of which the questions are noted."""

    def __init__(self, path: str) -> None:
        super().__init__(path)
        self.asked: list[Asked] = []

    def answer(self, command: str, files: Sequence[bytes], arguments: Sequence[str] = ()) -> tuple[int, bytes]:
        self.asked.append((command, tuple(files), tuple(arguments)))
        return super().answer(command, files, arguments)


class Saving(Remembering):
    """The program, after whose first answer all files have become other ones."""

    def __init__(self, path: str, folder: str) -> None:
        super().__init__(path)
        self.folder = folder

    def answer(self, command: str, files: Sequence[bytes], arguments: Sequence[str] = ()) -> tuple[int, bytes]:
        found = super().answer(command, files, arguments)
        for path in Path(self.folder).iterdir():
            path.write_bytes(FAULTY)
        return found


def cases(*documents: bytes) -> Iterator[tuple[str, Question, Files]]:
    """Each question about each of some documents."""
    for document in documents:
        yield from ((name, question, replace(right_files(), document=document)) for name, question in QUESTIONS)


@unittest.skipUnless(os.access(TML, os.X_OK), f"no program {TML}: build it as README.md says, or name one by TML=PROGRAM")
class ReadOnce(unittest.TestCase):
    def setUp(self) -> None:
        held = tempfile.TemporaryDirectory()
        self.addCleanup(held.cleanup)
        self.folder = os.path.realpath(held.name)
        self.assertEqual({name for name, _ in QUESTIONS}, functions_of_files())

    def saved(self, files: Files) -> Files:
        """Paths at which the files lie."""
        for one in fields(Files):
            Path(self.folder, one.name).write_bytes(getattr(files, one.name))
        return Files(*(os.path.join(self.folder, one.name) for one in fields(Files)))

    @contextmanager
    def piped(self, files: Files) -> Iterator[Files]:
        """Paths of pipes, to each of which a file is written once."""
        paths = [os.path.join(self.folder, one.name) for one in fields(Files)]
        contents = [getattr(files, one.name) for one in fields(Files)]
        writers = [threading.Thread(target=Path(path).write_bytes, args=(content,)) for path, content in zip(paths, contents, strict=True)]
        for path, writer in zip(paths, writers, strict=True):
            os.mkfifo(path)
            writer.start()
        try:
            yield Files(*paths)
        finally:
            for path, writer in zip(paths, writers, strict=True):
                # Nobody may have read it, or begun to.
                handle = os.open(path, os.O_RDWR)
                writer.join()
                os.close(handle)
                os.unlink(path)

    def same(self, found: object, wanted: object) -> None:
        """The same answer; documents may lie at different places."""
        models = [replace(one, path=None) if isinstance(one, tml.Document) else one for one in (found, wanted)]
        self.assertEqual(models[0], models[1])

    def test_each_function_opens_a_file_once(self) -> None:
        for name, question, files in cases(FITS, CLASHES, FAULTY):
            with self.subTest(name):
                wanted, paths = question(files, BY), self.saved(files)
                with OPENED.watching(self.folder):
                    self.same(question(paths, BY), wanted)
                self.assertEqual(set(OPENED.counts.values()), {1})

    def test_pipes(self) -> None:
        for name, question in QUESTIONS:
            with self.subTest(name):
                wanted = question(right_files(), BY)
                with self.piped(right_files()) as paths, OPENED.watching(self.folder):
                    self.same(question(paths, BY), wanted)

    def test_a_pipe_that_is_given_twice(self) -> None:
        with self.piped(right_files()) as paths, OPENED.watching(self.folder):
            self.assertEqual(tml.score(paths.document, paths.document, BY), tml.score(FITS, FITS, BY))
            self.assertEqual(tml.join(paths.evidence, paths.evidence, BY), tml.join(right_files().evidence, right_files().evidence, BY))

    def test_a_file_that_is_saved_meanwhile(self) -> None:
        for name, question, files in cases(FITS, CLASHES):
            with self.subTest(name):
                wanted, paths = question(files, BY), self.saved(files)
                self.same(question(paths, Saving(TML, self.folder)), wanted)

    def test_no_question_is_asked_twice_about_the_same_bytes(self) -> None:
        for name, question, files in cases(FITS, CLASHES, NEVER, FAULTY):
            with self.subTest(name):
                noting = Noting(TML)
                question(files, noting)
                self.assertEqual([one[0] for one, count in Counter(noting.asked).items() if count > 1], [])


if __name__ == "__main__":
    unittest.main()
