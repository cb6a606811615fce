"""Settings of strangers.

Seven files that cost much or end otherwise than by a line, a million jobs over 300 files, and ten cases of who owns a file and where it
lies.
"""

import contextlib
import io
import multiprocessing
import os
import unittest
from collections.abc import Callable
from functools import partial
from typing import TypeVar
from unittest import mock

import tomllib  # noqa: F401

from attacks import AttackTest
from corpus import TML, document, needs_root
from tml.running import processors
from tml_corpus.asking.pool import Interruption
from tml_corpus.command_line import main as command_line
from tml_corpus.command_line.parser import parser
from tml_corpus.command_line.settings import settings_for

Answer = TypeVar("Answer")

STRANGER = 65534
"""The number of another user, who owns nothing."""


def as_stranger(work: Callable[[], Answer]) -> Answer:
    """What some work answers in a process of that user; the modules that it needs were imported before."""
    with multiprocessing.get_context("fork").Pool(1, become_stranger) as pool:
        return pool.apply(work)


def become_stranger() -> None:
    """Has this process go on as that user."""
    os.setgroups([])
    os.setgid(STRANGER)
    os.setuid(STRANGER)


SETTINGS = {
    "names within names": "a" + ".a" * 8000 + " = 1",
    "very many names within names": "a" + ".a" * 20_000 + " = 1",
    "names in quotes within names": 'a . "b" . ' * 1600 + "c = 1",
    "lists in lists": "wrappers = " + "[" * 8000 + "]" * 8000,
    "very many tables": "".join(f"[a{number}]\n" for number in range(2000)),
    "a very long number": "jobs = " + "9" * 5000,
    "a text without an end": 'ignore = "' + '\\"' * 8000,
}
"""Files of settings that are made to cost much, or to end the program otherwise than by a line."""


class Settings(AttackTest):
    def test_work_and_memory_are_in_proportion(self) -> None:
        for name, content in SETTINGS.items():
            with self.subTest(name):
                self.write("tml-corpus.toml", content)
                ended = self.ended("tml-corpus check --tml TML good.xml")
                self.assertEqual((ended.status, ended.out, ended.error.count("\n")), (2, "", 1), ended)
                self.assertIn("tml-corpus.toml", ended.error)
                self.assertLess(ended.seconds, 3)
                self.assertLess(ended.mebibytes, 60)

    def test_very_many_jobs_are_not_forked(self) -> None:
        self.write("tml-corpus.toml", "jobs = 1000000")
        for number in range(300):
            self.write(f"d/{number}.xml", document(""))
        with mock.patch.object(os, "fork", wraps=os.fork) as fork, contextlib.redirect_stdout(io.StringIO()):
            read = parser("check").parse_args(["check", "--tml", TML, "--no-library", self.path("d")], command_line.Words())
            with Interruption() as stop, command_line.prepared(read, command_line.settings_of(read), stop) as made:
                self.assertEqual(command_line.run_command(read, made), 0)
        self.assertEqual(fork.call_count, 4 * processors())

    def test_none_above_the_home_folder_is_read(self) -> None:
        self.write("tml-corpus.toml", "x = 1")
        self.write("home/c/d.xml", "")
        with mock.patch.dict(os.environ, HOME=self.path("home")):
            self.assertEqual(settings_for([self.path("home/c")], None).settings.path, "")
            self.write("home/tml-corpus.toml", "jobs = 1")
            self.assertEqual(settings_for([self.path("home/c")], None).settings.jobs, 1)

    @needs_root
    def test_those_of_a_stranger_above_are_not_read(self) -> None:
        self.write("c/d/a.xml", document("<own/>"))
        self.write("c/tml-corpus.toml", 'wrappers = ["own"]')
        place = os.path.realpath(self.path("c/tml-corpus.toml"))
        os.chown(place, STRANGER, STRANGER)
        said = f"tml-corpus: {place} belongs to another user and is not read (--config FILE reads it)\n"
        for path, status, error in (("c/d", 1, said), ("c/d/a.xml", 1, said), ("c", 0, ""), ("--config c/tml-corpus.toml c/d", 0, "")):
            with self.subTest(path):
                ended = self.called(f"tml-corpus check --tml TML {path}")
                self.assertEqual((ended.status, ended.error), (status, error), ended)

    @needs_root
    def test_those_of_root_above_a_strangers_are_not_read_by_that(self) -> None:
        self.write("c/d/a.xml", "")
        self.write("c/tml-corpus.toml", 'wrappers = ["own"]')
        os.chmod(self.folder, 0o755)
        for owner, wrappers in ((0, ()), (STRANGER, ("own",))):
            os.chown(self.path("c/tml-corpus.toml"), owner, owner)
            chosen = as_stranger(partial(settings_for, [self.path("c/d")], None))
            self.assertEqual((chosen.settings.wrappers, len(chosen.remarks)), (wrappers, 1 - len(wrappers)))

    @needs_root
    def test_those_above_a_strangers_are_read(self) -> None:
        self.write("c/d/e/a.xml", document("<own/>"))
        self.write("c/tml-corpus.toml", 'wrappers = ["own"]')
        self.write("c/d/tml-corpus.toml", "x = 1")
        os.chown(self.path("c/d/tml-corpus.toml"), STRANGER, STRANGER)
        self.assertEqual(self.called("tml-corpus check --tml TML c/d/e").status, 0)
        # Nor is a link of a stranger one of this user's files.
        os.rename(self.path("c/tml-corpus.toml"), self.path("c/own.toml"))
        os.symlink("own.toml", self.path("c/tml-corpus.toml"))
        os.chown(self.path("c/tml-corpus.toml"), STRANGER, STRANGER, follow_symlinks=False)
        ended = self.called("tml-corpus check --tml TML c/d/e")
        self.assertEqual((ended.status, ended.error.count("belongs to another user")), (1, 2))


if __name__ == "__main__":
    unittest.main()
