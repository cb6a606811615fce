"""Which program is asked: all companions and functions find it in the same way, read the same settings, and fall back on nothing else."""

from __future__ import annotations

import os
import subprocess
import sys
from collections.abc import Mapping, Sequence
from unittest import mock

import tml
import tml_corpus
from corpus import SOURCES, TML, TOOLS, CorpusTest, document
from forked import Ended, run_forked
from tml.finding import Answering, find

TOUCHING = (
    '<TIMEX3 tid="a" type="DATE" value="1998-01-08">x</TIMEX3><TIMEX3 tid="b" type="DATE" value="1998-01-09">y</TIMEX3>'
    '<TLINK lid="l1" timeID="a" relatedToTime="b" relType="BEFORE"/>'
)
"""Two days that touch, and a link that is not true of them unless it is read so."""

DAYS = TOUCHING.replace("BEFORE", "IBEFORE")
"""The same with a link that follows from the days."""

COMPANIONS: Mapping[str, Sequence[str]] = {
    "check": ("tml-corpus", "check", "d.xml"),
    "clashes": ("tml-corpus", "clashes", "d.xml"),
    "fix": ("tml-corpus", "fix", "d.xml"),
    "open": ("tml-corpus", "open", "d.xml"),
    "agree": ("tml-corpus", "agree", "d.xml", "d.xml"),
    "report": ("tml-corpus", "report", "-o", "pages", "d.xml"),
    "timeline": ("tml-corpus", "timeline", "-o", "d.svg", "d.xml"),
    "matrix": ("tml-corpus", "matrix", "d.xml"),
    "seconds": ("tml-corpus", "seconds", "d.xml"),
    "redundant-links": ("redundant-links", "d.xml"),
    "tml-edit": ("tml-edit", "--touching-dates", "d.xml"),
}
"""The companions that ask `tml`."""

FUNCTIONS = """
import tml, tml_corpus
for ask in (
    lambda: tml.check("d.xml"), lambda: tml_corpus.check_folder("d.xml"), lambda: tml_corpus.clashes("d.xml"),
    lambda: tml_corpus.agree("d.xml", "d.xml"), lambda: tml_corpus.report("d.xml", output="pages"),
    lambda: next(tml.folder("d.xml", tml.check, jobs=1)).answer,
):
    try:
        print(type(found := ask()).__name__, found if isinstance(found, tml.NotAnswered) else "")
    except tml.CannotRun as problem:
        print("CannotRun", problem)
"""
"""A program that asks by functions, and prints what becomes of each question."""


class ProgramTest(CorpusTest):
    def setUp(self) -> None:
        super().setUp()
        self.write("d.xml", document(DAYS))
        self.witness("bin/tml")
        self.witness("named")

    def witness(self, name: str) -> str:
        """A program that leaves a note and goes on as `tml`; answers its path."""
        self.write(name, f'#!/bin/sh\necho >> "{self.path(name)}.asked"\nexec "{os.path.abspath(TML)}" "$@"\n')
        os.chmod(self.path(name), 0o755)
        return self.path(name)

    def asked(self) -> list[str]:
        """Which witnesses were asked since this was looked at."""
        found = [name for name in ("bin/tml", "named") if os.path.exists(self.path(f"{name}.asked"))]
        for name in found:
            os.unlink(self.path(f"{name}.asked"))
        return found

    def environment(self, **variables: str) -> dict[str, str]:
        """The variables of a run, on whose PATH there is a program too."""
        others = {name: value for name, value in os.environ.items() if name not in ("TML", "TML_LIBRARY")}
        path = f"{self.path('bin')}{os.pathsep}{os.environ['PATH']}"
        return {**others, "PATH": path, "PYTHONIOENCODING": "utf-8", "PYTHONDONTWRITEBYTECODE": "1", **variables}

    def ran(self, words: Sequence[str], **variables: str) -> Ended:
        """A run of a companion."""
        program, *rest = words
        return run_forked(os.path.join(TOOLS, program), *rest, folder=self.folder, environment=self.environment(**variables))

    def functions(self, **variables: str) -> list[str]:
        """What becomes of the questions of functions."""
        environment = {**self.environment(**variables), "PYTHONPATH": SOURCES}
        run = [sys.executable, "-c", FUNCTIONS]
        return subprocess.run(run, cwd=self.folder, env=environment, capture_output=True, text=True, check=True).stdout.splitlines()


class OneProgram(ProgramTest):
    def test_the_variable_names_the_program_of_each_companion(self) -> None:
        for name, words in COMPANIONS.items():
            with self.subTest(name):
                ended = self.ran(words, TML=self.path("named"))
                self.assertIn(ended.status, (0, 1), ended)
                self.assertEqual(self.asked(), ["named"])

    def test_what_does_not_run_is_an_error_of_each_companion(self) -> None:
        self.write("text", "no program\n")
        others = [(name, named) for name in ("check", "tml-edit") for named in (self.path("text"), self.folder, "no-such-tml")]
        for name, named in [*((name, self.path("no-such")) for name in COMPANIONS), *others]:
            with self.subTest(name, named=named):
                ended = self.ran(COMPANIONS[name], TML=named)
                self.assertEqual((ended.status, ended.out, self.asked()), (2, b"", []))
                self.assertIn(f"no program {named}, which the variable TML names", ended.error.decode())

    def test_an_option_goes_before_the_variable(self) -> None:
        for name, (program, *rest) in COMPANIONS.items():
            with self.subTest(name):
                at = 1 if program == "tml-corpus" else 0
                ended = self.ran([program, *rest[:at], "--tml", self.path("named"), *rest[at:]], TML=self.path("no-such"))
                self.assertEqual((ended.status in (0, 1), self.asked()), (True, ["named"]), ended)
                ended = self.ran([program, *rest[:at], "--tml", self.path("no-such"), *rest[at:]], TML=self.path("named"))
                self.assertEqual((ended.status, self.asked()), (2, []), ended)
                self.assertIn(f"no program {self.path('no-such')}, which --tml names", ended.error.decode())

    def test_functions_go_by_the_variable_too(self) -> None:
        found = self.functions(TML=self.path("named"))
        self.assertEqual([line.split()[0] for line in found], ["Accepted", "list", "list", "Agreement", "Report", "Accepted"])
        self.assertEqual(self.asked(), ["named"])
        for line in self.functions(TML=self.path("no-such")):
            self.assertIn(f"no program {self.path('no-such')}, which the variable TML names", line)
            self.assertIn(line.split()[0], ("CannotRun", "NotAnswered"))
        self.assertEqual(self.asked(), [])

    def test_what_a_function_is_given_goes_before_the_variable(self) -> None:
        with mock.patch.dict(os.environ, {"TML": self.path("named")}):
            with self.assertRaisesRegex(tml.CannotRun, r"^no program no-such-tml, which Asked\.program names$"):
                tml_corpus.check_folder(self.path("d.xml"), asked=tml_corpus.Asked(program="no-such-tml"))
        self.assertEqual(self.asked(), [])

    def test_a_program_that_is_to_run_elsewhere_need_not_be_here(self) -> None:
        with mock.patch.dict(os.environ, {"TML": "/no/such/tml", "TML_LIBRARY": ""}):
            for given in (None, "/no/such/tml"):
                self.assertEqual(find(given, is_here=False), Answering("/no/such/tml", None, is_named=True))
                self.assertRaises(tml.CannotRun, find, given)


class Settings(ProgramTest):
    def setUp(self) -> None:
        super().setUp()
        self.write("c/wrapped.doc", document(f"<TXT>{DAYS}</TXT>"))
        self.settings = 'wrappers = ["TXT"]\npatterns = ["*.doc"]\njobs = 1\n'

    def test_redundant_links_reads_them(self) -> None:
        self.write("c/tml-corpus.toml", self.settings)
        ended = self.ran(("redundant-links", "c"), TML=TML)
        self.assertEqual((ended.status, ended.error), (1, b""), ended)
        self.assertRegex(ended.out.decode(), r"^c/wrapped\.doc:2:\d+: follows: x IBEFORE y \(l1: a IBEFORE b\)\n1 file, 0 skipped;")

    def test_tml_edit_reads_them(self) -> None:
        self.write("c/tml-corpus.toml", self.settings)
        self.write("c/wrapped.doc", document(f"<TXT>{TOUCHING}</TXT>"))
        for words in (["c/wrapped.doc"], ["--write", "c"]):
            ended = self.ran(("tml-edit", "--touching-dates", *words), TML=TML)
            self.assertEqual(ended.status, 0, ended)
            changed = ended.out.decode() if "--write" not in words else self.read_text("c/wrapped.doc")
            self.assertEqual(changed, document(f"<TXT>{DAYS}</TXT>"))

    def test_tml_edit_sees_a_wrapper_that_it_is_to_change(self) -> None:
        self.write("c/tml-corpus.toml", self.settings)
        ended = self.ran(("tml-edit", "--unwrap", "TXT", "c/wrapped.doc"), TML=TML)
        self.assertEqual((ended.status, ended.out.decode()), (0, document(DAYS)), ended)

    def test_a_chosen_file_of_settings(self) -> None:
        self.write("elsewhere.toml", self.settings)
        self.write("c/touching.doc", document(f"<TXT>{TOUCHING}</TXT>"))
        for program, option, said in (
            ("redundant-links", "--jobs=1", "follows: x IBEFORE y"),
            ("tml-edit", "--touching-dates", "touching.doc"),
        ):
            with self.subTest(program):
                ended = self.ran((program, "--config", "elsewhere.toml", option, "c"), TML=TML)
                self.assertNotIn(b"usage: ", ended.error)
                self.assertIn(said, ended.out.decode())

    def test_a_mistake_in_the_settings_is_an_error_of_each_companion(self) -> None:
        self.write("tml-corpus.toml", "wrapers = []\n")
        for name, words in COMPANIONS.items():
            with self.subTest(name):
                ended = self.ran(words, TML=TML)
                self.assertEqual((ended.status, ended.out), (2, b""))
                self.assertIn("wrapers", ended.error.decode())


if __name__ == "__main__":
    import unittest

    unittest.main()
