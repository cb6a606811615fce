"""What the package `tml` says of a wrong question, of an answer that is not the wished one, and of itself."""

from __future__ import annotations

import io
import os
import pickle
import pydoc
import re
import shutil
import subprocess
import sys
import tempfile
import unittest
from collections.abc import Callable
from pathlib import Path
from typing import Any
from unittest import mock

import tml
from corpus import SOURCES, TML, TOOLS, TOP
from processes import BARE
from tml import asking, finding
from tml.explaining.faults import SENTENCES

RATES = Path(TOP, "samples", "rates.xml")
ANYTHING: Any = None


@unittest.skipUnless(os.access(TML, os.X_OK), f"no program {TML}: build it as README.md says, or name one by TML=PROGRAM")
class Misuse(unittest.TestCase):
    by = tml.Process(TML)

    def said(self, kind: type[Exception], ask: Callable[[], object]) -> str:
        """What is said where something raises an exception of this kind."""
        with self.assertRaises(kind) as raised:
            ask()
        return str(raised.exception)

    def test_what_is_no_file(self) -> None:
        wrong: list[tuple[Any, str]] = [
            (7, "not int"), (io.BytesIO(b"<TimeML/>"), r"by \.read\(\)"), (io.StringIO(""), r"\.read\(\)\.encode\(\)"),
            ([RATES], r"tml\.folder"), (tml.check(b"<TimeML>", by=self.by), "not Fault: 1:"), ("<TimeML/>", r"by \.encode\(\)"),
            ("\n <?xml version='1.0'?>" + "<a/>" * 9999, r"\.encode"),
        ]  # fmt: skip
        for given, said in wrong:
            self.assertRegex(self.said(TypeError, lambda given=given: tml.check(given, by=self.by)), said)  # type: ignore[misc]

    def test_bytes_that_are_a_path(self) -> None:
        found = tml.expect(tml.check(b"samples/rates.xml", by=self.by), tml.Fault)
        self.assertTrue(str(found).endswith("if they are the path of a file, give it as text: 'samples/rates.xml'"), found)

    def test_names_that_are_not_there(self) -> None:
        rows: list[tuple[Callable[[], object], str]] = [
            (lambda: tml.ask(RATES, "ei1", "before", "ei2", by=self.by), "'before' is not a relation of TLINK: did you mean BEFORE?"),
            (lambda: tml.ask(RATES, "ei1", "X", "ei2", by=self.by), "'X' is not a relation of TLINK: BEFORE, AFTER, "),
            (
                lambda: tml.ask(RATES, "e1", "BEFORE", "ei2", by=self.by),
                "'e1' is not an interval of the document, but an EVENT: links and questions name its instance, ei1",
            ),
            (lambda: tml.possible(RATES, "ei1", "EI2", by=self.by), "'EI2' is not an interval of the document: did you mean ei2?"),
            (
                lambda: tml.possible(RATES, "ei1", "q", by=self.by),
                "'q' is not an interval of the document: its intervals are t0, t1, ei1, ei2",
            ),
            (
                lambda: tml.with_links(RATES, [("e2", "BEFORE", "t1")], by=self.by),
                "'e2' is not an interval of the document, but an EVENT: links and questions name its instance, ei2",
            ),
            (
                lambda: tml.with_links(RATES, [("ei2", "Before", "t1")], by=self.by),
                "'Before' is not a relation of TLINK: did you mean BEFORE?",
            ),
            (
                lambda: tml.expect(tml.matrix(RATES, by=self.by), tml.Matrix).possible("t1", "t11"),
                "'t11' is not an interval of the document: its intervals are t0, t1, ei1, ei2",
            ),
            (
                lambda: tml.expect(tml.read(RATES, by=self.by), tml.Document)["EI1"],
                "no tag of the document has the identifier 'EI1': did you mean ei1?",
            ),
        ]  # fmt: skip
        for ask, said in rows:
            with self.subTest(said):
                self.assertTrue(self.said(tml.UnknownName, ask).startswith(said), self.said(tml.UnknownName, ask))

    def test_unknown_names_can_be_sent(self) -> None:
        with self.assertRaises(tml.UnknownName) as raised:
            tml.ask(RATES, "ei1", "before", "ei2", by=self.by)
        again = pickle.loads(pickle.dumps(raised.exception))
        self.assertEqual((again.args, str(again)), (("before",), str(raised.exception)))
        self.assertEqual(len(str(raised.exception).splitlines()), 1)

    def test_by_is_no_path(self) -> None:
        by: Any
        for by, said in (
            (TML, f"write by=tml.Process({TML!r})"),
            (Path("/l/libtml.so"), "write by=tml.Library('/l/libtml.so')"),
            (3, "and not int"),
        ):
            self.assertIn(said, self.said(TypeError, lambda by=by: tml.check(RATES, by=by)))  # type: ignore[misc]

    def test_expected_answers(self) -> None:
        found = tml.expect(tml.solve(RATES, by=self.by), tml.Timeline)
        self.assertIs(tml.expect(found), found)
        self.assertIs(tml.expect(found, tml.Clash, tml.Timeline), found)
        self.assertIsNone(tml.expect(tml.clash(RATES, by=self.by)))
        clash = tml.clash(Path(TOP, "samples", "port.xml"), by=self.by)
        self.assertEqual(tml.expect(clash), clash)
        with self.assertRaisesRegex(
            tml.Unexpected, "^Timeline was expected, and the answer is Clash: clash of 4 links, .*l5: ei4 IS_INCLUDED t1"
        ) as raised:
            tml.expect(clash, tml.Timeline)
        self.assertEqual(raised.exception.answer, clash)
        for wrong in (tml.check(b"<TimeML>", by=self.by), tml.TooLong("document")):
            with self.assertRaises(tml.Unexpected):
                tml.expect(wrong)
        self.assertIn("the answer is None", self.said(tml.Unexpected, lambda: tml.expect(None, tml.Clash)))
        self.assertIn("the document has more than 4,194,304 bytes", self.said(tml.Unexpected, lambda: tml.expect(tml.TooLong("document"))))

    def test_a_fault_says_what_the_companion_does(self) -> None:
        whole = RATES.read_bytes()
        slips = [
            (b'"OCCURRENCE"', b'"OCCURENCE"'),
            (b'eventID="e1"', b'eventID="e9"'),
            (b"</EVENT>", b""),
            (b"BEFORE", b"before"),
            (b"<TLINK", b"<TLNK"),
            (b'value="1998-01', b'value="1998-13'),
            (b'lid="l1"', b"lid=l1"),
            (b'eid="e1" ', b""),
            (b"fell", b"fell & rose"),
        ]
        for meant, slip in slips:
            changed = whole.replace(meant, slip, 1)
            self.assertNotEqual(changed, whole)
            found = tml.expect(tml.check(changed, by=self.by), tml.Fault)
            done = subprocess.run(
                [*BARE, os.path.join(TOOLS, "tml-corpus"), "check", "--tml", os.path.abspath(TML), "-"],
                cwd=tempfile.gettempdir(),
                input=changed,
                capture_output=True,
                check=False,
            )
            line = done.stdout.decode().splitlines()
            with self.subTest(slip):
                self.assertEqual(line[0].partition(": error: ")[2].rpartition(" [byte ")[0], str(found).partition(": ")[2])
                self.assertEqual(tuple(line[1:3]), found.mark)

    def test_a_fault_without_its_file(self) -> None:
        self.assertEqual(str(tml.Fault(10, "MissingAttribute", 0, 1, 1)), f"1:1: 10 MissingAttribute: {SENTENCES[10]}")

    def test_scores_add_up(self) -> None:
        self.assertEqual(sum([tml.Score(1, 2, 3, 4), tml.Score(1, 1, 1, 1)]), tml.Score(2, 3, 4, 5))
        self.assertEqual(sum([], tml.Score()), tml.Score())
        with self.assertRaises(TypeError):
            1 + tml.Score()  # type: ignore[operator]


class FoundByPeople(unittest.TestCase):
    def run_python(self, *words: str, **environment: str) -> subprocess.CompletedProcess[str]:
        """A Python that has the package."""
        known = {key: value for key, value in os.environ.items() if key not in ("TML", "TML_LIBRARY")}
        return subprocess.run(
            [sys.executable, *words], env={**known, "PYTHONPATH": SOURCES, **environment}, capture_output=True, text=True, check=False
        )

    def test_dir_and_help(self) -> None:
        names = dir(tml)
        for name in ("read", "check", "expect", "folder", "consistent", "Timeline", "__version__"):
            self.assertIn(name, names)
        self.assertNotIn("import_module", names)
        text = pydoc.plain(pydoc.render_doc(tml))
        for part in ("check(document", "class Clash", "read(document"):
            self.assertIn(part, text)

    def test_near_names(self) -> None:
        done = self.run_python("-c", "import tml; tml.relation")
        self.assertIn("has no attribute 'relation'", done.stderr)
        self.assertIn("Did you mean", done.stderr)

    def test_the_import_loads_nothing(self) -> None:
        done = self.run_python("-c", "import sys, tml; print([name for name in sys.modules if name.startswith('tml')])")
        self.assertEqual(done.stdout, "['tml']\n")
        done = self.run_python(
            "-c", "import sys, tml; tml.check; tml.folder; print([name for name in sys.modules if 'corpus' in name or name == 'pandas'])"
        )
        self.assertEqual(done.stdout, "[]\n")

    def test_a_name_that_is_not_there_is_seen_by_mypy(self) -> None:
        mypy = shutil.which("mypy")
        if mypy is None:
            self.skipTest("no mypy")
        source = "import tml\ntml.nothere\ntml.expect(tml.solve(b''), tml.Timeline).ranks\n"
        source += "for one in tml.folder('x'):\n    one.answer.to_dict()\n"
        words = [mypy, "--config-file=", f"--cache-dir={os.devnull}", "--ignore-missing-imports", "--strict", "-c", source]
        done = subprocess.run(words, env={**os.environ, "MYPYPATH": SOURCES}, capture_output=True, text=True, check=False)
        self.assertIn('has no attribute "nothere"', done.stdout)
        self.assertEqual((done.returncode, done.stdout.count("error:")), (1, 1), done.stdout)

    def test_versions(self) -> None:
        changes = Path(TOP, "CHANGELOG.md").read_text(encoding="utf-8")
        self.assertEqual(re.findall(r"^## \[(\d.*?)\] - ", changes, re.MULTILINE)[0], tml.__version__)
        self.assertNotIn(tml.__version__, Path(TOP, "pyproject.toml").read_text(encoding="utf-8"))
        for name in ("tml-corpus", "tml-edit", "redundant-links", "from-tempeval2", "html-entities"):
            done = self.run_python(os.path.join(TOOLS, name), "--version")
            self.assertEqual((done.returncode, done.stdout.split()[-1:]), (0, [tml.__version__]), name)
        self.assertEqual(self.run_python("-m", "tml", "--version").stdout, f"tml {tml.__version__}\n")

    @unittest.skipUnless(os.access(TML, os.X_OK), f"no program {TML}: build it as README.md says, or name one by TML=PROGRAM")
    def test_python_m_tml(self) -> None:
        done = self.run_python("-m", "tml", TML_LIBRARY="", TML=TML)
        self.assertEqual(
            (done.returncode, done.stdout), (0, f"tml {tml.__version__}, the package for Python; answered by the program {TML}\n")
        )
        for words in (
            ("check", str(RATES)),
            ("check", "no such"),
            ("ask", str(RATES), "ei1", "BEFORE", "ei2"),
            ("drill", "3"),
            ("check",),
            ("no",),
            ("check", os.devnull),
        ):
            done = self.run_python("-m", "tml", *words, TML_LIBRARY="", TML=TML)
            wanted = subprocess.run([TML, *words], capture_output=True, text=True, check=False)
            self.assertEqual(done.returncode, wanted.returncode, words)
            if wanted.returncode in (0, 1):
                self.assertEqual(done.stdout, wanted.stdout)

    def test_where_nothing_is_found(self) -> None:
        asking.default_answerer.cache_clear()
        with mock.patch.dict(os.environ, {"TML_LIBRARY": "", "PATH": "/nowhere", "TML": ""}), mock.patch.object(
            finding, "BUILT_PROGRAM", "/nowhere"
        ):
            with self.assertRaises(tml.CannotRun) as raised:
                tml.check(b"<TimeML/>")
        for part in ("os.environ['TML']", "by=tml.Process("):
            self.assertIn(part, str(raised.exception))
        self.assertNotIn("--tml", str(raised.exception))
        asking.default_answerer.cache_clear()


if __name__ == "__main__":
    unittest.main()
