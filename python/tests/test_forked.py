"""Runs in processes that are forked: that they are those of a process of its own, byte for byte."""

import os
import signal
import subprocess
import sys

from corpus import CLASH, TML, TOOLS, CorpusTest, document
from forked import Ended, run_forked

RUNS = (
    ("tml-corpus", ("check", "--tml", TML, "a.xml", "-", "\u202e\udcff.xml"), 2),
    ("tml-corpus", ("clashes", "--tml", TML, "--jobs", "2", "--quiet", "a.xml", "b.xml"), 1),
    ("tml-corpus", ("timeline", "--tml", TML, "b.xml", "-o", "b.svg"), 0),
    ("tml-corpus", ("--help",), 0),
    ("tml-corpus", ("check", "--tml", "/none"), 2),
    ("tml-corpus", ("unknown",), 2),
    ("tml-edit", ("--tml", TML, "--unwrap", "P", "-"), 0),
    ("redundant-links", ("--tml", TML, "b.xml"), 1),
    ("from-tempeval2", ("none", "made"), 1),
    ("html-entities", (), 0),
)
"""A program, its words, and its status."""


class Forked(CorpusTest):
    def alone(self, program: str, *words: str, given: bytes) -> Ended:
        """The same of a process of its own."""
        done = subprocess.run(
            [sys.executable, program, *words],
            cwd=self.folder,
            input=given,
            capture_output=True,
            check=False,
            env={**os.environ, "PYTHONIOENCODING": "utf-8", "PYTHONDONTWRITEBYTECODE": "1"},
        )
        return Ended(done.returncode, done.stdout, done.stderr)

    def test_they_are_those_of_a_process_of_its_own(self) -> None:
        self.write("a.xml", document(CLASH))
        self.write("b.xml", document(CLASH.replace("BEFORE", "IDENTITY")))
        for name, words, status in RUNS:
            with self.subTest(name, words=words):
                program, given = os.path.join(TOOLS, name), document("é <P>x</P>").encode()
                ended = run_forked(program, *words, folder=self.folder, given=given)
                self.assertEqual(ended, self.alone(program, *words, given=given))
                self.assertEqual(ended.status, status)

    def test_what_ends_otherwise(self) -> None:
        rows = (
            ("import os, signal; os.kill(os.getpid(), signal.SIGTERM)", -signal.SIGTERM, b""),
            ("import sys; print(sys.stdin.read()); sys.exit(7)", 7, b"given\n"),
            ("import os; os.write(1, os.environ['HERE'].encode()); os._exit(8)", 8, b"here"),
        )
        for body, status, out in rows:
            with self.subTest(status):
                self.write("program.py", body)
                ended = run_forked(self.path("program.py"), folder=self.folder, given=b"given", environment={"HERE": "here"})
                self.assertEqual((ended.status, ended.out), (status, out))
        self.write("program.py", "import time; time.sleep(60)")
        with self.assertRaises(subprocess.TimeoutExpired):
            run_forked(self.path("program.py"), folder=self.folder, patience=0.2)
