"""An interruption while modules are still imported: one sentence and status 130, in each program and at each import of every few."""

import json
import os
import subprocess
import unittest

from corpus import SOURCES, TML, TOOLS, CorpusTest, document
from processes import BARE

STARTING = """
import json, os, signal, sys
program, step, *words = sys.argv[1:]
with open(program) as file:
    source = compile(file.read(), program, "exec")
sys.argv[:] = [program, *words]
found = []
for wanted in range(1, 1000, int(step)):
    reading, writing = os.pipe()
    child = os.fork()
    if not child:
        os.dup2(writing, 2)
        count = 0
        class Finder:
            def find_spec(name, path=None, target=None):
                global count
                count += 1
                if count == wanted:
                    os.kill(os.getpid(), signal.SIGINT)
        sys.meta_path.insert(0, Finder)
        try:
            exec(source, {"__name__": "__main__", "__file__": program})
        except SystemExit as end:
            os._exit(end.code if count >= wanted else 77)
    os.close(writing)
    with open(reading) as said:
        text = said.read()
    status = os.waitstatus_to_exitcode(os.waitpid(child, 0)[1])
    if status == 77:
        break
    found.append((wanted, status, text))
sys.stdout.write(json.dumps(found))
"""
"""Starts a program again and again, each time with an interruption at a later import, and prints what came of it."""

SCRIPT = "import sys\nfrom tml_corpus.command_line.launch import tml_edit\nsys.exit(tml_edit())\n"
"""A command as pip writes it."""

IN_LAUNCH = 3
"""With how many imports `launch` is imported itself, before which pip has nothing of ours loaded."""


class InterruptedImports(CorpusTest):
    def ended(self, program: str, *words: str, step: int) -> list[tuple[int, int, str]]:
        """At which imports a program was interrupted, with its status and what it said then."""
        command, variables = [*BARE, "-c", STARTING, program, str(step), *words], {**os.environ, "PYTHONPATH": SOURCES}
        done = subprocess.run(command, cwd=self.folder, env=variables, stdin=subprocess.DEVNULL, capture_output=True, check=False)
        self.assertEqual((done.returncode, done.stderr), (0, b""))
        return [(number, status, text) for number, status, text in json.loads(done.stdout.splitlines()[-1])]

    def test_one_sentence(self) -> None:
        self.write("d.xml", document(""))
        self.write("in/base-segmentation.tab", "a\t0\t0\tx\n")
        rows = (
            ("tml-corpus", "check", "--tml", os.path.abspath(TML), "--lint", "d.xml"),
            ("tml-corpus", "timeline", "--tml", os.path.abspath(TML), "d.xml", "-o", "d.svg"),
            ("tml-edit", "--tml", os.path.abspath(TML), "--unwrap", "P", "d.xml"),
            ("redundant-links", "--tml", os.path.abspath(TML), "d.xml"),
            ("from-tempeval2", "in", "out"),
            ("html-entities",),
        )
        for name, *words in rows:
            with self.subTest(name, words=words):
                found = self.ended(os.path.join(TOOLS, name), *words, step=11)
                self.assertGreater(len(found), 4)
                for number, status, text in found:
                    # What is imported later is imported by a program that ends in order.
                    self.assertIn((status, text), ((130, f"{name}: interrupted\n"), (130, "")), number)
                self.assertEqual([text for _, _, text in found[:4]], [f"{name}: interrupted\n"] * 4)

    def test_a_command_that_pip_writes(self) -> None:
        self.write("tml-edit", SCRIPT)
        found = self.ended(self.path("tml-edit"), "--version", step=IN_LAUNCH + 1)
        self.assertGreater(len(found), 4)
        self.assertEqual({(status, text) for _, status, text in found[1:]}, {(130, "tml-edit: interrupted\n")})


if __name__ == "__main__":
    unittest.main()
