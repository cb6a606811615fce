"""How much `tml-corpus check` loads of one document that is accepted: to load modules takes most of its time."""

import os
import subprocess
import sys
import unittest

from corpus import COMPANION, TML, CorpusTest, document

MODULES, OWN_MODULES = 78, 33
"""How many modules it may load at most besides those with which Python begins, and how many of these may be of the companions."""

NOT_NEEDED = {"ctypes", "dataclasses", "difflib", "inspect", "json", "pickle", "shutil", "tempfile", "tomllib", "traceback", "unicodedata"}
"""Modules of Python that would take longer than most of what is needed."""


class Loaded(CorpusTest):
    def loaded(self, *words: str) -> set[str]:
        """The modules that Python loads as it runs some words, in this process and in those that it forks."""
        variables = {name: value for name, value in os.environ.items() if name != "TML_LIBRARY"}
        told = [sys.executable, "-X", "importtime", *words]
        done = subprocess.run(told, cwd=self.folder, env=variables, capture_output=True, text=True, check=True, timeout=120)
        lines = (line for line in done.stderr.splitlines() if line.startswith("import time:"))
        return {line.rsplit("|", 1)[1].strip() for line in lines} - {"imported package"}

    def test_of_an_accepted_document_little_is_loaded(self) -> None:
        self.write("d.xml", document(""))
        found = self.loaded(COMPANION, "check", "--tml", os.path.abspath(TML), "d.xml") - self.loaded("-c", "pass")
        own = {name for name in found if name.split(".")[0] in ("tml", "tml_corpus")}
        self.assertLessEqual({"tml.replies", "tml_corpus.check.first"}, own)
        self.assertEqual(found & NOT_NEEDED, set())
        self.assertLessEqual(len(own), OWN_MODULES, sorted(own))
        self.assertLessEqual(len(found), MODULES, sorted(found))


if __name__ == "__main__":
    unittest.main()
