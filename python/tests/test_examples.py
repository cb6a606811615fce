"""The examples of docs/PYTHON.md and docs/QUESTIONS.md: a type checker accepts each of them, each is run, and they show what is new.

`test_python.py` runs those of docs/PYTHON.md and compares what they print, and `test_recipes.py` runs the commands of docs/QUESTIONS.md.
"""

from __future__ import annotations

import os
import re
import shutil
import subprocess
import tempfile
import unittest
from pathlib import Path

from corpus import SOURCES, TML, TOP, text_at
from processes import WITH_PACKAGES, with_own_bytecode

PAGES = ("PYTHON", "QUESTIONS")

SETTINGS = """[mypy]
strict = True
ignore_missing_imports = True
follow_imports = silent
[mypy-tml_corpus.*,tml.explaining.*,tml.tags.*]
follow_imports = skip
"""
"""What is checked: the examples, by the types of the package alone, so that this takes no longer than it has to."""

TYPED = """
import tml

answer = tml.solve(b"")
if answer.ok and tml.verify(b"", b"").ok:
    print(answer)
document = tml.expect(tml.read(b""), tml.Document)
print(len(document), "e1" in document, [identifier.upper() for identifier in document])
tag = document.get("e1")
print(tag.text if tag is not None else "", document.intervals["ei1"].text)
for path, score in tml.folder([("a.xml", "b.xml")], tml.score, jobs=2):
    if isinstance(score, tml.NotAnswered):
        print(path.upper(), score.reason, isinstance(score.error, OSError))
    elif isinstance(score, tml.Score):
        print(sum([score, score], tml.Score()).f1)
rows = ({"first": "ei1", "relation": "BEFORE", "second": "ei2", "p": 0.3} for _ in range(1))
print(tml.consistent(b"", rows, (number / 10 for number in range(1))).ok)
"""
"""Calls that a type checker accepts."""

SHOWN = {
    r"\.ok\b": "whether an answer says yes",
    r"sort_values\(": "relations and weights of a frame",
    r"\btml\.folder\(zip\(": "pairs of files",
    r" in document\b|\bdocument\.get\(": "a document as a container",
    r"print\((tml\.ask\(|proof\b)": "a proof in words",
}  # fmt: skip
"""What the examples of docs/PYTHON.md show, and which words show it."""


def examples() -> dict[str, str]:
    """The examples in Python, by page and number."""
    return {
        f"{page}_{number}".lower(): source
        for page in PAGES
        for number, source in enumerate(re.findall(r"```python\n(.*?)```", text_at(f"docs/{page}.md"), re.DOTALL))
    }


class Examples(unittest.TestCase):
    def test_a_type_checker_accepts_them(self) -> None:
        if shutil.which("mypy") is None:
            self.skipTest("no mypy")
        with tempfile.TemporaryDirectory() as folder:
            sources = {**examples(), "typed": TYPED}
            for name, source in sources.items():
                Path(folder, f"{name}.py").write_text(source, encoding="utf-8")
            Path(folder, "mypy.ini").write_text(SETTINGS, encoding="utf-8")
            words = ["mypy", "--config-file=mypy.ini", f"--cache-dir={os.devnull}", *(f"{name}.py" for name in sources)]
            environment = {**os.environ, "MYPYPATH": SOURCES}
            done = subprocess.run(words, cwd=folder, env=environment, capture_output=True, text=True, check=False)
        self.assertEqual((done.returncode, done.stdout.splitlines()[:-1]), (0, []), done.stdout + done.stderr)

    @unittest.skipUnless(os.access(TML, os.X_OK), f"no program {TML}: build it as README.md says, or name one by TML=PROGRAM")
    def test_what_they_show_and_that_each_is_run(self) -> None:
        of_python = "\n".join(source for name, source in examples().items() if name.startswith("python"))
        self.assertEqual([what for words, what in SHOWN.items() if re.search(words, of_python) is None], [])
        # No example goes by the truth of an answer.
        self.assertNotRegex(of_python, r"\b(if|not|while) tml\.")
        for page in PAGES:
            kinds = set(re.findall(r"^```(\w*)$", text_at(f"docs/{page}.md"), re.MULTILINE))
            self.assertLessEqual(kinds, {"", "python", "text"} if page == "PYTHON" else {"", "python", "console"}, "nothing runs it")
        for name, source in examples().items():
            if not name.startswith("python"):
                self.assertEqual(self.ran(source), ("", 0), name)

    def ran(self, source: str) -> tuple[str, int]:
        """What an example complains of, and its status, in a folder with a copy of the samples."""
        environment = {**with_own_bytecode(), "TML": TML, "TML_LIBRARY": "", "PYTHONPATH": SOURCES}
        with tempfile.TemporaryDirectory() as folder:
            shutil.copytree(Path(TOP, "samples"), Path(folder, "samples"))
            words = [*WITH_PACKAGES, "-c", source]
            done = subprocess.run(words, cwd=folder, env=environment, capture_output=True, text=True, check=False)
        return done.stderr, done.returncode


if __name__ == "__main__":
    unittest.main()
