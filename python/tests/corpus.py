"""What the tests share: a folder for documents, and runs of `tml-corpus` over it with the real program."""

import os
import re
import stat
import subprocess
import tempfile
import unittest
from collections.abc import Sequence
from pathlib import Path
from typing import TypeVar

from forked import run_forked
from installing import INSTALLED
from processes import BARE, with_own_bytecode
from tml.finding import BUILT_LIBRARY, AtPath
from tml.statuses import DOCUMENT_LIMIT
from tml_corpus.asking.program import Program

Value = TypeVar("Value")

TOP = os.path.dirname(os.path.dirname(os.path.dirname(os.path.abspath(__file__))))
TESTS = os.path.join(TOP, "python", "tests")
TOOLS, SOURCES = os.path.join(INSTALLED or TOP, "tools"), INSTALLED or os.path.join(TOP, "python", "src")

COMPANION = os.path.join(TOOLS, "tml-corpus")
TML = os.environ.get("TML") or os.path.join(TOP, "crates", "tml", "out", "tml")
LIBRARY = os.path.abspath(os.environ.get("TML_LIBRARY") or BUILT_LIBRARY)
EVENT = '<EVENT eid="e1" class="STATE">x</EVENT>'
TOO_LONG = b" " * (DOCUMENT_LIMIT + 1)
"""A document with one byte more than `tml` takes."""

CLASH = '<TIMEX3 tid="a" type="SET"/><TLINK timeID="a" relatedToTime="a" relType="BEFORE"/>'
"""The shortest tags that clash."""

INSTANCE = '<MAKEINSTANCE eiid="i1" eventID="e1"/>'

HELD = """cd "${0%/*}"
echo >> asked
while [ "$(wc -l < asked)" -gt 400 ] && [ ! -e go ]; do sleep 0.05; done"""
"""What a program in the place of `tml` does first that answers four hundred questions, and more once there is a file `go` next to it."""


def forms() -> list[str]:
    """The lines of the usage text of the program; none where there is no program."""
    if not os.access(TML, os.X_OK):
        return []
    done = subprocess.run([TML, "no", "such"], stdin=subprocess.DEVNULL, stdout=subprocess.PIPE, text=True, check=False)
    return done.stdout.splitlines()


def by_library() -> Program:
    """The program, by its library, which is loaded into this process."""
    program = Program(TML, AtPath(LIBRARY, is_named=True))
    program.load()
    return program


needs_root = unittest.skipUnless(os.geteuid() == 0, "not run as root: only root can make files of other users, and work as one of them")
needs_library = unittest.skipUnless(os.path.isfile(LIBRARY), f"no library {LIBRARY}: name one by TML_LIBRARY=")
needs_matrix = unittest.skipUnless("tml matrix DOC" in forms(), f"no program {TML} that has the commands possible and matrix")
needs_seconds = unittest.skipUnless("tml seconds DOC" in forms(), f"no program {TML} that has the commands seconds and confirm")
needs_score = unittest.skipUnless("tml score DOC KEY" in forms(), f"no program {TML} that has the commands reduce and score")


def document(inner: str) -> str:
    """A document with some tags on its second line."""
    return f"<TimeML>\n{inner}</TimeML>\n"


def text_at(*names: str) -> str:
    """The text of a file of the repository, or of a file with a path of its own."""
    return Path(TOP, *names).read_text(encoding="utf-8")


def needed(value: Value | None) -> Value:
    """A value that has to be there: an element, a match, a stream of a process."""
    if value is None:
        raise AssertionError("a value that is needed is not there")
    return value


def of_type(kind: type[Value], value: object) -> Value:
    """A value that has to be of a type: one of several answers."""
    if not isinstance(value, kind):
        raise AssertionError(f"no {kind.__name__}, but {value!r}")
    return value


def match_in(pattern: str, text: str, flags: int = 0) -> re.Match[str]:
    """The first place where a text has a pattern, which it has to have."""
    found = re.search(pattern, text, flags)
    if found is None:
        raise AssertionError(f"{pattern} is not in the text: {text[:1000]}")
    return found


@unittest.skipUnless(os.access(TML, os.X_OK), f"no program {TML}: build it as README.md says, or name one by TML=PROGRAM")
class CorpusTest(unittest.TestCase):
    """A test with a folder of its own, which is the current one of each run."""

    def setUp(self) -> None:
        held = tempfile.TemporaryDirectory()
        self.addCleanup(held.cleanup)
        self.folder = held.name

    def path(self, name: str) -> str:
        return os.path.join(self.folder, name)

    def write(self, name: str, content: str | bytes) -> None:
        path = self.path(name)
        os.makedirs(os.path.dirname(path), exist_ok=True)
        with open(path, "wb") as file:
            file.write(content if isinstance(content, bytes) else content.encode())

    def read_text(self, name: str) -> str:
        return text_at(self.path(name))

    def read_bytes(self, name: str) -> bytes:
        return Path(self.path(name)).read_bytes()

    def fake(self, body: str) -> str:
        """The path of a program in the place of `tml`: a shell script."""
        self.write("fake", f"#!/bin/sh\n{body}\n")
        os.chmod(self.path("fake"), stat.S_IRWXU)
        return self.path("fake")

    def start(self, *words: str, tml: str = TML, python: Sequence[str] = BARE) -> subprocess.Popen[bytes]:
        command, *rest = words
        return subprocess.Popen(
            [*python, COMPANION, command, "--tml", tml, *rest],
            cwd=self.folder,
            stdin=subprocess.DEVNULL,
            stdout=subprocess.PIPE,
            stderr=subprocess.PIPE,
            env={
                **(os.environ if python == BARE else with_own_bytecode()),
                "PYTHONIOENCODING": "utf-8",
                "PYTHONDONTWRITEBYTECODE": "1",
            },
        )

    def run_it(self, *words: str, tml: str = TML) -> tuple[int, list[str], str]:
        """The status, the lines of standard output, and standard error."""
        command, *rest = words
        ended = run_forked(COMPANION, command, "--tml", tml, *rest, folder=self.folder)
        return ended.status, ended.out.decode("utf-8", "replace").splitlines(), ended.error.decode("utf-8", "replace")

    def notes(self, content: str | bytes, *words: str) -> list[str]:
        """The notes on a document, from line and column on."""
        self.write("d.xml", content)
        _, lines, _ = self.run_it("check", *words, "d.xml")
        return [line.removeprefix("d.xml:").replace(" note: ", " ") for line in lines if " note: " in line]
