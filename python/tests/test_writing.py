"""All that the companions write: by one function, whole or not at all, with the rights of what was there, and nothing is left over.

Each of eight commands that write is stopped at 12 moments, by each of three signals and by a full disk, and the one that has a browser
print while that does.
"""

import ast
import contextlib
import errno
import os
import shutil
import signal
import stat
import sys
import unittest
from collections.abc import Callable, Iterator
from pathlib import Path
from types import FrameType
from typing import Any
from unittest import mock

from corpus import CLASH, EVENT, INSTANCE, SOURCES, TML, TOOLS, CorpusTest, document
from forked import Ended, run_forked
from processes import is_running, until
from tml_corpus.command_line import launch as launching

WRITING = {
    "open", "write_text", "write_bytes", "touch", "mkdir", "makedirs", "mkdtemp", "mkstemp", "TemporaryDirectory", "NamedTemporaryFile",
    "ZipFile", "FileIO", "fdopen", "replace", "rename", "renames", "link", "symlink", "copy", "copyfile", "copy2", "copytree", "move",
    "chmod", "chown", "truncate", "mkfifo", "mknod", "hardlink_to", "symlink_to",
}  # fmt: skip
"""Functions of Python that can write to files, or make them or folders."""

MODULES_OF_FILES = {"os", "shutil", "tempfile", "Path", "zipfile", "io", "pathlib"}

ELSEWHERE = {
    "tml/asking.py: open(path, 'rb')",
    "tml/workers.py: os.fdopen(os.dup(1), 'wb')",
    "tml_corpus/asking/archive.py: zipfile.ZipFile(packed, 'w')",
    "tml_corpus/command_line/output.py: os.open(os.devnull, os.O_RDWR)",
    "tml_corpus/command_line/output.py: os.open(os.devnull, os.O_WRONLY)",
    "tml_corpus/command_line/output.py: io.FileIO(INPUT, closefd=False)",
    "tml_corpus/files/finding.py: open(handle_of(path)[0], 'rb')",
    "tml_corpus/files/finding.py: os.open(path, os.O_RDONLY | os.O_NONBLOCK | os.O_CLOEXEC)",
    "tml_corpus/files/writing.py: os.mkdir(folder, 448)",
}
"""The calls of such functions outside of `files/replacing.py`: what is read, streams, what is in memory, and the folder for a while."""


def calls(tree: ast.AST) -> Iterator[str]:
    """The calls in a source that may write to a file."""
    for node in ast.walk(tree):
        match node:
            case ast.Call(func=ast.Name(id="open")) | ast.Call(
                func=ast.Attribute(attr="write_text" | "write_bytes" | "open", value=ast.Call())
            ):
                yield ast.unparse(node)
            case ast.Call(func=ast.Attribute(attr=name, value=ast.Name(id=module))) if name in WRITING and module in MODULES_OF_FILES:
                yield ast.unparse(node)
            case ast.Call(func=ast.Attribute(attr="write_text" | "write_bytes" | "touch" | "hardlink_to" | "symlink_to")):
                yield ast.unparse(node)
            case ast.Call(func=ast.Name(id=name)) if name in WRITING - {"replace", "rename", "link", "copy", "move"}:
                yield ast.unparse(node)


class OneFunction(unittest.TestCase):
    def test_nothing_else_opens_a_file_for_writing(self) -> None:
        found = set[str]()
        for path in Path(SOURCES).rglob("*.py"):
            name = path.relative_to(SOURCES).as_posix()
            found |= {f"{name}: {call}" for call in calls(ast.parse(path.read_text(encoding="utf-8")))}
        own = {call for call in found if call.startswith("tml_corpus/files/replacing.py: ")}
        self.assertEqual(found - own, ELSEWHERE)
        # What is written is opened at one place of it.
        self.assertEqual(sum("O_CREAT" in call for call in own), 1)


TABLES = "".join(f"d{number}\t0\t0\tx\n" for number in range(3))
ROWS: tuple[tuple[str, tuple[str, ...]], ...] = (
    ("tml-corpus fix --write --jobs 1 --tml TML slip.xml", ("slip.xml",)),
    ("tml-corpus check --lint --jobs 1 --baseline known --write-baseline --tml TML good.xml", ("known",)),
    ("tml-corpus clashes --evidence kept --jobs 1 --tml TML clash.xml", ("kept",)),
    ("tml-corpus report good.xml --jobs 1 --tml TML -o pages", ("pages",)),
    ("tml-corpus timeline --tml TML good.xml -o d.svg", ("d.svg",)),
    ("tml-corpus timeline --bare --tml TML good.xml -o d.pdf", ("d.pdf",)),
    ("tml-edit --tml TML --unwrap s --write good.xml", ("good.xml",)),
    ("from-tempeval2 in out", ("out",)),
)
"""Commands that write, and the files and folders that are theirs."""

BROWSER = """#!/bin/sh
for word in "$@"; do case $word in --print-to-pdf=*) target=${word#*=};; --user-data-dir=*) mkdir "${word#*=}";; esac; done
sleep 300 & echo $! >> "${0%/*}/../asked"
if [ -n "$STOPPED_BY" ]; then kill -s "$STOPPED_BY" $PPID; sleep 300; fi
echo '%PDF' > "$target"
"""
"""A browser, which may end the program that starts it, and leaves another process to its group."""

State = dict[str, tuple[bytes, int, int, int]]


class Stopping:
    """Does something at the N-th call of a function in the modules that write files or wait for a browser."""

    def __init__(self, number: int, then: Callable[[str], object]) -> None:
        self.left, self.then = number, then

    def __call__(self, frame: FrameType, event: str, called: Any) -> None:
        """Is called with each function."""
        if event in ("call", "c_call") and frame.f_code.co_filename.endswith(("replacing.py", "writing.py", "pdf_form.py")):
            name = getattr(called, "__name__", "")
            self.left -= name != "" or event == "call"
            if self.left <= 0:
                self.then(name)


def stopped_by(number: int) -> Callable[[str], None]:
    """What sends a signal to the program, once: from itself, or from a process that it has forked."""
    tests, left = os.getpid(), [1]

    def stop(_: str) -> None:
        if left.pop(0) if left else 0:
            os.kill(os.getpid() if os.getppid() == tests else os.getppid(), number)

    return stop


def full(name: str) -> None:
    """What a full disk makes of a call, and of all that come after it."""
    if name in ("open", "write", "flush", "fsync", "mkdir", "makedirs", "replace"):
        raise OSError(errno.ENOSPC, os.strerror(errno.ENOSPC))


class Stopped(CorpusTest):
    def setUp(self) -> None:
        super().setUp()
        self.environment = {**os.environ, "TMPDIR": self.path("tmp"), "PATH": f"{self.path('bin')}:/usr/bin:/bin"}
        self.write("bin/chromium", BROWSER)
        os.chmod(self.path("bin/chromium"), 0o755)

    def begin_anew(self) -> State:
        """Files with rights that are not those of new ones, and old contents; their state."""
        linked = EVENT + INSTANCE + '<TIMEX3 tid="t1" type="SET"/><TLINK eventInstanceID="i1" relatedToTime="t1" relType="BEFORE"/>'
        contents = {
            "good.xml": document(f"<s>{linked}</s>"), "slip.xml": document("&eacute;"), "clash.xml": document(CLASH), "d.svg": "old",
            "known": '["tml-corpus baseline", 1]\n', "in/base-segmentation.tab": TABLES, "out/d1.xml": "old", "d.pdf": "old",
            "asked": "",
            "pages/index.html": "old", "pages/index.js": "old", "pages/report.css": "old", "pages/document.js": "old", "kept/other": "old",
        }  # fmt: skip
        for folder in ("in", "kept", "out", "pages", "tmp"):
            shutil.rmtree(self.path(folder), ignore_errors=True)
            os.mkdir(self.path(folder))
        for name, content in contents.items():
            self.write(name, content)
            os.chmod(self.path(name), 0o640)
        return self.state()

    def state(self) -> State:
        """All files, and what they have: their content, their mode, their owner and their group."""
        found: State = {}
        for folder, _, names in os.walk(self.folder):
            for path in (os.path.join(folder, name) for name in names):
                try:
                    status, written = os.stat(path), Path(path).read_bytes()
                except FileNotFoundError:  # removed meanwhile by what a killed process had started
                    continue
                content = written, stat.S_IMODE(status.st_mode), status.st_uid, status.st_gid
                found[os.path.relpath(path, self.folder)] = content
        return {name: state for name, state in found.items() if name not in ("asked", "bin/chromium")}

    def run_stopped(self, line: str, number: int, then: Callable[[str], object], **variables: str) -> Ended:
        """Runs a command with something done at a moment of it."""
        launch = launching.launch

        def launch_and_stop(program: str) -> None:
            sys.setprofile(Stopping(number, then))
            launch(program)

        name, *words = (os.path.abspath(TML) if word == "TML" else word for word in line.split(" "))
        self.addCleanup(sys.setprofile, None)
        with mock.patch.object(launching, "launch", launch_and_stop), mock.patch.dict(sys.modules, {"cairosvg": None}):
            return run_forked(os.path.join(TOOLS, name), *words, folder=self.folder, environment=self.environment | variables)

    def old_or_new(self, before: State, new: State, own: tuple[str, ...], leaves: bool) -> None:
        """Sees that each file is the old one or the new one, with the rights of the old one, and that nothing else is there."""
        after = self.state()
        for name in sorted({*before, *after}):
            is_own = name.startswith(own)
            if leaves and os.path.basename(name).startswith(".tml-") or leaves and name.startswith("tmp/"):
                continue
            if not is_own:
                self.assertEqual(after.get(name), before.get(name), name)
                continue
            content, *rights = after.get(name, (None, 0, 0, 0))
            if not (name == "pages/index.html" and content is not None and content.endswith(b"</html>\n")):
                # The index of a report that was interrupted has the documents that were looked at.
                self.assertIn(content, {before.get(name, (None,))[0], new.get(name, (None,))[0]}, name)
            if name in before:
                self.assertEqual(rights, list(before[name][1:]), name)
        if not leaves:
            self.assertEqual(os.listdir(self.path("tmp")), [])
        self.ended(leaves)

    def ended(self, kills: bool) -> None:
        """Waits until what the browser has begun has ended, or ends it, since nothing else does if the program was killed."""
        asked = [int(number) for number in self.read_text("asked").split()]
        for number in asked if kills else ():
            with contextlib.suppress(ProcessLookupError):
                os.kill(number, signal.SIGKILL)
        until(lambda: not any(map(is_running, asked)))

    def test_all_rights_stay(self) -> None:
        for line, own in ROWS:
            with self.subTest(line):
                before = self.begin_anew()
                self.assertIn(self.run_stopped(line, 1 << 40, full).status, (0, 1))
                self.old_or_new(before, self.state(), own, False)
                self.assertNotEqual(self.state(), before)

    def test_stopped_at_many_moments(self) -> None:
        for line, own in ROWS:
            self.begin_anew()
            self.run_stopped(line, 1 << 40, full)
            new = self.state()
            for place in range(12):
                number = (signal.SIGINT, signal.SIGTERM, signal.SIGKILL, 0)[place % 4]
                moment = 3 + 15 * place
                with self.subTest(line, number=number, moment=moment):
                    before = self.begin_anew()
                    ended = self.run_stopped(line, moment, stopped_by(number) if number else full)
                    self.old_or_new(before, new, own, number == signal.SIGKILL)
                    self.assertNotIn(b"Traceback", ended.error)

    def test_stopped_while_a_browser_prints(self) -> None:
        for number, status in (("INT", 130), ("TERM", -signal.SIGTERM), ("HUP", -signal.SIGHUP)):
            with self.subTest(number):
                before = self.begin_anew()
                ended = self.run_stopped(ROWS[5][0], 1 << 40, full, STOPPED_BY=number)
                said = b"tml-corpus: interrupted\n" if number == "INT" else b""
                self.assertEqual((ended.status, ended.out, ended.error), (status, b"", said))
                self.old_or_new(before, before, ("d.pdf",), False)


if __name__ == "__main__":
    unittest.main()
