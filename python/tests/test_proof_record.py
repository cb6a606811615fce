"""`tools/proof-record`: its record of a small repository with a made-up log, what it refuses, and that it says the same again elsewhere."""

from __future__ import annotations

import os
import re
import shutil
import tempfile
import unittest
from collections.abc import Mapping
from contextlib import redirect_stderr, redirect_stdout
from hashlib import sha256
from io import StringIO
from pathlib import Path
from unittest import mock

from promises import listing
from released import COMMIT, WEB, ran
from releasing import proof_record

LOGIC = "0123456789abcdef"
FILES = {
    ".gitignore": "out/\n",
    "crates.txt": "base:\n# the top\ntop staticlib: base itoa\n",
    "crates/base/src/lib.rt": "//! Nothing.\npub fn nothing() {\n}\n",
    "crates/base/specs/Lib.antt": "",
    "crates/top/src/lib.rt": "//! Nothing either.\npub fn none() {\n}\n",
    "crates/top/must-fail/wrong.edit": "wrong\n",
}
MADE = {
    name: f"{name}\n".encode()
    for name in ("crates/tml/out/tml", "crates/tml_verify/out/tml_verify", "crates/tml_c/out/libtml.so", "crates/tml_c/out/libtml.a")
}
BROWSERS = {f"crates/tml_c/out/web/{name}": f"{name}\n".encode() for name in WEB}

LOG = f"""\
Get:1 http://deb.example.org bookworm InRelease [151 kB]
== base
struct base::One: proved
fn base::nothing: proved
statements core: modules loaded=300 checked=0
a line of something else, \0\ufffd
logic=proved functions=12 sum={LOGIC} native=nat,char,string logic-built=trusted
linked target=x86_64-unknown-linux-gnu
rt: base proved
rt: base: trying its must-fail edits (1)
== top
logic=proved functions=0 axioms=35 target=x86_64-unknown-linux-gnu sum={LOGIC} native=nat,char,string
rt: top proved
rt: top ran, and wrote what its file stdout has
rt: ok; handles allowed: none; must-fail edits: 1 refused; every proof and must-fail edit was done in this run
another line of something else
3 passed, 0 failed
logic=proved functions=19 axioms=3 sum=ffffffffffffffff native=nat,char,string
1138 passed, 0 failed
"""
"""What `.ci/run` printed, in short: two crates and one edit passed, and then the tests of the companions."""

BASE = f"logic=proved functions=12 sum={LOGIC} native=nat,char,string logic-built=trusted\n"
KEPT = "rt: top is kept: an earlier run on this machine proved the same files over the same libraries\n== top\nrt: top proved\n"
REFUSED = {
    "no gate": ("", "without a verdict in the log: base, top"),
    "a crate that is missing": (LOG.replace("rt: top proved\n", ""), "without a verdict in the log: top"),
    "a crate that is not proved": (LOG.replace("top proved", "top NOT PROVED"), "not proved: top"),
    "a count of what is not proved": (LOG.replace("logic=proved functions=12", "logic=not-proved functions=12"), "not proved: base"),
    "a crate that is kept": (re.sub(r"(?s)== top.*top proved\n", KEPT, LOG), "kept from an earlier run, without a count: top"),
    "no count": (LOG.replace(BASE, ""), "without a count of functions: base"),
    "a count of another crate": (LOG.replace("== base\n", ""), "without a count of functions: base"),
    "a count that is no number": (LOG.replace("functions=12", "functions=-12"), "without a count of functions: base"),
    "a count too great to be one": (LOG.replace("functions=12", f"functions={'1' * 5000}"), "without a count of functions: base"),
    "digits of another script": (LOG.replace("functions=12", "functions=١٢"), "without a count of functions: base"),
    "two counts": (LOG.replace(BASE, BASE * 2), "in the log more than once: base"),
    "two gates": (LOG * 2, "in the log more than once: base, top"),
    "another crate": (LOG.replace("== top\n", "== else\nrt: else proved\n== top\n"), "not in crates.txt: else"),
    "another kit": (LOG.replace(f"12 sum={LOGIC}", "12 sum=ff"), f"proved by a kit with the logic 'ff', and not {LOGIC}: base"),
    "no kit": (LOG.replace(f"12 sum={LOGIC}", "12"), f"proved by a kit with the logic 'none', and not {LOGIC}: base"),
    "tests of a crate that fail": (
        LOG.replace("rt: top ran", "rt: top: its tests are NOT PROVED\nrt: top ran"),
        "the log says 'rt: top: its",
    ),
    "a gate that fails": (LOG.replace("rt: ok;", "rt: FAILED: top/wrong.edit\nrt: ok;"), "the log says 'rt: FAILED: top/wrong.edit'"),
    "tests that fail": (LOG.replace("1138 passed, 0", "1137 passed, 1"), "the log says '1137 passed, 1 failed'"),
    "a part that fails": (LOG + "  13 s  the part that failed\n", "the log says '  13 s  the part that failed'"),
    "no line that all is well": (LOG.replace("rt: ok;", "rt: OK;"), "the log has 0 lines `rt: ok;`"),
    "an edit that is kept": (
        LOG.replace("every proof and must-fail edit was done in this run", "done in this run: 2 of the 2 proofs"),
        "the gate kept what an earlier run had done",
    ),
    "no last line": (LOG[: LOG.index("3 passed")], "the gate ends with 'no last line', and the tree has 3 crates and must-fail edits"),
    "an edit that is missing": (LOG.replace("\n3 passed", "\n2 passed"), "the gate ends with '2 passed, 0 failed', and the tree has 3"),
    "some of the gate": (LOG.replace("3 passed, 0 failed", "3 passed, 0 failed (top alone: not the gate)"), "the gate ends with '1138"),
}


TREE = Path()
"""The small repository, with one commit and what was made of it."""


def setUpModule() -> None:
    """Makes the small repository for all tests."""
    global TREE
    held = tempfile.TemporaryDirectory(prefix="proof-record-")
    unittest.addModuleCleanup(held.cleanup)
    TREE = Path(held.name)
    write(TREE, {name: text.encode() for name, text in FILES.items()})
    write(TREE, {"docs/promises.txt": b""})
    listing.main([], TREE)
    for words in (("init", "-q"), ("add", "."), ("commit", "-q", "-m", "All")):
        ran("git", "-C", TREE, *words, **COMMIT)
    write(TREE, MADE)


def write(top: Path, files: Mapping[str, bytes]) -> None:
    """Writes files below a folder."""
    for name, content in files.items():
        (top / name).parent.mkdir(parents=True, exist_ok=True)
        (top / name).write_bytes(content)


class RecordTest(unittest.TestCase):
    """A test with a copy of the small repository, a log and a kit of its own."""

    def setUp(self) -> None:
        held = tempfile.TemporaryDirectory(prefix="proof-record-")
        self.addCleanup(held.cleanup)
        self.folder = Path(held.name)
        self.tree, self.log = self.folder / "tree", self.folder / "gate.log"
        shutil.copytree(TREE, self.tree)
        self.log.write_text(LOG, encoding="utf-8")
        self.kit(f"kit-for-tests logic {LOGIC}")
        patched = mock.patch.dict(os.environ, {**COMMIT, "PATH": f"{self.folder}/bin:{os.environ['PATH']}"})
        patched.start()
        self.addCleanup(patched.stop)

    def kit(self, version: str) -> None:
        """Has `rt version` print a line."""
        program = self.folder / "bin/rt"
        program.parent.mkdir(exist_ok=True)
        program.write_text(f"#!/bin/sh\necho '{version}'\n", encoding="utf-8")
        program.chmod(0o755)

    def record(self, tree: Path | None = None) -> tuple[int, str, str]:
        """The status, and what is printed."""
        out, error = StringIO(), StringIO()
        with redirect_stdout(out), redirect_stderr(error):
            status = proof_record.main([str(self.log), "--tree", str(tree or self.tree)])
        return status, out.getvalue(), error.getvalue()

    def assert_refused(self, reason: str) -> None:
        """There is no record, for this reason."""
        status, out, error = self.record()
        self.assertEqual((status, out), (1, ""))
        self.assertIn(reason, error)


class Records(RecordTest):
    def test_the_whole_record(self) -> None:
        def sources(*names: str) -> str:
            pieces = [piece for name in names for piece in (name.encode(), FILES[name].encode())]
            return sha256(b"".join(str(len(piece)).encode() + b":" + piece + b"," for piece in pieces)).hexdigest()

        commit = ran("git", "-C", self.tree, "rev-parse", "HEAD").decode()
        wanted = f"commit {commit}kit kit-for-tests logic {LOGIC}\n"
        wanted += f"crate base proved functions=12 sources={sources('crates/base/specs/Lib.antt', 'crates/base/src/lib.rt')}\n"
        wanted += f"crate top proved functions=0 sources={sources('crates/top/must-fail/wrong.edit', 'crates/top/src/lib.rt')}\n"
        wanted += "gate 3 passed, 0 failed\n"
        promised = (self.tree / "docs/promises.txt").read_bytes()
        self.assertIn(b"fn nothing", promised)
        wanted += "".join(f"{sha256(content).hexdigest()}  {name}\n" for name, content in {**MADE, "docs/promises.txt": promised}.items())
        self.assertEqual(self.record(), (0, wanted, ""))

    def test_the_same_in_another_clone(self) -> None:
        again = self.folder / "another place/tree"
        ran("git", "clone", "-q", self.tree, again)
        write(again, MADE)
        self.assertEqual(self.record(again), self.record())

    def test_the_last_lines_are_those_of_a_list_of_sums(self) -> None:
        (self.folder / "record").write_text(self.record()[1], encoding="utf-8")
        printed = ran("env", "-C", self.tree, "sha256sum", "--check", self.folder / "record").decode()
        self.assertEqual(printed, "".join(f"{name}: OK\n" for name in (*MADE, "docs/promises.txt")))

    def test_files_for_browsers_are_all_there_or_none(self) -> None:
        names = list(BROWSERS)
        write(self.tree, BROWSERS)
        (self.tree / names[0]).unlink()
        self.assert_refused(f"not there: {names[0]}")
        write(self.tree, BROWSERS)
        status, out, _ = self.record()
        self.assertEqual((status, re.findall(r"^[0-9a-f]{64}  (.*)$", out, re.MULTILINE)), (0, [*MADE, *BROWSERS, "docs/promises.txt"]))


class Refusals(RecordTest):
    def test_logs(self) -> None:
        for name, (text, reason) in REFUSED.items():
            with self.subTest(name):
                self.log.write_text(text, encoding="utf-8")
                self.assert_refused(reason)

    def test_a_log_of_any_bytes(self) -> None:
        for content in (os.urandom(5000), b"\xff" * 5000, b"rt: " * 5000, b"1" * 50000 + b" passed, " + b"1" * 50000, b"== \n" * 5000):
            self.log.write_bytes(content)
            self.assert_refused("without a verdict in the log: base, top")

    def test_a_log_that_is_too_long_or_not_there(self) -> None:
        with mock.patch.object(proof_record, "MOST", len(LOG.encode()) - 1):
            self.assert_refused("has more than")
        self.log.unlink()
        self.assert_refused("No such file")

    def test_a_tree_that_is_not_clean(self) -> None:
        for name in ("crates/base/src/lib.rt", "crates/base/src/more.rt", "crates/base/specs/out/Hidden.antt"):
            with self.subTest(name):
                write(self.tree, {name: b"another\n"})
                self.assert_refused("is not as it was committed")
                ran("git", "-C", self.tree, "clean", "-qfdx", "--", "crates/base")
                ran("git", "-C", self.tree, "checkout", "-q", "--", ".")

    def test_binaries_that_are_missing_or_old(self) -> None:
        os.utime(self.tree / "crates/tml/out/tml", (1, 1))
        self.assert_refused("older than a file of crates or web: crates/tml/out/tml\n")
        (self.tree / "crates/tml/out/tml").unlink()
        self.assert_refused("not there: crates/tml/out/tml\n")

    def test_crates_without_files(self) -> None:
        for text, missing in (("base:\ntop:\nbasement:\n", "basement"), ("# none\n", "any crate")):
            with self.subTest(missing):
                write(self.tree, {"crates.txt": text.encode()})
                ran("git", "-C", self.tree, "commit", "-q", "-a", "-m", "Others")
                self.assert_refused(f"no files of: {missing}\n")

    def test_promises_of_other_crates(self) -> None:
        write(self.tree, {"docs/promises.txt": b"nothing\n"})
        ran("git", "-C", self.tree, "commit", "-q", "-a", "-m", "Nothing")
        self.assert_refused("docs/promises.txt is not what the crates promise")

    def test_kits(self) -> None:
        self.kit("kit-for-tests logic fedcba9876543210")
        self.assert_refused(f"proved by a kit with the logic '{LOGIC}', and not fedcba9876543210: base, top")
        self.kit("nothing")
        self.assert_refused("`rt version` printed 'nothing'")


if __name__ == "__main__":
    unittest.main()
