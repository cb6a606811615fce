"""`tools/library/build`: how it calls a stand-in for the prover, what it leaves, and what it needs."""

import os
import shlex
import shutil
import subprocess
import tempfile
import unittest
from pathlib import Path

from corpus import TOOLS, TOP
from processes import BARE

BUILD = os.path.join(TOOLS, "library", "build")
ARCHIVE = os.path.abspath(os.environ.get("TML_ARCHIVE") or os.path.join(TOP, "crates", "tml_c", "out", "libtml_c.a"))
MISSING = [name for name in ("cc", "ld", "objcopy", "ar", "rt") if shutil.which(name) is None]


class Needed(unittest.TestCase):
    def test_what_is_missing(self) -> None:
        done = subprocess.run(
            [*BARE, BUILD], env={"PATH": "", "PYTHONDONTWRITEBYTECODE": "1"}, capture_output=True, text=True, check=False, timeout=60
        )
        self.assertEqual((done.returncode, done.stdout, done.stderr), (1, "", "build: not installed: rt, cc, ld, objcopy, ar\n"))

    def test_help_has_an_example(self) -> None:
        done = subprocess.run([*BARE, BUILD, "--help"], capture_output=True, text=True, check=True, timeout=60)
        self.assertIn("Example", done.stdout)


@unittest.skipUnless(os.path.isfile(ARCHIVE), f"no archive {ARCHIVE}: tools/library/build makes it, or name one by TML_ARCHIVE=")
@unittest.skipIf(MISSING, f"not installed: {', '.join(MISSING)}")
class Build(unittest.TestCase):
    """A copy of the tool, over three crates that `rt ci` seems to have proved, with a kit whose prover hands over the archive."""

    c_of_kit: str

    @classmethod
    def setUpClass(cls) -> None:
        said = subprocess.run(["rt", "doc"], capture_output=True, text=True, check=True, timeout=60).stdout.strip()
        cls.c_of_kit = os.path.join(os.path.dirname(os.path.realpath(said)), "c")

    def setUp(self) -> None:
        held = tempfile.TemporaryDirectory(prefix="library-build-")
        self.addCleanup(held.cleanup)
        self.top = Path(os.path.realpath(held.name))
        for folder in ("tools/library", "python/src", "python/dev/building"):
            shutil.copytree(os.path.join(TOP, folder), self.top / folder, ignore=shutil.ignore_patterns("__pycache__"))
        (self.top / "crates.txt").write_text("# crates\nlow:\nhigh: low\nother:\ntml_c staticlib: high of_the_kit\n", encoding="utf-8")
        for name in ("low", "high", "tml_c"):
            (self.top / "crates" / name / "src").mkdir(parents=True)
            (self.top / "crates" / name / "src/lib.rt").touch()
        for name in ("low", "high"):
            (self.top / "crates" / name / f"out/rlib/{name}.rlib").mkdir(parents=True)
        self.out, self.kit = self.top / "crates/tml_c/out", self.top / "kit"
        (self.kit / "bin").mkdir(parents=True)
        (self.kit / "c").symlink_to(self.c_of_kit)
        self.program("rt", f"echo {self.kit}/START-HERE.md")

    def program(self, name: str, text: str) -> None:
        """Puts a script into the kit."""
        (self.kit / "bin" / name).write_text(f"#!/bin/sh\n{text}\n", encoding="utf-8")
        (self.kit / "bin" / name).chmod(0o755)

    def build(self, prover: str) -> tuple[int, list[str], list[str], set[str]]:
        """The status, what was printed, what was said beside it, and the files that are left, where the prover is this script."""
        self.program("rattle", prover)
        variables = {**os.environ, "PATH": f"{self.kit}/bin:{os.environ['PATH']}", "PYTHONDONTWRITEBYTECODE": "1"}
        words = [*BARE, str(self.top / "tools/library/build")]
        done = subprocess.run(words, env=variables, capture_output=True, text=True, check=False, timeout=300)
        left = {one.name for one in self.out.iterdir()} if self.out.exists() else set()
        return done.returncode, done.stdout.splitlines(), done.stderr.splitlines(), left

    def test_both_are_made(self) -> None:
        status, said, told, left = self.build(f'echo "$PWD" "$@"; for last; do :; done; cp {shlex.quote(ARCHIVE)} "$last"')
        self.assertEqual((status, said), (0, [f"{self.out}/libtml.so", f"{self.out}/libtml.a"]))
        self.assertEqual(left, {"libtml.so", "libtml.a", "libtml_c.a"})
        self.assertEqual(len(told), 1)
        words, crates = told[0].split(), self.top / "crates"
        self.assertEqual((words[0], words[-1]), (str(crates / "tml_c"), str(self.out / "libtml_c.a")))
        libraries = {word for place, word in zip(words, words[1:]) if place == "--extern"}
        wanted = {f"high={crates}/high/out/rlib/high.rlib", *(f"{name}={self.kit}/rlibs/{name}.rlib" for name in ("std", "of_the_kit"))}
        self.assertEqual(libraries, wanted)
        self.assertLessEqual({f"dependency={crates}/{name}/out/rlib" for name in ("low", "high")}, set(words))

    def test_what_is_not_proved(self) -> None:
        status, said, told, left = self.build("echo not proved; exit 1")
        self.assertEqual((status, said, left), (1, [], set()))
        self.assertEqual(told, ["not proved", "build: the crate tml_c was not built: rattle ended with status 1"])

    def test_what_cannot_be_linked(self) -> None:
        status, said, told, left = self.build('for last; do :; done; echo no archive >"$last"')
        self.assertEqual((status, said, left), (1, [], {"libtml_c.a"}))
        self.assertRegex(told[0], "^build: ld ended with status 1: ")

    def test_a_library_that_was_not_proved(self) -> None:
        made = self.top / "crates/low/out/rlib/low.rlib"
        made.rmdir()
        self.assertEqual(self.build("exit 0")[:3], (1, [], [f"build: no library {made}: `rt ci` has to run first"]))

    def test_a_library_that_was_changed(self) -> None:
        made = self.top / "crates/low/out/rlib/low.rlib"
        os.utime(self.top / "crates/low/src/lib.rt", (made.stat().st_mtime + 1,) * 2)
        self.assertEqual(self.build("exit 0")[:3], (1, [], ["build: crates/low was changed after `rt ci`, which has to run again"]))


if __name__ == "__main__":
    unittest.main()
