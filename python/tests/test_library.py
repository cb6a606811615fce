"""The library for C: that its example runs, that it answers as the program does, in what memory, and how it is packed."""

from __future__ import annotations

import os
import re
import shutil
import signal
import struct
import subprocess
import tempfile
import unittest
import zipfile
from collections.abc import Mapping, Sequence
from pathlib import Path
from unittest import mock

from building.linking import EXPORTS, SONAME, linked
from corpus import TESTS, TML, TOOLS, TOP, match_in, text_at
from differential.cases import Case
from refused_memory import runs
from releasing.debian import dev_package, library_package, write_tree
from releasing.dist import DIST
from releasing.outputs import Outputs
from releasing.source import Source, versions_of

ARCHIVE = os.path.abspath(os.environ.get("TML_ARCHIVE") or os.path.join(TOP, "crates", "tml_c", "out", "libtml_c.a"))
CALLER, REFUSING, WRONG = (os.path.join(TESTS, name) for name in ("library_caller.c", "refusing_caller.c", "wrong_library.c"))
LIBRARIES = "usr/lib/x86_64-linux-gnu"
MISSING = [name for name in ("cc", "ld", "objcopy", "ar", "rt") if shutil.which(name) is None]
STRIDE = 40
STRICT = ("-std=c11", "-D_DEFAULT_SOURCE", "-Wall", "-Wextra", "-Werror", "-O1", "-g")
SANITIZED = ("-fsanitize=address,undefined", "-fno-sanitize-recover=all")
VALGRIND = ("valgrind", "-q", "--error-exitcode=99", "--leak-check=full", "--max-stackframe=90000000")
WRAPPED = "-Wl,--wrap=malloc,--wrap=realloc,--wrap=free"
REFUSED = r"(\d+) allocations of (\d+) calls refused, each alone and with all after it: (\d+) deviations \((\d+) of (\d+) times .*\n"


def without_preloaded() -> dict[str, str]:
    """The environment without libraries that come first, as `stdbuf` sets one: AddressSanitizer has to be the first one."""
    return {name: value for name, value in os.environ.items() if name != "LD_PRELOAD"}


def ran(*words: str | Path, env: Mapping[str, str] | None = None) -> str:
    """A program that has to end with status 0, and what it printed."""
    done = subprocess.run(words, capture_output=True, check=False, timeout=300, env=env)
    if done.returncode != 0:
        raise AssertionError(f"{words}: {done.returncode}: {done.stderr.decode('utf-8', 'replace')}")
    return done.stdout.decode()


def versions_of_map() -> dict[str, str]:
    """The functions that tml.map exports, and the version of each."""
    blocks = re.findall(r"^(\w[\w.]*) \{\s*global:([^}]*?)(?:local:[^}]*)?\}", text_at("tools/library/tml.map"), re.MULTILINE)
    return {name: version for version, names in blocks for name in re.findall(r"\w+", names)}


def exported_by(library: Path) -> dict[str, str]:
    """The functions and data that a shared library exports, and the version of each; an empty one if it has none."""
    lines = ran("nm", "-D", "--defined-only", library).splitlines()
    symbols = [symbol.partition("@@") for _, kind, symbol in map(str.split, lines) if kind != "A"]
    return {name: version for name, _, version in symbols}


def name_of(library: Path) -> str:
    """The name by which programs that are linked with a shared library ask for it."""
    return match_in(r"\(SONAME\) .*\[(.*)\]", ran("readelf", "-d", library))[1]


def given(case: Case) -> tuple[bytes, bytes, bytes]:
    """What crosses for a case of the program: the words, and its first two files, which are there by the library's names."""
    called = dict(zip(list(case.files)[:2], (b"first", b"second")))
    first, second = (*case.files.values(), b"", b"")[:2]
    return b"".join(called.get(word, word) + b"\0" for word in case.words), first, second


def refusing(program: str | Path, cases: Sequence[Case], before: Sequence[str] = ()) -> tuple[int, str]:
    """What `refusing_caller.c` found of some cases: its status, and what it printed, with the subjects of the cases."""
    packed = b"".join(struct.pack("=QQQ", *map(len, pieces)) + b"".join(pieces) for pieces in map(given, cases))
    done = subprocess.run([*before, program], input=packed, capture_output=True, check=False, timeout=300, env=without_preloaded())
    text = (done.stdout + done.stderr).decode("utf-8", "replace")
    return done.returncode, re.sub(r"^case (\d+),", lambda found: f"{cases[int(found[1])].subject}:", text, flags=re.MULTILINE)


@unittest.skipUnless(shutil.which("cc"), "no cc")
class Refusing(unittest.TestCase):
    """That `refusing_caller.c` finds libraries that go wrong where memory is refused."""

    def test_wrong_libraries(self) -> None:
        cases, header = list(runs())[:2], f"-I{TOOLS}/library"
        with tempfile.TemporaryDirectory() as folder:
            for number in range(6):
                program = os.path.join(folder, str(number))
                ran("cc", *STRICT, header, f"-DWRONG={number}", REFUSING, WRONG, "-o", program, WRAPPED)
                status, text = refusing(program, cases)
                with self.subTest(number, text=text):
                    found = match_in(REFUSED, text)
                    self.assertEqual((status, found[1], found[2], found[5]), (int(number > 0), "4", "2", "8"))
                    self.assertEqual(found[3] == "0", number == 0)


@unittest.skipUnless(shutil.which("cc"), "no cc")
class Preloaded(unittest.TestCase):
    """That programs with AddressSanitizer run where a library comes first."""

    def test_refusing(self) -> None:
        cases, header = list(runs())[:1], f"-I{TOOLS}/library"
        with tempfile.TemporaryDirectory() as folder:
            first, program = os.path.join(folder, "first.so"), os.path.join(folder, "refusing")
            ran("cc", "-shared", "-fPIC", "-xc", os.devnull, "-o", first)
            try:
                ran("cc", *STRICT, *SANITIZED, header, "-DWRONG=0", REFUSING, WRONG, "-o", program, WRAPPED)
            except AssertionError:
                self.skipTest("cc has no AddressSanitizer")
            with mock.patch.dict(os.environ, {"LD_PRELOAD": first}):
                status, text = refusing(program, cases)
            self.assertEqual(status, 0, text)


@unittest.skipUnless(os.path.isfile(ARCHIVE), f"no archive {ARCHIVE}: tools/library/build makes it, or name one by TML_ARCHIVE=")
@unittest.skipIf(MISSING, f"not installed: {', '.join(MISSING)}")
class Library(unittest.TestCase):
    folder: Path
    root: Path
    caller: Path

    @classmethod
    def setUpClass(cls) -> None:
        held = tempfile.TemporaryDirectory(prefix="library-")
        cls.addClassCleanup(held.cleanup)
        cls.folder = Path(held.name)
        cls.root = cls.folder / "root"
        cls.root.mkdir()
        source = Source(versions_of(text_at("CHANGELOG.md")), "", True, 0, "A Name <a@example.org>", "")
        libraries = Outputs(b"", b"", *linked(ARCHIVE))
        write_tree(cls.root, library_package(source, libraries, b"", "libc6") | dev_package(source, libraries, b""))
        cls.caller = cls.built("caller", CALLER, "-l:libtml.a")

    @classmethod
    def built(cls, name: str, source: str | Path, *options: str) -> Path:
        """A program over the library that was unpacked."""
        program = cls.folder / name
        places = (f"-I{cls.root}/usr/include", f"-L{cls.root}/{LIBRARIES}")
        ran("cc", *STRICT, *places, source, "-o", program, *options, "-pthread")
        return program

    def sanitized(self, name: str, source: str, *options: str) -> Path:
        """The same with AddressSanitizer; where `cc` has none the test is skipped."""
        try:
            return self.built(name, source, "-l:libtml.a", *options, *SANITIZED)
        except AssertionError:
            self.skipTest("cc has no AddressSanitizer")

    def call(
        self, case: Case, *, before: Sequence[str] = (), program: Path | None = None, threads: int = 1, room: int = 1 << 22
    ) -> tuple[int, bytes, bytes]:
        """The status and the text of a call on a case of the program."""
        for name, content in zip(("words", "first", "second"), given(case)):
            (self.folder / name).write_bytes(content)
        line = [*before, str(program or self.caller), str(threads), str(room), "first", "second", "words"]
        done = subprocess.run(line, cwd=self.folder, capture_output=True, check=False, timeout=300, env=without_preloaded())
        return done.returncode, done.stdout, done.stderr

    def cases(self, stride: int = 1) -> list[Case]:
        """Runs that take every path, each of so many."""
        return [case for case in runs() if case.words][::stride]

    def test_the_example(self) -> None:
        source = self.folder / "example.c"
        source.write_text(match_in(r"```c\n(.*?)```", text_at("docs/LIBRARY.md"), re.DOTALL)[1], encoding="utf-8")
        program = self.built("example", source, "-ltml")
        said = ran(program, env={**os.environ, "LD_LIBRARY_PATH": f"{self.root}/{LIBRARIES}"})
        self.assertEqual(said.splitlines()[0], "accepted")

    @unittest.skipUnless(shutil.which("pkg-config"), "no pkg-config")
    def test_the_file_of_pkg_config(self) -> None:
        places = {"PKG_CONFIG_SYSROOT_DIR": str(self.root), "PKG_CONFIG_PATH": f"{self.root}/{LIBRARIES}/pkgconfig"}
        kept = {f"PKG_CONFIG_ALLOW_SYSTEM_{kind}": "1" for kind in ("LIBS", "CFLAGS")}
        words = ran("pkg-config", "--cflags", "--libs", "libtml", env={**os.environ, **places, **kept})
        ran("cc", CALLER, "-o", self.folder / "by-pkg-config", *words.split(), "-pthread")

    def program(self, case: Case, before: Sequence[str] = ()) -> tuple[int, bytes]:
        """The status and the text of the program on a case."""
        with tempfile.TemporaryDirectory() as folder:
            files = {name: content for name, content in case.files.items() if name != b"-"}
            for name, content in files.items():
                Path(folder, name.decode()).write_bytes(content)
            piped = case.files.get(b"-", b"")
            done = subprocess.run([*before, TML, *case.words], cwd=folder, input=piped, capture_output=True, check=False, timeout=300)
            return done.returncode, done.stdout

    @unittest.skipUnless(os.access(TML, os.X_OK), f"no program {TML}")
    def test_it_answers_as_the_program(self) -> None:
        for case in self.cases():
            with self.subTest(case.subject):
                self.assertEqual(self.call(case)[:2], self.program(case))

    def test_threads_side_by_side(self) -> None:
        for case in self.cases(5):
            with self.subTest(case.subject):
                self.assertEqual(self.call(case, threads=8), self.call(case))

    def test_a_room_that_is_too_small(self) -> None:
        for case in self.cases(9):
            status, text, _ = self.call(case)
            for room in {0, 1, len(text) // 2, max(len(text) - 1, 0)} - {len(text)}:
                with self.subTest(case.subject, room=room):
                    self.assertEqual(self.call(case, room=room)[:2], (status, b"needs %d\n" % len(text)))
            self.assertEqual(self.call(case, room=len(text))[:2], (status, text))

    def test_with_an_address_sanitizer(self) -> None:
        program = self.sanitized("sanitized", CALLER)
        for case in self.cases(3):
            with self.subTest(case.subject):
                self.assertEqual(self.call(case, program=program, threads=2), self.call(case))

    @unittest.skipUnless(shutil.which("valgrind"), "no valgrind")
    def test_with_valgrind(self) -> None:
        for case in self.cases(STRIDE):
            with self.subTest(case.subject):
                self.assertEqual(self.call(case, before=VALGRIND)[:2], self.call(case)[:2])

    def stacks_stated(self) -> tuple[int, int]:
        """How many KiB of stack are enough for `verify` and `drill`, and how many for the other commands, as both pages say."""
        page, manual = (" ".join(text_at(f"docs/{name}").split()) for name in ("LIBRARY.md", "tml.1"))
        stated = match_in(r"a stack of (\d+) KiB was enough for `verify` and `drill`, and one of (\d+) KiB for all other commands", page)
        of_manual = match_in(r"tried, (\d+) KiB were enough for \.Cm verify and \.Cm drill , and (\d+) KiB for all else\.", manual)
        self.assertEqual(stated.groups(), of_manual.groups())
        return int(stated[1]), int(stated[2])

    @unittest.skipUnless(shutil.which("prlimit"), "no prlimit")
    @unittest.skipUnless(os.access(TML, os.X_OK), f"no program {TML}")
    def test_the_stack_that_is_stated(self) -> None:
        most, others = self.stacks_stated()
        ended: set[tuple[int, bool]] = set()
        for case in self.cases(2):
            stated = most if case.words[:1] in ((b"verify",), (b"drill",)) else others
            enough, half = (("prlimit", f"--stack={size * 1024}") for size in (stated, stated // 2))
            with self.subTest(case.subject, words=case.words[:1]):
                self.assertEqual(self.call(case, before=enough), self.call(case))
                self.assertEqual(self.program(case, before=enough), self.program(case))
                if self.call(case, before=half)[0] == -signal.SIGSEGV:
                    ended.add((stated, True))
                if self.program(case, before=half)[0] == -signal.SIGSEGV:
                    ended.add((stated, False))
        self.assertEqual(
            ended, {(stated, of_library) for stated in (most, others) for of_library in (True, False)}, "far too much is stated"
        )

    def refused(self, program: Path, cases: Sequence[Case], before: Sequence[str] = ()) -> int:
        """Refuses each allocation of some cases, and answers how many there were."""
        status, text = refusing(program, cases, before)
        self.assertEqual(status, 0, text)
        allocations, calls, deviations, no_memory, refusals = map(int, match_in(f"^(?:{REFUSED})$", text).groups())
        self.assertEqual((calls, deviations, refusals), (len(cases), 0, 2 * allocations))
        self.assertGreater(no_memory, 0)
        return allocations

    def test_each_allocation_refused(self) -> None:
        program = self.built("refusing", REFUSING, "-l:libtml.a", WRAPPED)
        self.assertGreater(self.refused(program, self.cases()), len(self.cases()))

    def test_allocations_refused_with_an_address_sanitizer(self) -> None:
        self.refused(self.sanitized("sanitized-refusing", REFUSING, WRAPPED), self.cases(3))

    @unittest.skipUnless(shutil.which("valgrind"), "no valgrind")
    def test_allocations_refused_with_valgrind(self) -> None:
        self.refused(self.built("watched-refusing", REFUSING, "-l:libtml.a", WRAPPED), self.cases(STRIDE), VALGRIND)

    def test_symbols_and_their_versions(self) -> None:
        """The shared library, the version script, the header and docs/STABILITY.md name the same functions and versions. A library of the
        same name in dist/ has no others."""
        library, versions = self.root / LIBRARIES / "libtml.so", versions_of_map()
        self.assertEqual(exported_by(library), versions)
        self.assertEqual(set(versions), set(EXPORTS))
        header = (self.root / "usr/include/tml.h").read_text(encoding="utf-8")
        self.assertEqual(set(re.findall(r"^\w+ \**(\w+)\(", header, re.MULTILINE)), set(versions))
        self.assertEqual(name_of(library), SONAME)
        page = match_in(r"^\| C \| (.*) \|$", text_at("docs/STABILITY.md"), re.MULTILINE)[1]
        self.assertIn(f"`{SONAME}` exports them", page)
        self.assertEqual(set(re.findall(r"\bTML_[\d.]*\d", page)), set(versions.values()))
        for wheel in DIST.glob("*_x86_64.whl"):
            with zipfile.ZipFile(wheel) as archive:
                last = Path(archive.extract("tml/libtml.so", self.folder))
            if name_of(last) == SONAME:
                self.assertLessEqual(exported_by(last).items(), versions.items())

    def test_what_is_shown(self) -> None:
        lines = ran("nm", "-g", "--defined-only", self.root / LIBRARIES / "libtml.a").splitlines()
        self.assertEqual({line.split()[-1] for line in lines if re.search(" [A-Z] ", line)}, set(EXPORTS))
        used = set(re.findall(r" U (\w+)", ran("nm", "-g", self.root / LIBRARIES / "libtml.a")))
        self.assertEqual(used - {"memcpy", "memmove", "memset", "memcmp"}, {"malloc", "realloc", "free"}, "other ways to take memory")

    def test_the_same_again(self) -> None:
        contents = [(self.root / LIBRARIES / name).read_bytes() for name in ("libtml.so", "libtml.a")]
        self.assertEqual(list(linked(ARCHIVE)), contents)


if __name__ == "__main__":
    unittest.main()
