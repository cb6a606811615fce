"""`tml-corpus` by the library: the same as by processes, which library is asked, one that ends its process, and one on a cluster.

The library is the one that the variable TML_LIBRARY names, or the one that was built. Where a wrong one is wanted it is a stand-in,
which `cc` compiles and which accepts all documents; so it is seen who answered.
"""

import os
import shutil
import signal
import subprocess
import tempfile
import unittest
import zipfile
from collections.abc import Mapping, Sequence
from pathlib import Path

from corpus import CLASH, EVENT, INSTANCE, LIBRARY, SOURCES, TESTS, TML, TOO_LONG, TOOLS, TOP, CorpusTest, document, match_in, needs_library
from daemons import ClusterTest
from forked import run_forked
from installing import INSTALLED
from processes import BARE, PATIENCE, WITH_PACKAGES, children_of, interrupt, is_running, until, with_own_bytecode
from tml.finding import AtPath, Loadable, find
from tml_corpus.asking.archive import Sent, archive

COMPANION = [*BARE, os.path.join(TOOLS, "tml-corpus")]
STAND_IN = os.path.join(TESTS, "library_stand_in.c")
FAULTY = document("<EVENT/>")
TOUCHING = (
    '<TIMEX3 tid="a" type="DATE" value="1998-01-08">x</TIMEX3><TIMEX3 tid="b" type="DATE" value="1998-01-09">y</TIMEX3>'
    '<TLINK timeID="a" relatedToTime="b" relType="BEFORE"/>'
)
SUSPECT = '<TIMEX3 tid="a" type="DATE" value="1998-1-7">x</TIMEX3><SIGNAL sid="s"/>'

Streams = tuple[int, bytes, bytes]
"""The status and both streams of a program."""

needs_cc = unittest.skipUnless(shutil.which("cc"), "no program cc")


class LibraryTest(CorpusTest):
    def run_bytes(
        self, command: str, *words: str, tml: str | None = TML, tools: str = TOOLS, python: Sequence[str] = BARE, **variables: str
    ) -> Streams:
        """The status and the bytes of both streams; no program is named where that is None."""
        chosen = [] if tml is None else ["--tml", os.path.abspath(tml)]
        inherited = os.environ if python == BARE else with_own_bytecode()
        others = {name: value for name, value in inherited.items() if name not in ("TML", "TML_LIBRARY")}
        environment = {**others, "PYTHONIOENCODING": "utf-8", "PYTHONDONTWRITEBYTECODE": "1", **variables}
        program, given = os.path.join(tools, "tml-corpus"), [command, *chosen, *words]
        if python == BARE and tools == TOOLS:
            ended = run_forked(program, *given, folder=self.folder, environment=environment)
            return ended.status, ended.out, ended.error
        run = [*python, program, *given]
        done = subprocess.run(
            run, cwd=self.folder, stdin=subprocess.DEVNULL, capture_output=True, check=False, timeout=PATIENCE, env=environment
        )
        return done.returncode, done.stdout, done.stderr

    def stand_in(self, name: str = "stand-in.so") -> str:
        """The stand-in, compiled."""
        path = self.path(name)
        os.makedirs(os.path.dirname(path), exist_ok=True)
        subprocess.run(["cc", "-shared", "-fPIC", "-O1", "-o", path, STAND_IN], check=True)
        return path

    def tools(self, library: bool = True) -> str:
        """A copy of the tools, with a program and the stand-in built beside it; answers its folder."""
        if INSTALLED:
            self.skipTest("of the clone alone: nothing is built beside what is installed")
        shutil.copytree(SOURCES, self.path("copy/python/src"), ignore=shutil.ignore_patterns("__pycache__"))
        os.mkdir(self.path("copy/tools"))
        shutil.copy(os.path.join(TOOLS, "tml-corpus"), self.path("copy/tools"))
        os.makedirs(self.path("copy/crates/tml/out"))
        shutil.copy(TML, self.path("copy/crates/tml/out/tml"))
        if library:
            self.stand_in("copy/crates/tml_c/out/libtml.so")
        return self.path("copy/tools")

    def files(self, folder: str = "d") -> None:
        """Documents that are accepted, faulty, suspect, that clash, that are too long or cannot be read."""
        fits, faults = EVENT + INSTANCE + CLASH.replace("BEFORE", "IDENTITY"), EVENT + "<EVENT/>" * 3 + "<P>&</P>"
        contents = [EVENT, "<EVENT/>", EVENT + INSTANCE, CLASH, faults, TOUCHING, SUSPECT, fits]
        for number in range(80):
            content = document(contents[number % len(contents)]) + "\n" * (number // len(contents))
            self.write(f"{folder}/{number % 3}/{number:03}.xml", content)
        for path in Path(TOP, "samples").glob("*.xml"):
            self.write(f"{folder}/samples/{path.name}", path.read_bytes())
        self.write(f"{folder}/wrapped.xml", document(f"<TXT>{CLASH}</TXT>"))
        self.write(f"{folder}/latin.xml", "<TimeML>é</TimeML>".encode("latin-1"))
        self.write(f"{folder}/empty.xml", "")
        self.write(f"{folder}/long.xml", TOO_LONG)
        self.write(f"{folder}/caf\udce9\n.xml", b"\xff")
        os.symlink("nowhere", self.path(f"{folder}/link.xml"))
        os.symlink(".", self.path(f"{folder}/loop"))
        os.mkfifo(self.path(f"{folder}/pipe.xml"))
        os.mkdir(self.path(f"{folder}/folder.xml"))

    def contents(self, folder: str) -> dict[str, bytes]:
        """The files below a folder, with what they hold; they are taken away."""
        found = {str(path.relative_to(self.folder)): path.read_bytes() for path in Path(self.path(folder)).rglob("*") if path.is_file()}
        shutil.rmtree(self.path(folder), ignore_errors=True)
        return found


@needs_library
class SameAnswers(LibraryTest):
    def same(self, *words: str, made: str | None = None) -> Streams:
        """The same by the library and by processes: status, both streams, and the files that were made."""
        found = []
        for option in (["--no-library"], ["--library", LIBRARY]):
            found.append((self.run_bytes(*words, *option), self.contents(made) if made else {}))
        self.assertEqual(found[0], found[1])
        self.assertEqual(bool(found[0][1]), made is not None)
        return found[0][0]

    def test_check(self) -> None:
        self.files()
        rows = ["", "--lint", "--more 3", "--lint --strict --format json", "--format junit", "--format github --no-explain"]
        for words in map(str.split, rows):
            with self.subTest(words):
                status, out, _ = self.same("check", *words, "d", "gone.xml", "d")
                self.assertEqual(status, 2)
                self.assertIn(b"more than 4,194,304 bytes", out)
        status, out, _ = self.same("check", "--lint", "--clashes", "--more", "2", "d")
        self.assertRegex(out.decode(), r"\d+ files: \d+ accepted, 14 with a clash")

    def test_clashes(self) -> None:
        self.files()
        for words in "", "--touching", "--repair --more 2", "--format json", "--format junit":
            with self.subTest(words):
                self.assertEqual(self.same("clashes", *words.split(), "d")[0], 2)
        self.same("clashes", "--evidence", "kept", "d", made="kept")

    def test_other_commands(self) -> None:
        self.files()
        self.files("e")
        self.assertIn(b"can be fixed", self.same("fix", "d")[1])
        self.assertIn(b"unknown, first at", self.same("tags", "d")[1])
        self.assertIn(b"precision", self.same("agree", "--links", "d/samples", "e/samples")[1])
        self.same("agree", "--touching", "--format", "json", "d", "e")
        self.assertEqual(self.same("report", "--more", "1", "-o", "pages", "d", made="pages")[0], 2)
        found = []
        for option in ("--no-library", "--library=" + LIBRARY):
            shutil.copytree(self.path("e/1"), self.path("f"))
            found.append((self.run_bytes("fix", "--write", option, "f"), self.contents("f")))
        self.assertEqual(found[0], found[1])

    def test_with_wrappers_of_a_corpus(self) -> None:
        self.files()
        self.write("d/tml-corpus.toml", 'wrappers = ["TXT", "FILEID"]\n')
        rows = [["check", "--clashes", "--lint", "d"], ["clashes", "--repair", "d"], ["agree", "--links", "d/wrapped.xml", "d/wrapped.xml"]]
        for words in rows:
            with self.subTest(words):
                self.assertIn(b"wrapped.xml", self.same(*words)[1])
        self.assertNotIn(b"wrapped.xml", self.same("check", "--more", "2", "d")[1])

    def test_standard_input(self) -> None:
        self.write("a.xml", document(CLASH))
        for option in (["--no-library"], ["--library", LIBRARY]):
            with open(self.path("a.xml"), "rb") as given:
                words = [*COMPANION, "check", "--clashes", "--tml", os.path.abspath(TML), *option, "--stdin-name", "b.xml", "-"]
                done = subprocess.run(words, cwd=self.folder, stdin=given, capture_output=True, check=False, timeout=PATIENCE)
            self.assertEqual(done.returncode, 1)
            self.assertTrue(done.stdout.startswith(b"b.xml:2:"), done.stdout)


@needs_cc
class WhichLibrary(LibraryTest):
    """Who is asked. The stand-in accepts what `tml` does not."""

    def by_whom(self, *words: str, tml: str | None = TML, tools: str = TOOLS, **variables: str) -> str:
        """Who judged a document that has a fault."""
        self.write("bad.xml", FAULTY)
        status, out, error = self.run_bytes("check", *words, "bad.xml", tml=tml, tools=tools, **variables)
        self.assertEqual(error, b"")
        self.assertIn(status, (0, 1), out)
        return "program" if status else "library"

    def test_where_nothing_is_said(self) -> None:
        tools = self.tools()
        self.assertEqual(self.by_whom(tml=None, tools=tools), "library")
        self.assertEqual(self.by_whom("--no-library", tml=None, tools=tools), "program")
        self.assertEqual(self.by_whom(tools=tools), "program")
        self.assertEqual(self.by_whom("--library", self.stand_in(), tools=tools), "library")
        # One that is older than the program is not of this program.
        os.utime(self.path("copy/crates/tml_c/out/libtml.so"), (1, 1))
        self.assertEqual(self.by_whom(tml=None, tools=tools), "program")

    def test_by_the_environment(self) -> None:
        tools, other = self.tools(library=False), self.stand_in()
        self.assertEqual(self.by_whom(tml=None, tools=tools), "program")
        self.assertEqual(self.by_whom(tml=None, tools=tools, TML_LIBRARY=other), "library")
        self.assertEqual(self.by_whom("--no-library", tml=None, tools=tools, TML_LIBRARY=other), "program")
        self.assertEqual(self.by_whom(tools=tools, TML_LIBRARY=other), "program")
        self.assertEqual(self.by_whom(tml=None, tools=self.path("copy/tools"), TML_LIBRARY=""), "program")

    def test_one_that_is_found_and_cannot_be_loaded(self) -> None:
        tools = self.tools(library=False)
        self.write("copy/crates/tml_c/out/libtml.so", b"\x7fELF, and nothing else")
        self.assertEqual(self.by_whom(tml=None, tools=tools), "program")

    def test_one_that_is_named_and_cannot_be_loaded(self) -> None:
        self.write("good.xml", document(EVENT))
        self.write("wrong.so", "no library")
        empty = self.path("empty.so")
        subprocess.run(["cc", "-shared", "-fPIC", "-x", "c", "-o", empty, "/dev/null"], check=True)
        os.mkdir(self.path("bin"))
        os.symlink(os.path.abspath(TML), self.path("bin/tml"))
        by_environment = {"TML_LIBRARY": "gone.so", "PATH": self.path("bin") + os.pathsep + os.environ["PATH"]}
        rows: list[tuple[str | None, dict[str, str]]] = [("gone.so", {}), ("./wrong.so", {}), (empty, {}), (None, by_environment)]
        for name, variables in rows:
            for command in ("check", "clashes", "fix", "tags"):
                with self.subTest(name=name, command=command):
                    words = [] if name is None else ["--library", name]
                    status, out, error = self.run_bytes(command, *words, "good.xml", tml=TML if name else None, **variables)
                    self.assertEqual((status, out), (2, b""))
                    self.assertRegex(error.decode(), r"^tml-corpus: the library \S+ cannot be loaded: .*\n$")

    def test_redundant_links(self) -> None:
        self.write("good.xml", document(EVENT))
        os.mkdir(self.path("bin"))
        os.symlink(os.path.abspath(TML), self.path("bin/tml"))
        variables = {**os.environ, "PATH": self.path("bin") + os.pathsep + os.environ["PATH"], "TML_LIBRARY": self.stand_in()}
        for chosen, status in (("", 2), ("--tml tml", 0)):
            words = [*BARE, os.path.join(TOOLS, "redundant-links"), *chosen.split(), "good.xml"]
            done = subprocess.run(words, cwd=self.folder, env=variables, capture_output=True, check=False, timeout=PATIENCE)
            self.assertEqual((done.returncode, done.stderr), (status, b""))
            self.assertEqual(b"a text that does not go with it" in done.stdout, status == 2)

    def test_words(self) -> None:
        self.assertEqual(find(TML).library, None)
        self.assertEqual(find(TML, "").library, None)
        self.assertEqual(find(TML, "libtml.so.0").library, AtPath("libtml.so.0", is_named=True))
        self.write("a.so", "")
        here = os.getcwd()
        os.chdir(self.folder)
        self.addCleanup(os.chdir, here)
        self.assertEqual(find(os.path.abspath(TML), "a.so").library, AtPath(os.path.join(os.getcwd(), "a.so"), is_named=True))
        status, _, error = self.run_bytes("check", "--library", "x", "--no-library", "a.so")
        self.assertEqual(status, 2)
        self.assertIn(b"not allowed with argument", error)


@needs_cc
class WrongLibrary(LibraryTest):
    def setUp(self) -> None:
        super().setUp()
        self.library = self.stand_in()

    def marked(self, count: int, marks: Mapping[int, str]) -> None:
        """This number of files, some of which have a word for the stand-in."""
        for number in range(count):
            self.write(f"d/{number:04}.xml", f"<TimeML/>\n<!--{marks[number]}-->\n" if number in marks else "<TimeML/>\n")

    def test_a_file_that_ends_its_process_is_the_only_one_lost(self) -> None:
        self.marked(1000, {5: "crash", 100: "exit", 101: "crash", 640: "memory", 998: "crash"})
        for command in ("check", "clashes"):
            for jobs in ("1", "3"):
                with self.subTest(command=command, jobs=jobs):
                    status, out, error = self.run_bytes(command, "--jobs", jobs, "--library", self.library, "d")
                    lines = out.decode().splitlines()
                    self.assertEqual((status, error), (2, b""))
                    ended = [line.split(":")[0] for line in lines if "the process that examined it was ended" in line]
                    self.assertEqual(ended, [f"d/{number:04}.xml" for number in (5, 100, 101, 998)])
                    self.assertIn("d/0640.xml: not judged: tml ran out of memory", lines)
                    counts = r"(?m)^1000 files: (995 accepted|0 with a clash, 995 without), 0 with a fault, 5 not judged$"
                    self.assertRegex(out.decode(), counts)

    def started(self, *words: str, processes: int = 1) -> subprocess.Popen[bytes]:
        """A run of `check` that is under way. Its first calls are answered once so many processes have called."""
        child = subprocess.Popen(
            [*COMPANION, "check", "--tml", os.path.abspath(TML), "--library", self.library, *words, "d"],
            cwd=self.folder,
            env={**os.environ, "STAND_IN": self.path("asked"), "STAND_IN_PROCESSES": str(processes), "STAND_IN_HANGS": self.path("hangs")},
            stdin=subprocess.DEVNULL,
            stdout=subprocess.PIPE,
            stderr=subprocess.PIPE,
        )
        self.addCleanup(child.wait)
        self.addCleanup(child.kill)
        return child

    def test_the_program_never_calls_it(self) -> None:
        self.marked(300, {})
        child = self.started("--jobs", "3", processes=3)
        child.communicate(timeout=PATIENCE)
        callers = [int(number) for number in self.read_text("asked").split()]
        self.assertEqual((child.returncode, len(callers), len(set(callers))), (0, 300, 3))
        self.assertNotIn(child.pid, callers)

    def hanging(self, count: int, place: int) -> tuple[subprocess.Popen[bytes], set[int]]:
        """A run that has come to a file that hangs, and its two workers."""
        self.marked(count, {place: "hang"})
        child = self.started("--jobs", "2")
        until(lambda: os.path.exists(self.path("hangs")))
        return child, children_of(child.pid)

    def test_one_that_hangs_is_ended_with_the_second_interruption(self) -> None:
        child, workers = self.hanging(30, 7)
        interrupt(child)
        self.assertIsNone(child.poll())
        child.send_signal(signal.SIGINT)
        self.assertEqual((child.communicate(timeout=PATIENCE), child.returncode), ((b"", b""), -signal.SIGINT))
        self.assertEqual(len(workers), 2)
        until(lambda: not any(map(is_running, workers)))

    def test_interrupted(self) -> None:
        child, workers = self.hanging(40, 12)
        interrupt(child)
        self.assertIsNone(child.poll())
        # Where the one that hangs is ended from outside, the results before it are reported.
        for worker in workers:
            os.kill(worker, signal.SIGKILL)
        out, error = child.communicate(timeout=PATIENCE)
        self.assertEqual((child.returncode, error), (130, b""))
        printed = match_in(r"^interrupted: (\d+) of 40 files were looked at$", out.decode().splitlines()[-1])
        self.assertLessEqual(int(printed[1]), 12)


class Archive(CorpusTest):
    """What goes to the workers of a cluster."""

    def made(self, library: AtPath | None = None, folder: str = "made") -> tuple[str, str, Loadable | None]:
        """The archive: its path, the name of the package in it, and the library as a worker loads it."""
        os.makedirs(self.path(folder), exist_ok=True)
        return archive(self.path(folder), library)

    def test_both_packages_stand_alone(self) -> None:
        path, package, _ = self.made()
        with zipfile.ZipFile(path) as file:
            names = [name for name in file.namelist() if name.endswith(".py")]
            for name in names:
                self.assertNotRegex(file.read(name).decode(), r"(?m)^\s*from tml(?:_corpus)?[. ]|^\s*import tml(?:_corpus)?\.", name)
        digest = package.removeprefix("tml_corpus_")
        self.assertEqual({name.split("/")[0] for name in names}, {f"tml_{digest}", f"tml_corpus_{digest}"})
        modules = ", ".join(name.removesuffix(".py").replace("/", ".").removesuffix(".__init__") for name in names)
        script = (
            f"import sys; sys.path.insert(0, {path!r})\nimport {modules}\n"
            f"assert not {{'tml', 'tml_corpus'}} & set(sys.modules)\n"
            f"from {package}.asking.batch import read\nfrom {package}.files import finding\n"
            f"import {package}.check.judging\nimport tml_{digest}.places\n"
            "found, place, problem = read(sys.stdin.buffer.read())\n"
            f"assert type(found) is finding.Found and type(place) is tml_{digest}.places.Place and type(problem) is finding.CannotRead\n"
        )
        given = "import sys; from tml_corpus.asking import batch; from tml_corpus.files import finding; from tml.places import Place\n"
        given += "sys.stdout.buffer.write(batch.written((finding.Found('a'), Place(1, 2, 3), finding.CannotRead('b'))))"
        written = subprocess.run([*BARE, "-c", given], cwd=SOURCES, capture_output=True, check=True).stdout
        done = subprocess.run([*BARE, "-c", script], cwd=self.folder, input=written, capture_output=True, check=False)
        self.assertEqual((done.returncode, done.stdout, done.stderr), (0, b"", b""))

    def test_names_have_a_digest_of_all_that_is_in_it(self) -> None:
        self.write("a.so", "one")
        self.write("b.so", "other")
        libraries = (None, None, AtPath(self.path("a.so")), AtPath(self.path("b.so")), AtPath("libtml.so.0"))
        made = [self.made(library, f"made-{number}") for number, library in enumerate(libraries)]
        self.assertEqual([made[0][1], made[0][1]], [made[1][1], made[4][1]])
        self.assertEqual(len({package for _, package, _ in made}), 3)
        self.assertEqual([library and type(library).__name__ for _, _, library in made], [None, None, "Sent", "Sent", "AtPath"])
        self.assertEqual(Path(made[0][0]).read_bytes(), Path(made[1][0]).read_bytes())

    @needs_cc
    def test_a_library_is_loaded_from_it(self) -> None:
        path = self.path("stand-in.so")
        subprocess.run(["cc", "-shared", "-fPIC", "-O1", "-o", path, STAND_IN], check=True)
        for library, loads in ((path, True), (COPYRIGHT, False)):
            made, package, sent = self.made(AtPath(library), f"made-{loads}")
            assert isinstance(sent, Sent)
            script = (
                f"import sys, os, tempfile; sys.path.insert(0, {made!r})\nfrom {package}.asking.archive import Sent\n"
                f"before = os.listdir(tempfile.gettempdir())\nlibrary = Sent({package!r}, {sent.digest!r}).load()\n"
                f"assert (library is not None) == {loads}\nassert library is Sent({package!r}, {sent.digest!r}).load()\n"
                f"assert library is None or library.answer('check', [b'<TimeML/>'])[0] == 0\n"
                f"assert Sent({package!r}, 'other').load() is None\nassert before == os.listdir(tempfile.gettempdir())\n"
            )
            with tempfile.TemporaryDirectory() as own:
                words, variables = [*BARE, "-c", script], {**os.environ, "TMPDIR": own}
                done = subprocess.run(words, cwd=self.folder, env=variables, capture_output=True, check=False)
            self.assertEqual((done.returncode, done.stderr), (0, b""))


COPYRIGHT = os.path.join(TOP, "README.md")
"""A file that is no library."""


class OnACluster(ClusterTest, LibraryTest):
    @needs_library
    def test_same_bytes(self) -> None:
        self.files()
        self.files("e")
        rows = ["check --lint --more 1 d", "check --clashes --format json d", "clashes --repair d", "agree --links d e"]
        for row in rows:
            with self.subTest(row):
                one = self.run_bytes(*row.split(), "--no-library", python=WITH_PACKAGES)
                self.assertEqual(self.run_bytes(*row.split(), "--library", LIBRARY, "--cluster", self.address, python=WITH_PACKAGES), one)

    @needs_cc
    def test_it_is_the_library_that_answers(self) -> None:
        self.write("bad.xml", FAULTY)
        self.write("wrong.so", "no library")
        rows = [(f"--library {self.stand_in()}", 0), ("", 1), ("--no-library", 1), ("--library wrong.so", 1), ("--library libgone.so.7", 1)]
        for words, status in rows:
            with self.subTest(words):
                found = self.run_bytes("check", *words.split(), "--cluster", self.address, "bad.xml", python=WITH_PACKAGES)
                self.assertEqual((found[0], found[2]), (status, b""), found)
        # Where nothing is said it is the one that was built.
        found = self.run_bytes("check", "--cluster", self.address, "bad.xml", tml=None, tools=self.tools(), python=WITH_PACKAGES)
        self.assertEqual((found[0], found[2]), (0, b""), found)
        # A program has to be there all the same.
        named = ["--library", self.stand_in(), "--cluster", self.address]
        status, _, error = self.run_bytes("check", *named, "bad.xml", tml="/no/such/tml", python=WITH_PACKAGES)
        self.assertEqual(status, 2)
        self.assertIn(b"no program /no/such/tml at 2 of 2 workers", error)

    @needs_cc
    def test_a_file_that_ends_its_worker(self) -> None:
        for number in range(40):
            self.write(f"d/{number:02}.xml", "<TimeML/>\n" + "<!--crash-->\n" * (number == 20))
        status, out, _ = self.run_bytes("check", "--library", self.stand_in(), "--cluster", self.address, "d", python=WITH_PACKAGES)
        lines = out.decode().splitlines()
        self.assertEqual(status, 2)
        self.assertTrue(lines[0].startswith("d/20.xml: not judged: the process that examined it"), lines)
        self.assertEqual(lines[1], "40 files: 39 accepted, 0 with a fault, 1 not judged")


if __name__ == "__main__":
    unittest.main()
