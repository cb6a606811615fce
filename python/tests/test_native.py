"""tml for ARM and for Windows: how it is made, that its program and its heap in C answer as `tml` does, and how a release tries them."""

from __future__ import annotations

import io
import os
import re
import shutil
import subprocess
import tarfile
import tempfile
import unittest
from collections.abc import Iterator
from contextlib import redirect_stdout
from pathlib import Path
from random import Random
from unittest import mock

from building import native, retargeting
from building.compiling import ARCHIVE
from building.linking import CannotMake
from copied_tool import Copy, clang, handing
from corpus import TML, TOOLS, TOP, needed, text_at
from differential.cases import Case, Output, Real
from differential.drawing import draw_case
from differential.words import DOCUMENT
from processes import BARE, PATIENCE
from refused_memory import reason_to_skip, refuse_memory, runs
from releasing import emulated
from releasing.emulated import EMULATORS, Piped, Tried, is_not_for_windows, try_natives
from releasing.hard_cases import hard_cases, of_devices
from tml.statuses import DOCUMENT_LIMIT, TmlStatus

BUILD = os.path.join(TOOLS, "native", "build")
CASES = 100
REFUSED = ("no words", "no form", "read fault", "join", "verify, two claims", "drill 2")
"""The runs in which each allocation is refused: they read no file, one and two, and standard input."""

MODULE = f"""{retargeting.TARGET}
declare <16 x i8> {retargeting.SHUFFLE}(<16 x i8>, <16 x i8>)
define <16 x i8> @tml_answer(<16 x i8> %lanes, <16 x i8> %places) #0 {{
  %answer = call <16 x i8> {retargeting.SHUFFLE}(<16 x i8> %lanes, <16 x i8> %places)
  ret <16 x i8> %answer
}}
attributes #0 = {{ "probe-stack"="inline-asm" "stack-probe-size"="4096" {retargeting.PROCESSOR} }}
"""
"""A module that has what is rewritten, as text."""

CROSS = """case $1 in -print-file-name=*) echo "/${1#*=}"; exit;; esac
parts= compiles=
while [ $# -gt 1 ]; do
  case $1 in -c) compiles=$2; shift;; -o) made=$2; shift;; *.o) parts="$parts $1";; esac
  shift
done
if [ "$compiles" ]; then cp "$compiles" "$made"; else cat $parts >"$made"; fi"""
"""A cross compiler that compiles nothing, and puts parts one after the other for linking them."""

MACHINES = {"tml-aarch64": b"\xb7\x00", "libtml-aarch64.so": b"\xb7\x00", "tml.exe": b"\x64\x86"}
"""How the first part of each file names its processor: from byte 18 on for ARM, and from byte 0 on for Windows."""

needs_kit = unittest.skipUnless(shutil.which("rt"), "no rt")
needs_compiler = unittest.skipUnless(shutil.which("cc"), "not installed: gcc")
needs_built = unittest.skipUnless(
    ARCHIVE.is_file() and os.access(TML, os.X_OK), f"no {ARCHIVE} or no program {TML}: rt ci and tools/library/build make them"
)


FORM = re.compile(r"^tml (\w+)(.*)$", re.MULTILINE)
ROW = re.compile(r'^    \{"(\w+)", (\d), \{([^}]*)\}\},$', re.MULTILINE)
"""A form of the usage text, and a row of the table of the program in C."""

ROLE_OF = {"DOC": "DOCUMENT", "KEY": "DOCUMENT", "EVIDENCE": "EVIDENCE", "SECOND": "EVIDENCE", "SECONDS": "EVIDENCE"}
"""What the arguments of a form that name files stand for."""


class Needed(unittest.TestCase):
    def test_what_is_missing(self) -> None:
        words, variables = [*BARE, BUILD, "folder"], {"PATH": "", "PYTHONDONTWRITEBYTECODE": "1"}
        done = subprocess.run(words, env=variables, capture_output=True, text=True, check=False, timeout=60)
        self.assertEqual((done.returncode, done.stdout, done.stderr), (1, "", "build: not installed: rt\n"))

    def test_help_has_an_example(self) -> None:
        done = subprocess.run([*BARE, BUILD, "--help"], capture_output=True, text=True, check=True, timeout=60)
        self.assertIn("Example", done.stdout)


@needs_kit
class Build(unittest.TestCase):
    """A copy of the tool, with a kit whose prover hands out a small module, and stand-ins for cross compilers."""

    def setUp(self) -> None:
        self.copy = Copy()
        self.addCleanup(self.copy.held.cleanup)
        self.made = self.copy.top / "made/here"
        (self.copy.top / "tools of the system").mkdir()
        for name in ("cat", "cp"):
            os.symlink(shutil.which(name) or name, self.copy.top / "tools of the system" / name)

    def build(self, *systems: native.System, module: str = MODULE) -> tuple[int, list[str], list[str]]:
        """The status and both streams, with the cross compilers of some systems."""
        for system in systems:
            self.copy.program(system.compiler, CROSS)
        text, bitcode = self.copy.top / "given.ll", self.copy.top / "given.bc"
        text.write_text(module, encoding="utf-8")
        subprocess.run([clang(), "-c", "-emit-llvm", "-Wno-override-module", "-x", "ir", text, "-o", bitcode], check=True)
        return self.copy.build("tools/native/build", handing(bitcode), str(self.copy.top / "tools of the system"))

    def contents(self) -> dict[str, bytes]:
        """The files that were made."""
        return {path.name: path.read_bytes() for path in self.made.iterdir()}

    def test_all_files_and_the_same_bytes_at_another_place(self) -> None:
        self.assertEqual(self.build(*native.SYSTEMS), (0, [f"{self.made}/{name}" for name in MACHINES], []))
        contents = self.contents()
        self.assertEqual(set(contents), set(MACHINES))
        for name, machine in MACHINES.items():
            place = 0 if name.endswith(".exe") else 18
            self.assertEqual(contents[name][place : place + 2], machine, name)
            self.assertNotIn(bytes(self.copy.top), contents[name])
        self.assertIn(b"tml_shuffle", contents["tml-aarch64"])
        self.assertNotIn(b"tml_shuffle", contents["tml.exe"])
        self.assertTrue(all(os.access(self.made / name, os.X_OK) for name in ("tml-aarch64", "tml.exe")))
        self.setUp()
        self.assertEqual(self.build(*native.SYSTEMS)[0], 0)
        self.assertEqual(self.contents(), contents)

    def test_without_a_cross_compiler_the_rest_is_made(self) -> None:
        arm = "build: without tml-aarch64, libtml-aarch64.so: `apt-get install gcc-aarch64-linux-gnu libc6-dev-arm64-cross` installs"
        self.assertEqual(self.build(native.WINDOWS), (0, [f"{self.made}/tml.exe"], [f"{arm} what they need"]))
        self.assertEqual(set(self.contents()), {"tml.exe"})

    def test_without_any_cross_compiler(self) -> None:
        status, said, told = self.build()
        self.assertEqual((status, said, len(told), self.made.exists()), (1, [], 1, False))
        packages = "gcc-aarch64-linux-gnu libc6-dev-arm64-cross gcc-mingw-w64-x86-64-posix"
        self.assertRegex(told[0], f"^build: without .*: `apt-get install {packages}` installs what they need$")

    def test_a_cross_compiler_without_the_library_of_c(self) -> None:
        self.copy.program(native.ARM.compiler, 'echo "${1#*=}"')
        status, said, told = self.build(native.WINDOWS)
        self.assertEqual((status, said, len(told)), (0, [f"{self.made}/tml.exe"], 1))

    def test_another_module(self) -> None:
        status, said, told = self.build(*native.SYSTEMS, module=MODULE.replace(retargeting.PROCESSOR, ""))
        self.assertEqual((status, said, told), (1, [], [f"build: the module of rattle has no {retargeting.PROCESSOR!r}"]))


@needs_compiler
@needs_built
class Program(unittest.TestCase):
    """The program and the heap in C, compiled for this machine and linked with the proved code, next to `tml`."""

    folder: Path
    program: Path

    @classmethod
    def setUpClass(cls) -> None:
        held = tempfile.TemporaryDirectory(prefix="native-")
        cls.addClassCleanup(held.cleanup)
        cls.folder = Path(held.name)
        cls.program = cls.folder / "tml"
        flags = ["-std=gnu17", "-O1", "-Wall", "-Wextra", "-Werror", "-I", str(native.HEADERS)]
        sources = [str(native.IN_C[part]) for part in (native.MAIN, native.HEAP)]
        subprocess.run(["cc", *flags, *sources, str(ARCHIVE), "-o", str(cls.program)], check=True)

    def tried(self, cases: Iterator[Case]) -> Tried:
        """Both programs over some cases: the texts have to be the same byte for byte."""
        with Piped(Path(TML).absolute()) as here, Piped(self.program) as there:
            tried = Tried(here, there, lambda case: False)
            for case in cases:
                tried.take(case)
        self.assertEqual(tried.free, 0)
        return tried

    def test_hard_cases(self) -> None:
        count = sum(all(b"\0" not in word for word in case.words) for case in hard_cases())
        self.assertEqual(self.tried(hard_cases()).count, count)

    def test_drawn_cases(self) -> None:
        drawn = (draw_case(Random(f"native/{number}")) for number in range(CASES))
        tried = self.tried(case for case in drawn if case.memory is None)
        self.assertGreater(tried.count, CASES / 2)
        self.assertGreater(len(tried.written), 3)

    def test_memory_that_is_refused(self) -> None:
        self.assertIsNone(reason_to_skip(self.folder, self.program))
        chosen = [case for case in runs() if case.subject in REFUSED]
        found = refuse_memory(self.program, 1, chosen)
        self.assertEqual((found.deviations, found.ended_at_start), ([], 0), found.line())
        self.assertEqual(found.runs, len(REFUSED))
        self.assertGreater(found.no_memory, 0)

    def test_a_file_that_is_not_reached(self) -> None:
        fifo, faulty = self.folder / "fifo", self.folder / "faulty"
        os.mkfifo(fifo)
        faulty.write_bytes(b"<")
        done = subprocess.run([self.program, "verify", faulty, fifo], capture_output=True, check=False, timeout=PATIENCE)
        self.assertEqual((done.returncode, done.stdout), (1, b"fault 3 BadMarkup 0\n"))

    def test_no_more_is_read_than_the_limit(self) -> None:
        for program in (Path(TML), self.program):
            with self.subTest(program), subprocess.Popen([program, "check", "-"], stdin=subprocess.PIPE, stdout=subprocess.PIPE) as child:
                given = needed(child.stdin)
                given.write(b" " * (DOCUMENT_LIMIT + 1))
                given.flush()
                self.assertEqual((child.wait(PATIENCE), needed(child.stdout).read()), (9, b"too long DOC\n"))

    def test_an_output_that_nobody_reads(self) -> None:
        for program in (Path(TML), self.program):
            reading, writing = os.pipe()
            os.close(reading)
            done = subprocess.run([program, "drill", "2"], stdout=writing, check=False, timeout=PATIENCE)
            os.close(writing)
            self.assertEqual(done.returncode, TmlStatus.WRITE_FAULT, program)

    def test_which_arguments_name_files(self) -> None:
        usage = subprocess.run([TML, "no form"], capture_output=True, text=True, check=False).stdout
        wanted = {command: [ROLE_OF[word] for word in words.split() if word in ROLE_OF] for command, words in FORM.findall(usage)}
        rows = ROW.findall(text_at("native/main.c"))
        listed = {command: roles.split(", ")[: int(count)] for command, count, roles in rows}
        self.assertEqual({command: listed.get(command, ["DOCUMENT"]) for command in wanted}, wanted)
        self.assertLess(set(listed), set(wanted))


@needs_compiler
@needs_built
class Emulated(unittest.TestCase):
    """A release is tried with a stand-in for qemu, which runs a program as it is."""

    def setUp(self) -> None:
        held = tempfile.TemporaryDirectory(prefix="emulated-")
        self.addCleanup(held.cleanup)
        self.folder = Path(held.name)
        self.put("linux-x86_64", Path(TML).read_bytes())
        stand_in = self.folder / "bin/qemu-aarch64"
        stand_in.parent.mkdir()
        stand_in.write_text('#!/bin/sh\nexec "$@"\n', encoding="utf-8")
        stand_in.chmod(0o755)
        self.enterContext(mock.patch.dict(os.environ, PATH=f"{stand_in.parent}:{os.environ['PATH']}"))

    def put(self, machine: str, program: bytes) -> None:
        """Puts a tar file with a program into the release."""
        with tarfile.open(self.folder / f"tml-1.0.0-{machine}.tar.gz", "w:gz") as archive:
            entry = tarfile.TarInfo("tml-1.0.0/bin/tml")
            entry.size = len(program)
            archive.addfile(entry, io.BytesIO(program))

    def said(self, count: int = 40) -> str:
        """What is printed when the release is tried by so many drawn cases, without those that are long."""
        with redirect_stdout(io.StringIO()) as printed, mock.patch.object(emulated, "hard_cases", of_devices):
            try_natives(self.folder, count, EMULATORS[:1])
        return printed.getvalue()

    def test_the_same_program(self) -> None:
        self.put("linux-aarch64", Path(TML).read_bytes())
        self.assertRegex(self.said(), r"-linux-aarch64.tar.gz: [4-6]\d answers under qemu-aarch64 are right, 0 of them other free texts")

    def test_a_program_that_answers_something_else(self) -> None:
        self.put("linux-aarch64", b"#!/bin/sh\necho fault\n")
        with self.assertRaisesRegex(CannotMake, r"run answers status 0, b'fault\\n' to "):
            self.said()

    def test_free_texts(self) -> None:
        document = Path(TOP, "samples/port.xml").read_bytes()
        with Piped(Path(TML).absolute()) as programs:
            tried, case = Tried(programs, programs, lambda case: False), Case("", (b"solve", DOCUMENT), {DOCUMENT: document})
            clash = programs.outcome(case).text
            self.assertTrue(tried.is_accepted(case, clash))
            self.assertFalse(tried.is_accepted(case, clash.replace(b"cite 4\n", b"cite 3\n")))
            self.assertFalse(tried.is_accepted(case, b"fault\n"))

    def test_a_release_without_them(self) -> None:
        self.assertEqual(self.said(), f"{self.folder}: no tml-*-linux-aarch64.tar.gz, so qemu-aarch64 ran nothing\n")


class ForWindows(unittest.TestCase):
    def test_what_is_another_case_there(self) -> None:
        rows = [
            (Case("", (b"check", "é 語.xml".encode())), False),
            (Case("", (b"check", b"\xff")), True),
            (Case("", (b"check", b"D.xml"), {b"d.xml": b""}), True),
            (Case("", (b"check", b"d.xml "), {b"d.xml": b""}), True),
            (Case("", (b"check", b"d.xml"), {b"d.xml": b""}), False),
            (Case("", (b"check",) * 10_000), True),
            (Case("", (b"check", b"-"), real=Real(input_closed=True)), True),
            (Case("", (b"drill", b"1"), real=Real(Output.CLOSED)), True),
            (Case("", (b"drill", b"1"), real=Real(Output.FULL)), False),
        ]
        self.assertEqual([is_not_for_windows(case) for case, _ in rows], [wanted for _, wanted in rows])


if __name__ == "__main__":
    unittest.main()
