"""Tries the programs of a release for ARM and for Windows, under qemu and wine: whether they answer what the program for this machine does.

The cases are those of the differential and hard ones, over real files with names that have spaces and letters beyond ASCII; standard input
and output are pipes, or fail. Status and text have to be the same. A text that is free may be another one, if the program for this machine
accepts it as evidence.
"""

from __future__ import annotations

import itertools
import os
import shutil
import subprocess
import tempfile
import threading
from collections.abc import Callable, Iterable, Iterator, Mapping
from contextlib import AbstractContextManager, contextmanager, suppress
from dataclasses import dataclass, replace
from pathlib import Path
from random import Random
from shlex import quote
from typing import IO

from building.linking import CannotMake, need_programs
from building.native import EXECUTABLE
from differential.cases import STANDARD_INPUT, Case, Output
from differential.chances import chance
from differential.devices import draw_real
from differential.drawing import Written, draw_case, draw_of_evidence, is_utf8
from differential.programs import Programs
from differential.words import DOCUMENT, EVIDENCE
from releasing.hard_cases import hard_cases, renamed
from tml.statuses import TmlStatus

CASES = 2000
OF_EVIDENCE, OF_DEVICES = 0.2, 0.05
"""Which share of the cases has evidence that was printed before, and which one has devices that fail."""

CHECKS = {b"tml-evidence ": b"verify", b"tml-seconds ": b"confirm"}
"""How a free text begins, and the command that checks it."""

WINE, WINE_SERVER = "/usr/lib/wine/wine64", "/usr/lib/wine/wineserver64"
PATIENCE = 300
"""How many seconds wine has to make its folder, and to end."""

LONGEST_LINE = 32000
"""About how many bytes a command line of Windows may have."""


class Piped(Programs):
    """Programs whose standard input is a pipe."""

    @contextmanager
    def standard_input(self, case: Case) -> Iterator[IO[bytes]]:
        if STANDARD_INPUT not in case.files:
            with super().standard_input(case) as given:
                yield given
            return
        reading, writing = os.pipe()
        feeding = threading.Thread(target=feed, args=(writing, case.files[STANDARD_INPUT]))
        feeding.start()
        try:
            with open(reading, "rb", buffering=0) as given:
                yield given
        finally:
            feeding.join()


def feed(descriptor: int, content: bytes) -> None:
    """Writes to a pipe, and ends when nobody reads any more."""
    with suppress(BrokenPipeError), open(descriptor, "wb") as pipe:
        pipe.write(content)


@dataclass(frozen=True)
class Emulator:
    """How a program of a release is run here.

    `archive` is a pattern for the file that has it, `program` its path there without the folder of the version, and `needed` is what runs
    it. `runs` makes it ready for cases, except for those for which `cannot` is true.
    """

    archive: str
    program: str
    needed: tuple[str, ...]
    runs: Callable[[Path], AbstractContextManager[Programs]]
    cannot: Callable[[Case], bool]


@contextmanager
def under_qemu(program: Path) -> Iterator[Programs]:
    """A program for ARM."""
    with Piped(wrapped(program, "qemu-aarch64")) as programs:
        yield programs


@contextmanager
def under_wine(program: Path) -> Iterator[Programs]:
    """A program for Windows. All that wine keeps is in the folder of the program."""
    folder = program.parent / "wine"
    folder.mkdir()
    variables = {"WINEPREFIX": str(folder), "WINEDEBUG": "-all", "WINEDLLOVERRIDES": "mscoree,mshtml=", "LC_ALL": "C.UTF-8"}
    environment = {name: value for name, value in os.environ.items() if name != "DISPLAY"} | variables
    # A server that ended after a while would be started anew by a program, and would hold on to what that writes to.
    run_to_end([WINE_SERVER, "--persistent"], environment)
    try:
        run_to_end([WINE, "wineboot", "--init"], environment)
        with Piped(wrapped(program, WINE), environment) as programs:
            yield programs
    finally:
        run_to_end([WINE_SERVER, "--kill"], environment)


def run_to_end(command: list[str], environment: Mapping[str, str]) -> None:
    """Runs a part of wine, which says much on standard error even if all is well."""
    nothing = subprocess.DEVNULL
    done = subprocess.run(command, env=environment, stdin=nothing, stdout=nothing, stderr=nothing, check=False, timeout=PATIENCE)
    if done.returncode != 0:
        raise CannotMake(f"{' '.join(command)} ended with status {done.returncode}")


def wrapped(program: Path, emulator: str) -> Path:
    """A script that runs a program under an emulator."""
    script = program.with_name("run")
    script.write_text(f'#!/bin/sh\nexec {quote(emulator)} {quote(str(program))} "$@"\n', encoding="utf-8")
    script.chmod(0o755)
    return script


def is_closed(case: Case) -> bool:
    """Whether a case closes standard input or output: an emulator opens its own files in their place."""
    return case.real is not None and (case.real.input_closed or case.real.output == Output.CLOSED)


def is_not_for_windows(case: Case) -> bool:
    """Whether a case is another one on Windows: arguments have no bytes that are not UTF-8 there, and are not so long; and a name is that
    of a file too if only the case of its letters, or dots and spaces at its end, are different."""
    files = {alike(name) for name in case.files}
    is_other_file = any(name not in case.files and alike(name) in files for name in case.readings())
    is_long = sum(len(word) + 3 for word in case.words) > LONGEST_LINE
    return is_closed(case) or is_other_file or is_long or not all(map(is_utf8, case.words))


def alike(name: bytes) -> bytes:
    """A name as it is compared on Windows."""
    return name.rstrip(b" .").lower()


EMULATORS = (
    Emulator("tml-*-linux-aarch64.tar.gz", "bin/tml", ("qemu-aarch64",), under_qemu, is_closed),
    Emulator("tml-*-windows-x86_64.zip", EXECUTABLE, (WINE, WINE_SERVER), under_wine, is_not_for_windows),
)


def try_natives(folder: Path, count: int = CASES, emulators: Iterable[Emulator] = EMULATORS) -> None:
    """Tries the programs for other systems that a release has, by so many drawn cases each. What does not pass is an error."""
    for emulator in emulators:
        archive = next(folder.glob(emulator.archive), None)
        if archive is None:
            print(f"{folder}: no {emulator.archive}, so {emulator.needed[0]} ran nothing")
        else:
            need_programs(emulator.needed)
            tried = tried_under(emulator, archive, count)
            print(f"{archive}: {tried.count} answers under {emulator.needed[0]} are right, {tried.free} of them other free texts")


def tried_under(emulator: Emulator, archive: Path, count: int) -> Tried:
    """Tries the program of an archive by the hard cases and so many drawn ones."""
    with tempfile.TemporaryDirectory(prefix="native-") as name:
        here = program_in(archive.parent, "tml-*-linux-x86_64.tar.gz", "bin/tml", Path(name, "here"))
        there = program_in(archive.parent, emulator.archive, emulator.program, Path(name, "there"))
        with Piped(here) as programs, emulator.runs(there) as others:
            tried = Tried(programs, others, emulator.cannot)
            for case in itertools.chain(hard_cases(), (tried.drawn(Random(f"native/{number}")) for number in range(count))):
                tried.take(case)
    return tried


def program_in(release: Path, archive: str, path: str, folder: Path) -> Path:
    """The program at a path in an archive of a release, which is unpacked into a folder."""
    for found in release.glob(archive):
        shutil.unpack_archive(found, folder)
    program = next((one for one in (*folder.glob(path), *folder.glob(f"*/{path}"))), None)
    if program is None:
        raise CannotMake(f"{release} has no {archive} with {path}")
    program.chmod(0o755)
    return program


def document_of(case: Case) -> bytes | None:
    """The document that a case is about, if there is one."""
    names = case.readings() if case.words[:1] not in ((b"renew",), (b"join",)) else []
    return case.files.get(names[0]) if names else None


class Tried:
    """What was tried: how many answers of another system's program were compared, and how many of them are free texts that differ."""

    def __init__(self, here: Programs, there: Programs, cannot: Callable[[Case], bool]) -> None:
        self.here, self.there, self.cannot = here, there, cannot
        self.count = self.free = 0
        self.written: list[Written] = []

    def drawn(self, random: Random) -> Case:
        """A case of the differential, or one about evidence that was printed before."""
        is_of_evidence = self.written and chance(random, OF_EVIDENCE)
        case = replace(draw_of_evidence(random, self.written) if is_of_evidence else draw_case(random), memory=None)
        return renamed(draw_real(random, case) if chance(random, OF_DEVICES) else case)

    def take(self, case: Case) -> None:
        """Compares the answers to a case; if they differ, and both may not be right, that is an error."""
        if self.cannot(case) or any(b"\0" in word for word in case.words):
            return
        wanted, outcome = self.here.outcome(case), self.there.outcome(case)
        self.count += 1
        if outcome != wanted:
            if outcome.status != wanted.status or not self.is_accepted(case, outcome.text):
                shown = [f"status {one.status}, {one.text[:500]!r}" for one in (outcome, wanted)]
                raise CannotMake(f"{self.there.program} answers {shown[0]} to {case.words!r}, and not {shown[1]}: {case!r:.20000}")
            self.free += 1
        document = document_of(case)
        if outcome.text.startswith(b"tml-evidence ") and document is not None:
            self.written.append(Written(document, outcome.text))

    def is_accepted(self, case: Case, text: bytes) -> bool:
        """Whether the program for this machine accepts a text as evidence about the document of a case."""
        command = next((command for begin, command in CHECKS.items() if text.startswith(begin)), None)
        document = document_of(case)
        if command is None or document is None:
            return False
        asked = Case("accepted", (command, DOCUMENT, EVIDENCE), {DOCUMENT: document, EVIDENCE: text})
        return self.here.outcome(asked).status == TmlStatus.DONE
