"""Runs the program itself: a process for each case, over files in a folder, with the devices of the case."""

from __future__ import annotations

import os
import shutil
import subprocess
import tempfile
import threading
from collections.abc import Iterator, Mapping, Sequence
from contextlib import AbstractContextManager, contextmanager
from pathlib import Path
from types import TracebackType
from typing import IO

from differential.cases import STANDARD_INPUT, Case, Output, Real
from reference import Outcome

TOP = Path(__file__).resolve().parents[3]
SECONDS = 60
NEVER_ENDED = -9999
"""The status where tables were not run to their end."""


def program_path() -> Path:
    """The program: that of the variable TML, or the one that was built."""
    return Path(os.environ.get("TML") or TOP / "crates" / "tml" / "out" / "tml").absolute()


def rows_path() -> Path:
    """The program that runs tables of cases: that of the variable TML_ROWS, or the one that was built."""
    return Path(os.environ.get("TML_ROWS") or TOP / "crates" / "command_rows" / "out" / "command_rows").absolute()


STANDARD_ERROR = b"\nstandard error: "
"""What stands before the text of standard error, which is to be empty, after that of standard output."""


class Programs(AbstractContextManager["Programs"]):
    """Runs cases one after another in a folder of its own, perhaps with another environment."""

    def __init__(self, program: Path, environment: Mapping[str, str] | None = None) -> None:
        self.program = program
        self.environment = environment
        self.folder = Path(tempfile.mkdtemp(prefix="differential-"))

    def __exit__(self, kind: type[BaseException] | None, error: BaseException | None, trace: TracebackType | None) -> None:
        shutil.rmtree(self.folder, ignore_errors=True)

    def outcomes(self, cases: Sequence[Case]) -> list[Outcome]:
        """What the program answers to each case."""
        return [self.outcome(case) for case in cases]

    def outcome(self, case: Case) -> Outcome:
        """What the program answers to a case without devices in memory."""
        real = case.real or Real()
        made = [self.folder / os.fsdecode(name) for name in case.files if name != STANDARD_INPUT]
        for path, name in zip(made, (name for name in case.files if name != STANDARD_INPUT), strict=True):
            path.write_bytes(case.files[name])
        folders = [self.folder / os.fsdecode(name) for name in real.folders]
        for folder in folders:
            folder.mkdir()
        try:
            return self.run(case, real)
        finally:
            for path in made:
                path.unlink()
            for folder in folders:
                folder.rmdir()

    def run(self, case: Case, real: Real) -> Outcome:
        """Runs the program where its files are there."""
        command = [os.fsencode(self.program), *case.words]
        closed = ("<&- " if real.input_closed else "") + (">&-" if real.output == Output.CLOSED else "")
        if closed:
            command = [b"/bin/sh", b"-c", b'exec "$0" "$@" ' + closed.encode(), *command]
        with self.standard_input(case) as given, standard_output(real) as taken:
            # SIGPIPE stays ignored, as it is in Python. Without anything to do before it starts, a child needs no fork.
            child = subprocess.Popen(
                command,
                cwd=self.folder,
                env=self.environment,
                stdin=given,
                stdout=taken,
                stderr=subprocess.PIPE,
                close_fds=False,
                restore_signals=False,
            )
            # A wait with a limit would look at the child only now and then, so a timer ends it instead.
            end = threading.Timer(SECONDS, child.kill)
            end.start()
            text, error = child.communicate()
            end.cancel()
        return Outcome(child.returncode, (text or b"") + (STANDARD_ERROR + error if error else b""))

    @contextmanager
    def standard_input(self, case: Case) -> Iterator[IO[bytes]]:
        """What standard input holds; where it is not among the files, reading it fails."""
        if STANDARD_INPUT in case.files:
            with tempfile.TemporaryFile(dir=self.folder) as file:
                file.write(case.files[STANDARD_INPUT])
                file.seek(0)
                yield file
        else:
            with Path(os.devnull).open("wb") as file:
                yield file


@contextmanager
def standard_output(real: Real) -> Iterator[int | IO[bytes]]:
    """Where the text goes: a pipe that is read, a full device, or a pipe that nobody reads, where SIGPIPE is ignored."""
    if real.output == Output.FULL:
        with Path("/dev/full").open("wb") as full:
            yield full
    elif real.output == Output.GONE:
        reading, writing = os.pipe()
        os.close(reading)
        try:
            yield writing
        finally:
            os.close(writing)
    else:
        yield subprocess.PIPE
