"""The programs of `tools/`, run in processes that are forked from this one: what they import is there already.

Such a run does what a process of its own does, as `test_forked.py` compares. How a process begins, and what time it takes, it does not
show.
"""

from __future__ import annotations

import gc
import importlib.util
import io
import math
import os
import re
import runpy
import select
import signal
import subprocess
import sys
import tempfile
import traceback
from collections.abc import Mapping, Sequence
from dataclasses import dataclass, field
from pathlib import Path
from typing import IO, NoReturn

from processes import PATIENCE
from tml_corpus.command_line.launch import MODULES

LATER = ("pickle", "tml.library")
"""What most runs of `tml-corpus` import only where they need it."""

LAUNCHED = re.compile(r"^ *from tml_corpus\.command_line\.launch import (\w+)$", re.MULTILINE)
"""The line of a launcher that says which program it starts."""

Streams = tuple[IO[bytes], IO[bytes], IO[bytes]]
"""What standard input, standard output and standard error are."""


@dataclass(frozen=True)
class Ended:
    """How a program ended: its status, or the signal with a minus sign, what it printed, and how much memory it had at most.

    The memory is that of the process from which it was forked and what came to it, or that of a program which it ran: a process of its own
    takes less.
    """

    status: int
    out: bytes
    error: bytes
    mebibytes: float = field(default=math.nan, compare=False)


class Forked:
    """A process that goes on as a program of Python with some words in a folder."""

    def __init__(self, command: Sequence[str], folder: str, streams: Streams, environment: Mapping[str, str] = os.environ) -> None:
        import_ahead(*command[:2])
        self.command = command
        self.number = os.fork()
        if self.number == 0:
            become(command, folder, streams, dict(environment))
        self.ending = os.pidfd_open(self.number)
        self.status: int | None = None
        self.mebibytes = math.nan

    def wait(self, patience: float) -> int:
        """Waits for the end, and answers the status, or the signal with a minus sign."""
        if self.status is None:
            if not select.select([self.ending], [], [], patience)[0]:
                raise subprocess.TimeoutExpired(self.command, patience)
            _, status, used = os.wait4(self.number, 0)
            self.status, self.mebibytes = os.waitstatus_to_exitcode(status), used.ru_maxrss / 1024
            os.close(self.ending)
        return self.status

    def send_signal(self, number: int) -> None:
        """Sends a signal, where the process has not ended."""
        if self.status is None:
            os.kill(self.number, number)


def run_forked(
    program: str, *words: str, folder: str, given: bytes = b"", environment: Mapping[str, str] = os.environ, patience: float = PATIENCE
) -> Ended:
    """Runs a program to its end, over some standard input."""
    with tempfile.TemporaryFile() as stdin, tempfile.TemporaryFile() as out, tempfile.TemporaryFile() as error:
        stdin.write(given)
        stdin.seek(0)
        child = Forked([program, *words], folder, (stdin, out, error), environment)
        try:
            status = child.wait(patience)
        finally:
            child.send_signal(signal.SIGKILL)
            child.wait(PATIENCE)
        out.seek(0)
        error.seek(0)
        return Ended(status, out.read(), error.read(), child.mebibytes)


def import_ahead(program: str, command: str = "") -> None:
    """Imports what a program does, and what its command needs, so that no later run of this process imports it again."""
    for name in LAUNCHED.findall(Path(program).read_text(encoding="utf-8")):
        importlib.import_module(MODULES[name])
        module = f"tml_corpus.commands.{command}"
        if name == "tml_corpus" and command.isidentifier() and importlib.util.find_spec(module):
            for needed in (module, *LATER):
                importlib.import_module(needed)


def become(command: Sequence[str], folder: str, streams: Streams, environment: Mapping[str, str]) -> NoReturn:
    """Goes on as a program, and ends with its status. Objects of this process stay, so that none closes a file of the program."""
    gc.freeze()
    status = 1
    try:
        for number, stream in enumerate(streams):
            os.dup2(stream.fileno(), number)
        os.closerange(len(streams), os.sysconf("SC_OPEN_MAX"))
        os.chdir(folder)
        os.environ.clear()
        os.environ.update(environment)
        sys.stdin, sys.stdout, sys.stderr = (
            io.TextIOWrapper(io.FileIO(number, mode, closefd=False), "utf-8", write_through=True) for number, mode in enumerate("rww")
        )
        sys.argv[:] = command
        runpy.run_path(command[0], run_name="__main__")
        status = 0
    except SystemExit as end:
        status = end.code if isinstance(end.code, int) else int(end.code is not None)
    except BaseException:
        traceback.print_exc()
    finally:
        os._exit(status)
