"""What the attacks on the companions share: the commands, and runs of them with what they take."""

import math
import os
import subprocess
import sys
from collections.abc import Callable, Sequence
from dataclasses import dataclass
from typing import IO

from corpus import CLASH, TML, TOOLS, CorpusTest, document
from forked import run_forked
from processes import BARE, PATIENCE

Stream = int | IO[bytes] | None

ENVIRONMENT = {**os.environ, "PYTHONIOENCODING": "utf-8", "PYTHONDONTWRITEBYTECODE": "1"}

COMMANDS = (
    "tml-corpus check --tml TML a.xml",
    "tml-corpus check --format json --tml TML a.xml",
    "tml-corpus check --format junit --tml TML a.xml",
    "tml-corpus check --format github --tml TML a.xml",
    "tml-corpus clashes --tml TML a.xml",
    "tml-corpus tags --tml TML a.xml",
    "tml-corpus timeline --tml TML good.xml -o good.svg",
    "redundant-links --tml TML good.xml",
    "tml-edit --tml TML --unwrap P good.xml",
    "tml-corpus check --lint --clashes --tml TML a.xml",
    "tml-corpus fix --tml TML a.xml",
    "tml-corpus agree --links --tml TML good.xml good.xml",
    "tml-corpus seconds --tml TML good.xml",
    "tml-corpus report --tml TML a.xml -o pages",
)
"""Commands that ask `tml`; of a.xml each has something to tell."""

OTHER_COMMANDS = ("html-entities", "from-tempeval2 --help", "tml-corpus --help", "tml-edit --help")

MEASURING = """
import os, sys
child = os.posix_spawn(sys.argv[2], sys.argv[2:], os.environ)
_, status, used = os.wait4(child, 0)
with open(sys.argv[1], "w") as out:
    print(os.waitstatus_to_exitcode(status), used.ru_utime + used.ru_stime, used.ru_maxrss, file=out)
"""
"""A small program that runs another one and says what it took. The memory of a process counts from that of the one that starts it on."""


@dataclass
class Ended:
    """How a program ended: its status, what it printed, and what it took of time and memory with the programs that it ran."""

    status: int
    out: str
    error: str
    seconds: float = math.nan
    mebibytes: float = math.nan


class AttackTest(CorpusTest):
    def setUp(self) -> None:
        super().setUp()
        self.write("a.xml", document(CLASH + "<EVENT/>"))
        self.write("good.xml", document(CLASH.replace("BEFORE", "IDENTITY")))
        self.write("clash.xml", document(CLASH))

    def begin(
        self,
        command: str,
        tml: str = TML,
        before: Sequence[str] = (),
        *,
        stdin: Stream = subprocess.DEVNULL,
        stdout: Stream = subprocess.PIPE,
        stderr: Stream = subprocess.PIPE,
        preexec_fn: Callable[[], object] | None = None,
        umask: int = -1,
    ) -> subprocess.Popen[bytes]:
        """Starts a command of a table in the folder, behind the words of a program that starts it, if there are some."""
        name, *words = [os.path.abspath(tml) if word == "TML" else word for word in command.split(" ")]
        return subprocess.Popen(
            [*before, *BARE, os.path.join(TOOLS, name), *words],
            cwd=self.folder,
            env=ENVIRONMENT,
            stdin=stdin,
            stdout=stdout,
            stderr=stderr,
            preexec_fn=preexec_fn,
            umask=umask,
        )

    def ended(
        self,
        command: str,
        tml: str = TML,
        *,
        stdin: Stream = subprocess.DEVNULL,
        stderr: Stream = subprocess.PIPE,
        preexec_fn: Callable[[], object] | None = None,
        umask: int = -1,
    ) -> Ended:
        """Runs a command of a table. Its output is read from files, so that what it took is known from its end."""
        used = self.path("used")
        before = () if preexec_fn else (sys.executable, "-ISc", MEASURING, used)
        with open(self.path("out"), "wb") as out, open(self.path("error"), "wb") as error:
            said = error if stderr == subprocess.PIPE else stderr
            child = self.begin(command, tml, before, stdin=stdin, stdout=out, stderr=said, preexec_fn=preexec_fn, umask=umask)
            ended = child.wait(PATIENCE)
        printed, complained = (self.taken(name).decode("utf-8", "replace") for name in ("out", "error"))
        if not before:
            return Ended(ended, printed, complained)
        status, seconds, kibibytes = self.taken("used").split()
        return Ended(int(status), printed, complained, float(seconds), int(kibibytes) / 1024)

    def called(self, command: str, *names: str, tml: str = TML) -> Ended:
        """Runs a command of a table, on further names, where it shows nothing how its process begins, or how long it takes."""
        name, *words = [os.path.abspath(tml) if word == "TML" else word for word in command.split(" ")]
        ended = run_forked(os.path.join(TOOLS, name), *words, *names, folder=self.folder)
        return Ended(ended.status, ended.out.decode(), ended.error.decode(), mebibytes=ended.mebibytes)

    def taken(self, name: str) -> bytes:
        """The content of a file, which is taken away."""
        content = self.read_bytes(name)
        os.unlink(self.path(name))
        return content
