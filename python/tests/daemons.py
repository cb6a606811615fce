"""A Dask scheduler and its workers, which a test starts and ends.

They need the module `distributed` (of Debian: python3-distributed).
"""

import importlib.util
import os
import subprocess
import tempfile
import unittest

from corpus import TML, CorpusTest, text_at
from processes import PATIENCE, WITH_PACKAGES, until, with_own_bytecode


class Daemons:
    """A scheduler and workers, which stay in a folder of theirs; a worker sees `tml-of-workers` on its PATH."""

    def __init__(self) -> None:
        self.held = tempfile.TemporaryDirectory()
        self.folder = self.held.name
        self.children: list[subprocess.Popen[bytes]] = []
        os.symlink(os.path.abspath(TML), os.path.join(self.folder, "tml-of-workers"))
        self.file = os.path.join(self.folder, "scheduler.json")
        self.start("scheduler", "--port", "0", "--host", "127.0.0.1", "--dashboard-address", "127.0.0.1:0")

    def start(self, kind: str, *words: str) -> tuple[subprocess.Popen[bytes], str]:
        """Starts a scheduler or a worker, and answers it with the file that has what it says."""
        environment = {
            **with_own_bytecode(),
            "DASK_DISTRIBUTED__SCHEDULER__ALLOWED_FAILURES": "1",
            "PATH": self.folder + os.pathsep + os.environ["PATH"],
        }
        log = os.path.join(self.folder, f"{len(self.children)}.log")
        with open(log, "wb") as file:
            child = subprocess.Popen(
                [*WITH_PACKAGES, "-m", f"distributed.cli.dask_{kind}", "--scheduler-file", self.file, *words],
                cwd=self.folder,
                env=environment,
                stdin=subprocess.DEVNULL,
                stdout=file,
                stderr=file,
            )
        self.children.append(child)
        return child, log

    def workers(self, number: int, *words: str) -> list[subprocess.Popen[bytes]]:
        """Starts workers, and waits until the scheduler knows them."""
        begun = [self.start("worker", "--host", "127.0.0.1", "--nthreads", "1", "--no-dashboard", *words) for _ in range(number)]
        until(lambda: all("Registered to" in text_at(log) for _, log in begun))
        return [child for child, _ in begun]

    def address(self) -> str:
        """Where the scheduler can be reached, once it can."""
        until(lambda: os.path.exists(self.file) and text_at(self.file).endswith("}"))
        return next(line.split('"')[3] for line in text_at(self.file).splitlines() if '"address"' in line)

    def end(self) -> None:
        """Ends the workers and then the scheduler, by their own ids."""
        for child in reversed(self.children):
            child.terminate()
            try:
                child.wait(PATIENCE)
            except subprocess.TimeoutExpired:
                child.kill()
                child.wait()
        self.held.cleanup()


needs_distributed = unittest.skipUnless(importlib.util.find_spec("distributed"), "no module distributed: install python3-distributed")


@needs_distributed
class ClusterTest(CorpusTest):
    """A test with a cluster of two workers."""

    daemons: Daemons
    address: str

    @classmethod
    def setUpClass(cls) -> None:
        cls.daemons = Daemons()
        cls.addClassCleanup(cls.daemons.end)
        cls.address = cls.daemons.address()
        cls.daemons.workers(2)
