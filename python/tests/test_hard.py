"""The documents of bench/hard.py, which `tml check` accepts at a small size, but for those that are to have a fault; and the nets of
bench/clashes.py, of which `tml` cites minimal clashes."""

from __future__ import annotations

import os
import subprocess
import sys
import unittest
from pathlib import Path

from corpus import TML, TOP

PART = 64
"""The part of the sizes that are measured: documents of four intervals, or of 16 KiB."""


@unittest.skipUnless(os.access(TML, os.X_OK), f"no program {TML}")
class Hard(unittest.TestCase):
    def printed(self, script: str, *words: str) -> str:
        """What a script of `bench` prints of the program under test."""
        command = [sys.executable, "-B", str(Path(TOP, "bench", script)), "--tml", TML, *words]
        run = subprocess.run(command, stdin=subprocess.DEVNULL, capture_output=True, text=True, check=False)
        self.assertEqual((run.returncode, run.stderr), (0, ""), run.stdout)
        return run.stdout

    def test_documents_are_accepted(self) -> None:
        self.assertRegex(self.printed("hard.py", "--accepted", "--divide", str(PART)), r"^\d{3} shapes\n$")

    def test_clashes_are_minimal(self) -> None:
        self.assertRegex(self.printed("clashes.py", "--nets", "10", "--starts", "2"), r"\ntml .*\nbest ")


if __name__ == "__main__":
    unittest.main()
