"""`tml` where memory is refused: an allocation of each few, in runs that take every path. `refused_memory.py` refuses all of them."""

from __future__ import annotations

import tempfile
import unittest
from pathlib import Path

from corpus import TML
from refused_memory import reason_to_skip, refuse_memory, runs

STRIDE = 14


class RefusedMemory(unittest.TestCase):
    def test_each_run_answers_as_ever_or_says_that_there_is_no_memory(self) -> None:
        program = Path(TML).absolute()
        with tempfile.TemporaryDirectory() as folder:
            reason = reason_to_skip(Path(folder), program)
        if reason is not None:
            self.skipTest(reason)
        found = refuse_memory(program, STRIDE, list(runs()))
        self.assertEqual(found.deviations, [], found.line())
        self.assertGreater(found.no_memory, 0)


if __name__ == "__main__":
    unittest.main()
