"""What the companions take for hard documents of a tenth of the limits; `python3 python/tests/costs.py` measures whole ones."""

from __future__ import annotations

import os
import unittest
from collections.abc import Iterable

from corpus import TML
from costly import BROKEN, NETS, SHORT, TEXTS
from costs import COMMANDS, PACKAGE, breach

SHARE = 0.1
TOO_SLOW = "bad identifiers, short"
"""Here `fix` takes more than it may: in each of its 64 rounds about fifty processes of `tml` are asked."""

ONE_NET, ONE_TEXT = "a ring of instances, and references in their one EVENT", "an EVENT of very many attributes"


@unittest.skipUnless(os.access(TML, os.X_OK), f"no program {TML}: build it as README.md says, or name one by TML=PROGRAM")
class Costs(unittest.TestCase):
    """No command takes more than its share, nor grows faster than its document. Only a machine that is busy for long would fail this."""

    maxDiff = None

    def keep_within(self, commands: Iterable[str], shapes: Iterable[str]) -> None:
        """Each command over each shape."""
        found = [breach(command, shape, SHARE) for shape in shapes for command in commands]
        self.assertEqual([one for one in found if one is not None], [])

    def test_every_command(self) -> None:
        self.keep_within([*COMMANDS, *PACKAGE], [ONE_NET])
        self.keep_within(["check --lint", "check --clashes --more 20", "report", "serve", "tml.read", "tml-edit"], [ONE_TEXT])

    def test_nets(self) -> None:
        self.keep_within(["check --clashes --more 20", "report"], NETS)

    def test_texts(self) -> None:
        self.keep_within(["check --lint", "tml.read"], TEXTS)

    def test_faults(self) -> None:
        self.keep_within(["serve"], BROKEN)

    def test_fixes(self) -> None:
        self.keep_within(["fix"], [shape for shape in SHORT if shape != TOO_SLOW])


if __name__ == "__main__":
    unittest.main()
