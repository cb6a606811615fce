"""A researcher's week over few documents: nothing differs from the reference. `researchers_week.py --whole` has a week over many."""

import os
import unittest
from importlib.util import find_spec
from unittest import mock

from answer_kinds import BY
from corpus import TML
from researchers_week import DAYS, FEW, differences_of_week


@unittest.skipUnless(find_spec("pandas"), "no pandas")
@unittest.skipUnless(os.access(TML, os.X_OK), f"no program {TML}: build it as README.md says, or name one by TML=PROGRAM")
class ResearchersWeek(unittest.TestCase):
    def test_nothing_differs_from_the_reference(self) -> None:
        self.assertEqual(len(DAYS), 6)
        with mock.patch.dict(os.environ, {"TML": TML, "TML_LIBRARY": ""}):
            found = list(differences_of_week(FEW, BY))
        self.assertEqual(found[:20], [])


if __name__ == "__main__":
    unittest.main()
