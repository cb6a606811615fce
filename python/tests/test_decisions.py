"""The page `docs/DECISIONS.md`: that each entry can be taken in at a glance."""

import re
import unittest

from corpus import text_at

LINES, CHARACTERS = 6, 120
"""How many lines an entry has at most, and how many characters each of them."""


class Entries(unittest.TestCase):
    def test_are_short(self) -> None:
        entries = re.findall(r"^### (.*)\n((?:(?!#).*\n?)*)", text_at("docs/DECISIONS.md"), re.MULTILINE)
        self.assertGreater(len(entries), 20)
        for head, text in entries:
            lines = text.split("\n")
            with self.subTest(head):
                self.assertLessEqual(sum(map(bool, lines)), LINES)
                self.assertLessEqual(max(map(len, lines)), CHARACTERS)


if __name__ == "__main__":
    unittest.main()
