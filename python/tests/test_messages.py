"""What the tools say to people: that messages.txt lists all of it and nothing else, so that somebody has read each message."""

import unittest
from difflib import unified_diff

import messages

SOURCE = '''
"""What this module is for."""
import re

HINT = "write it again"
PATTERN = re.compile(r"claim (\\d+) part (\\d+)")
NAMES = "DATE TIME DURATION"


def told(path, count):
    """What a function does."""
    if not count:
        raise ValueError(f"{path}: there is no {'such file' if path else 'path'}: " + HINT)
    print(f"{count} skipped", "--write-baseline needs --baseline FILE", 'value="{value}"', "skipped")
    return "body{margin:0;color:red}" + "<p title=\\"a row of it\\">one of <em>two</em> words</p>"
'''
FOUND = [
    "write it again",
    "{}: there is no {}: {}",
    "such file",
    "{} skipped",
    "--write-baseline needs --baseline FILE",
    "a row of it",
    "one of",
]

PAGE = '''SCRIPT = """
"use strict";
say("no links", `link ${one(number)}: ${text}`, "svg");
"""
'''


class Messages(unittest.TestCase):
    def test_the_list_has_them_all_and_no_other(self) -> None:
        kept, found = messages.LIST.read_text(encoding="utf-8").splitlines(), messages.listed().splitlines()
        changes = "\n".join(unified_diff(kept, found, lineterm="", n=0))
        self.assertEqual(kept, found, f"read the messages with +, and then run python/tests/messages.py --write:\n{changes}")
        self.assertGreater(len(found), 800)

    def test_what_is_a_message(self) -> None:
        self.assertEqual(messages.messages_of(SOURCE), FOUND)
        self.assertEqual(messages.messages_of(PAGE), ["no links", "link {}: {}"])

    def test_the_explanation_of_a_module_is_one_where_it_is_shown(self) -> None:
        explained = '"""Draws a picture."""\n\n\ndef main():\n    """Says a word or two."""\n'
        self.assertEqual(messages.messages_of(explained), [])
        self.assertEqual(messages.messages_of(explained + "    print(__doc__)\n"), ["Draws a picture."])


if __name__ == "__main__":
    unittest.main()
