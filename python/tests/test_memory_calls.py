"""The list of the public calls that can answer 'out of memory': that it is whole, and that each call is made somewhere."""

from __future__ import annotations

import unittest
from unittest import mock

import memory_calls


def found() -> set[tuple[str, str]]:
    """The calls of the list: the crate of each, and its name."""
    return {(call.crate, call.shown) for call in memory_calls.public_calls(memory_calls.read_all())}


class Listed(unittest.TestCase):
    def test_each_call_is_listed_with_what_shows_it(self) -> None:
        page = memory_calls.PAGE.read_text(encoding="utf-8")
        self.assertEqual(memory_calls.written(page), memory_calls.table(), "python/tests/memory_calls.py --write makes it anew")

    def test_calls_that_nothing_makes_are_named(self) -> None:
        with mock.patch.object(memory_calls, "ROWS", ()), self.assertRaises(LookupError) as raised:
            memory_calls.table()
        for call in ("evidence_format: Bundle::append", "evidence_format: read_bundle", "tml_tree: tree"):
            self.assertIn(call, str(raised.exception))
        self.assertNotIn("read_bodies", str(raised.exception))

    def test_a_call_is_public_where_its_library_hands_it_out_and_it_can_be_out_of_memory(self) -> None:
        calls = found()
        self.assertLessEqual({("order_closure", "Closed::new"), ("tml_accept", "accept"), ("runs", "deliver")}, calls)
        # Within its crate alone; without an error; and of an error of another kind.
        self.assertFalse({("order_closure", "clear"), ("evidence_check", "verify_all"), ("order_closure", "Closed::add")} & calls)

    def test_an_empty_block_on_one_line_owns_nothing(self) -> None:
        calls = found()
        self.assertIn(("tml_io", "read_all"), calls)
        self.assertFalse({("tml_io", "WriteFault::read_all"), ("tml_tree", "TreeFault::root")} & calls)


if __name__ == "__main__":
    unittest.main()
