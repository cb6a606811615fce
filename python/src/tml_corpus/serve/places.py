"""Places as the protocol counts them: a line from 0, and in it UTF-16 units, or bytes where the client takes these.

What stands before every block of the document is counted once, so that a place in a line of millions of characters is found by
looking at one block.
"""

from __future__ import annotations

import re
from bisect import bisect_right
from itertools import accumulate

from tml.places import BLOCK
from tml.tags.edits import Edit

from .wire import Json, member

UTF_8, UTF_16 = "utf-8", "utf-16"
LINE_END = re.compile(rb"\r\n|\n|\r")
AFTER_FIRST = bytes(range(0x80, 0xC0))
"""The bytes of a character after its first one."""

NO_PAIR = bytes(byte for byte in range(256) if not 0xF0 <= byte < 0xF8)
"""The bytes with which no character begins that takes two units."""


def units_in(text: bytes) -> int:
    """How many UTF-16 units the characters have that begin in some bytes."""
    return len(text) if text.isascii() else len(text.translate(None, AFTER_FIRST)) + len(text.translate(None, NO_PAIR))


class ClientPlaces:
    """The places of one document as its client has them."""

    def __init__(self, document: bytes, encoding: str) -> None:
        self.document, self.in_bytes = document, encoding == UTF_8
        self.starts = [0, *(found.end() for found in LINE_END.finditer(document))]
        parts = () if self.in_bytes else (document[at : at + BLOCK] for at in range(0, len(document), BLOCK))
        self.before = [0, *accumulate(map(units_in, parts))]

    def units_before(self, offset: int) -> int:
        """How many units stand before an offset."""
        if self.in_bytes:
            return offset
        block = offset // BLOCK
        return self.before[block] + units_in(self.document[block * BLOCK : offset])

    def position(self, offset: int) -> dict[str, int]:
        """The position of an offset; one beyond the end is the end."""
        offset = min(max(offset, 0), len(self.document))
        line = bisect_right(self.starts, offset) - 1
        return {"line": line, "character": self.units_before(offset) - self.units_before(self.starts[line])}

    def range(self, start: int, end: int) -> dict[str, dict[str, int]]:
        """A stretch."""
        return {"start": self.position(start), "end": self.position(max(start, end))}

    def offset(self, position: Json) -> int:
        """The offset of a position; one beyond the end of its line is the end of the line."""
        line, character = member(position, "line", kind=int), member(position, "character", kind=int)
        if line < 0 or character < 0:
            return 0
        if line >= len(self.starts):
            return len(self.document)
        start, end = self.starts[line], self.end_of_line(line)
        wanted = self.units_before(start) + character
        if wanted >= self.units_before(end):
            return end
        return start + bisect_right(range(start, end), wanted, key=self.units_before) - 1

    def end_of_line(self, line: int) -> int:
        """Where a line ends, without what ends it."""
        if line + 1 >= len(self.starts):
            return len(self.document)
        end = self.starts[line + 1]
        return end - 2 if self.document.endswith(b"\r\n", 0, end) else end - 1

    def stretch(self, given: Json) -> tuple[int, int]:
        """The offsets of a range."""
        first, last = (self.offset(member(given, name, kind=dict)) for name in ("start", "end"))
        return first, max(first, last)

    def whole_lines(self, start: int, end: int) -> tuple[int, int]:
        """The lines of a stretch, each with what ends it."""
        first, last = bisect_right(self.starts, start) - 1, bisect_right(self.starts, end)
        return self.starts[first], self.starts[last] if last < len(self.starts) else len(self.document)

    def edit(self, edit: Edit) -> dict[str, Json]:
        """An edit as the client makes it."""
        return {"range": self.range(edit.start, edit.end), "newText": edit.text.decode("utf-8", "replace")}
