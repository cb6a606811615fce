"""Places: from an offset in bytes to a line and a column, and the line of the source with a caret.

Lines and columns count from 1, columns in characters (code points); a tab counts one. A byte that is not UTF-8 counts
one. A byte order mark at the beginning is not counted. LF and CR LF end a line; a lone CR ends one only in a document
that has no LF at all, as old Macintosh programs wrote them, and else counts as a character. vim and Emacs see it so.
"""

import re
import unicodedata
from bisect import bisect_right
from itertools import pairwise
from typing import NamedTuple

from .saying import COMMAND

BYTE_ORDER_MARK = b"\xef\xbb\xbf"
SHOWN_WIDTH = 160
FARTHEST = 4 * SHOWN_WIDTH
"""How many bytes around a place have all that is shown of its line."""

BLOCK = 4096
"""What stands before each block of so many bytes is counted once."""


class Place(NamedTuple):
    """A place in a document: the offset in bytes from 0, and line and column from 1."""

    offset: int
    line: int
    column: int


class Places:
    """The lines of one document, which may be one line of four million characters, or four million lines.

    What stands before every block of the document is counted once, so that a place is found by looking at one block.
    """

    def __init__(self, document: bytes) -> None:
        self.document = document
        self.end = b"\n" if b"\n" in document else b"\r"
        self.begin = len(BYTE_ORDER_MARK) if document.startswith(BYTE_ORDER_MARK) else 0
        self.blocks = [self.begin, *(boundary(document, at) for at in range(self.begin + BLOCK, len(document), BLOCK))]
        self.ends, self.characters, self.starts = [0], [0], [self.begin]
        for first, last in pairwise(self.blocks):
            self.ends.append(self.ends[-1] + document.count(self.end, first, last))
            self.characters.append(self.characters[-1] + len(characters(document[first:last])))
            self.starts.append(max(document.rfind(self.end, first, last) + 1, self.starts[-1]))

    def place(self, offset: int) -> Place:
        """The place of an offset; one inside the byte order mark is the first place."""
        number = max(bisect_right(self.blocks, offset) - 1, 0)
        first = self.blocks[number]
        line = 1 + self.ends[number] + self.document.count(self.end, first, max(offset, first))
        start = max(self.document.rfind(self.end, first, max(offset, first)) + 1, self.starts[number])
        return Place(offset, line, 1 + self.characters_before(offset) - self.characters_before(start))

    def characters_before(self, offset: int) -> int:
        """How many characters stand before an offset, without a byte order mark."""
        number = max(bisect_right(self.blocks, offset) - 1, 0)
        return self.characters[number] + len(characters(self.document[self.blocks[number] : offset]))

    def excerpt(self, place: Place) -> tuple[str, int]:
        """The part of the line around a place that is shown, and the column of the place in it."""
        farthest = max(place.offset - FARTHEST, 0)
        first = self.document.rfind(self.end, farthest, place.offset) + 1 or (farthest and boundary(self.document, farthest)) or self.begin
        last = boundary(self.document, place.offset + FARTHEST)
        end = self.document.find(self.end, place.offset, last)
        part = characters(self.document[first : end if end >= 0 else last].rstrip(b"\r\n"))
        return part, 1 + len(characters(self.document[first : place.offset]))

    def marked(self, start: Place, end: Place) -> list[str]:
        """The line where a stretch begins, and below it a mark under as much of the stretch as lies there; of a long line the part
        around it."""
        text, column = self.excerpt(start)
        return caret_lines(text, column, end.column - start.column if end.line == start.line else len(text))


def boundary(document: bytes, at: int) -> int:
    """The first place from here on that is not within a character: no character has more than three bytes after its first."""
    last = min(at + 3, len(document))
    while at < last and 0x80 <= document[at] < 0xC0:
        at += 1
    return min(at, len(document))


def characters(text: bytes) -> str:
    """The text of some bytes, whatever they are: each that is not UTF-8 is one character."""
    return text.decode("utf-8", "surrogateescape")


def caret_lines(text: str, column: int, count: int = 1) -> list[str]:
    """The line of the source, and below it a mark under so many characters from the column on; of a long line the part around it."""
    begin = max(0, column - 1 - SHOWN_WIDTH // 2) if len(text) > SHOWN_WIDTH else 0
    part = text[begin : begin + SHOWN_WIDTH]
    shown = drawn(part)
    blanks, under = width(shown[: column - 1 - begin]), width(shown[column - 1 - begin :][:count])
    return ["    " + no_command(shown).rstrip(), "    " + " " * blanks + "^" + "~" * (under - 1)]


def no_command(line: str) -> str:
    """A line without what build servers take for a command in a log."""
    return re.sub(rf"^( *):(?=:)|{COMMAND}", "\\g<1>\ufffd", line)


def drawn(text: str) -> str:
    """A text as it may stand on a terminal, with a character for each."""
    if text.isprintable():
        return text
    return "".join(character if character.isprintable() else " " if character == "\t" else "\ufffd" for character in text)


def width(text: str) -> int:
    """How many columns of a terminal a text takes that may stand there."""
    if text.isascii():
        return len(text)
    return sum(0 if unicodedata.combining(character) else 2 if unicodedata.east_asian_width(character) in "WF" else 1 for character in text)
