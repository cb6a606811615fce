"""Documents that `tml` has cut whole, cut into units here, without another question to it.

The markup of a document that it has accepted is well formed, and so is that of one with a fault of its tags. So one expression
tells where each unit ends, and nothing is judged by it. What comes out is what `tml spans` prints of the document; a test
compares the two.
"""

from __future__ import annotations

import re
from array import array
from collections.abc import Iterator
from itertools import accumulate

from ..places import BYTE_ORDER_MARK
from ..running import CannotRun
from ..statuses import MOST_REMEMBERED, TmlStatus
from .units import EMPTY, END, KINDS, START, TEXT, Attribute, Cutter, Units, read_units

NAME = rb"[A-Za-z_:\x80-\xff][A-Za-z0-9_:.\x80-\xff-]*+"
UNIT = re.compile(
    rb"[^<]++|</?+%s[^<>\"']*+(?:(?:\"[^\"]*+\"|'[^']*+')[^<>\"']*+)*+>|<!--(?s:.*?)-->|<!DOCTYPE[^<>]*+>|<\?xml(?s:.*?)\?>" % NAME
)
TAG_NAME = re.compile(rb"</?+(%s)" % NAME)
ATTRIBUTE = re.compile(rb"(%s)[ \t\r\n]*+=[ \t\r\n]*+(?:\"[^\"]*+\"|'[^']*+')" % NAME)
BOM, COMMENT, DECLARATION, DOCTYPE = map(KINDS.index, ("bom", "comment", "declaration", "doctype"))

MARKUP, SLASH = b"</"

LONGEST_REMEMBERED = 64
"""Of how many bytes the beginning of a piece is at most of which the kind and the name are remembered."""

Shape = tuple[int, bytes]


class Shapes(dict[bytes, Shape]):
    """The kinds and names of pieces of markup, by what stands in them up to a space, and their last two bytes."""

    def __missing__(self, piece: bytes) -> Shape:
        found = TAG_NAME.match(piece)
        shape = (kind_of_markup(piece), NAMELESS) if found is None else (kind_of_tag(piece), found[1])
        if len(self) < MOST_REMEMBERED and len(piece) <= LONGEST_REMEMBERED:
            self[piece] = shape
        return shape


NAMELESS = b"-"
TEXTS: Shape = TEXT, NAMELESS
SHAPES = Shapes()


def kind_of_tag(tag: bytes) -> int:
    """The kind of a tag."""
    return END if tag[1] == SLASH else EMPTY if tag[-2] == SLASH else START


def kind_of_markup(piece: bytes) -> int:
    """The kind of what begins with `<` and is not a tag."""
    return DECLARATION if piece.startswith(b"<?") else COMMENT if piece.startswith(b"<!-") else DOCTYPE


class Cut(Units):
    """The units of a document that `tml` has cut whole. The attributes of a tag are looked for where they are asked for."""

    def __init__(self, document: bytes, pieces: list[bytes]) -> None:
        super().__init__()
        self.document = document
        self.ends = array("I", accumulate(map(len, pieces)))
        self.starts = self.places = array("I", [0]) + self.ends[:-1]
        self.rows = range(len(pieces))
        # The name of a tag ends before its first space, and where there is one, the last byte but one is of no name.
        shapes = [SHAPES[piece.split(b" ", 1)[0] + piece[-2:]] if piece[0] == MARKUP else TEXTS for piece in pieces]
        self.kinds = bytearray([kind for kind, _ in shapes])
        self.names = array("I", [self.ids[name] for _, name in shapes])
        self.words = [word.decode("utf-8", "surrogateescape") for word in self.ids]
        if pieces[0] == BYTE_ORDER_MARK:
            self.kinds[0] = BOM

    def attributes(self, row: int) -> Iterator[Attribute]:
        """The attributes of the tag of a row."""
        name = self.words[self.names[row]].encode("utf-8", "surrogateescape")
        for found in ATTRIBUTE.finditer(self.document, self.starts[row] + 1 + len(name), self.ends[row]):
            yield Attribute(found[1].decode("utf-8", "surrogateescape"), found.start(), found.end())


def cut(document: bytes) -> Cut | None:
    """The units of a document, or None where they do not follow each other over the whole of it, as those of a well-formed one do."""
    pieces = UNIT.findall(document)
    if document.startswith(BYTE_ORDER_MARK):
        after = pieces[0][len(BYTE_ORDER_MARK) :]
        pieces[:1] = [BYTE_ORDER_MARK, after] if after else [BYTE_ORDER_MARK]
    units = Cut(document, pieces) if pieces else None
    return units if units is not None and units.ends[-1] == len(document) else None


def units_of_whole(program: Cutter, document: bytes) -> Units:
    """The units of a document that `tml` has accepted, or found only a fault of its tags in."""
    units = cut(program.seen(document))
    if units is not None:
        return units
    reply = program.spans(document)
    if reply.status != TmlStatus.DONE:
        raise CannotRun("the answers of tml to `check` and `spans` do not belong together")
    return read_units(reply)
