"""The skeleton of an accepted document: the tags of which `tml` makes intervals and links, to ask about some of the links alone.

It is short, and the same question is answered as about the document. Links have other numbers in it, which are given back by `renumbered`.
"""

from __future__ import annotations

import re
from collections.abc import Iterable, Sequence

PARTS = re.compile(
    rb"<!--(?s:.*?)-->|<\?(?s:.*?)\?>"
    rb"|<(EVENT|SIGNAL|MAKEINSTANCE|TIMEX3|TLINK)(?=[ \t\r\n/>])[^<>\"']*+(?:(?:\"[^\"]*+\"|'[^']*+')[^<>\"']*+)*+>"
)
"""The tags of a skeleton, and what may hold something like them."""

NUMBERED = re.compile(rb"^(cite|via) (\d+)", re.MULTILINE)


class Skeleton:
    """The tags of a document that make its intervals, and those of its links apart."""

    def __init__(self, content: bytes) -> None:
        self.content = content
        self.intervals: list[bytes] = []
        self.links: list[bytes] = []
        for found in PARTS.finditer(content):
            if found[1] is not None:
                (self.links if found[1] == b"TLINK" else self.intervals).append(closed(found[0], found[1]))
        self.begin = b"<TimeML>" + b"".join(self.intervals)

    def with_links(self, links: Iterable[bytes]) -> bytes:
        """The document with some tags as its links."""
        return b"%s%s</TimeML>" % (self.begin, b"".join(links))

    def with_own_links(self, numbers: Iterable[int]) -> bytes:
        """The document with those of its links that have these numbers."""
        return self.with_links(self.links[number] for number in numbers)


def closed(tag: bytes, name: bytes) -> bytes:
    """A tag without what it holds."""
    return tag if tag.endswith(b"/>") else b"%s</%s>" % (tag, name)


def renumbered(evidence: bytes, numbers: Sequence[int]) -> bytes:
    """The evidence of a clash where link K of the skeleton is link `numbers[K]` of the document."""
    return NUMBERED.sub(lambda found: b"%s %d" % (found[1], numbers[int(found[2])]), evidence)
