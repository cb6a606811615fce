"""Wrappers that a corpus has of its own: `tml` is asked about a copy in which spaces stand in the place of their tags.

So all places stay, and what the tags hold is judged as if they were not there.
"""

from __future__ import annotations

import re
from collections.abc import Iterable

from tml.finding import Loadable
from tml.tags.edits import applied_in_order, blank
from tml.tags.units import read_units

from ..asking.program import ACCEPTED, Program, Reply


class Unwrapping(Program):
    """`tml`, which is asked about documents without the tags of these names."""

    def __init__(self, path: str, names: Iterable[str], library: Loadable | None = None) -> None:
        super().__init__(path, library)
        self.names = frozenset(names)
        self.last = b"", b""
        self.opening = re.compile(b"|".join(b"<" + re.escape(name.encode()) for name in sorted(self.names)))

    def ask(self, words: list[str], document: bytes, other: bytes | None = None) -> Reply:
        """Asks about the document without these tags; a document that is not cut into units is asked about as it is."""
        return super().ask(words, self.seen(document), other)

    def seen(self, document: bytes) -> bytes:
        """The document without these tags; that of the last document is kept, since several questions are asked about one."""
        before, seen = self.last
        if document != before:
            seen = self.unwrapped(document)
            self.last = document, seen
        return seen

    def unwrapped(self, document: bytes) -> bytes:
        """The document with spaces in the place of these tags."""
        if not self.opening.search(document):
            return document
        reply = super().ask(["spans", "-"], document)
        if reply.status != ACCEPTED:
            return document
        return applied_in_order(document, map(blank, read_units(reply).named(*self.names)))
