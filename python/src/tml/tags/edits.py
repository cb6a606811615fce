"""Changed documents: stretches and the bytes to put there."""

from __future__ import annotations

from collections.abc import Callable, Iterable, Iterator, Sequence
from itertools import chain, islice, product
from typing import NamedTuple

from .units import Attribute, Unit

MOST_COMBINED = 24
"""How many ways to mend several slips at once are looked at."""


class Edit(NamedTuple):
    """A stretch of the document and the bytes to put there."""

    start: int
    end: int
    text: bytes


def applied(document: bytes, edits: Iterable[Edit]) -> bytes:
    """The document with the edits; of two that overlap only the first one is made."""
    return applied_in_order(document, disjoint(edits))


def applied_in_order(document: bytes, edits: Iterable[Edit]) -> bytes:
    """The document with edits that come in the order of their places and do not overlap. They are not kept: there may be a million."""
    changed, whole, at = bytearray(), memoryview(document), 0
    for edit in edits:
        changed += whole[at : edit.start]
        changed += edit.text
        at = edit.end
    changed += whole[at:]
    return bytes(changed)


Ways = Callable[[], Iterable[tuple[Edit, ...]]]
"""Finds the ways in which something can be mended, where they are asked for: of most slips they are not."""


def known(*ways: tuple[Edit, ...]) -> Ways:
    """The same of ways that are known."""
    return lambda: ways


def combined(ways: Sequence[Ways]) -> Iterator[tuple[Edit, ...]]:
    """Of several slips, each of which can be mended in some ways, the ways to mend all of them."""
    return islice((tuple(chain(*one)) for one in product(*(find() for find in ways))), MOST_COMBINED)


def disjoint(edits: Iterable[Edit]) -> Iterator[Edit]:
    """The edits in the order of their places; of two that overlap the first one."""
    at = 0
    for edit in sorted(edits, key=lambda edit: edit.start):
        if edit.start >= at:
            yield edit
            at = edit.end


def blank(thing: Attribute | Unit) -> Edit:
    """As many spaces as the thing has bytes, so that all other places stay."""
    return Edit(thing.start, thing.end, b" " * (thing.end - thing.start))


def with_spaces_before(document: bytes, thing: Attribute | Unit) -> Edit:
    """Takes a thing out, with the white space before it."""
    start = thing.start
    while document[start - 1 : start].isspace():
        start -= 1
    return Edit(start, thing.end, b"")


def encoded(text: str) -> bytes:
    """A text as it stands in a document; bytes that are not UTF-8 are kept by surrogates."""
    return text.encode("utf-8", "surrogateescape")


def with_value(attribute: Attribute, document: bytes, value: bytes) -> Edit:
    """The attribute with another value between its quotes."""
    end = attribute.end - 1
    return Edit(end - len(attribute.value(document)), end, value)
