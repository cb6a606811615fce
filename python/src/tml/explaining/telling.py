"""A fault in words for who asks from Python: its message, and the line of the file with a mark below the words that it speaks of."""

from __future__ import annotations

import re
from typing import NamedTuple

from ..places import Places
from ..running import CannotRun
from ..saying import shown
from ..tags.units import Printed
from .explain import explain
from .faults import Fault

PATH = re.compile(rb"[^<>\r\n\0]{1,1024}")
"""Bytes that may be meant as the path of a file: a document has a tag."""


class Told(NamedTuple):
    """A fault in words, the first byte that they speak of and the one after the last, and the marked line of the file."""

    message: str
    start: int
    end: int
    mark: tuple[str, ...]


class NobodyToAsk:
    """Explanations cut documents for themselves. Where one cannot be cut so, there are the general words only."""

    def seen(self, document: bytes) -> bytes:
        """The document."""
        return document

    def spans(self, document: bytes) -> Printed:
        """No answer."""
        raise CannotRun("nobody is asked")


def told(content: bytes, number: int, name: str, byte: int) -> Told:
    """The words on a fault of a file; the general ones where the bytes of the file are not known, or say no more."""
    fault = Fault(number, name, byte)
    if not content:
        return Told(fault.sentence(), byte, byte, ())
    if PATH.fullmatch(content):
        path = shown(content.decode("utf-8", "replace"))
        return Told(f"these bytes have no tag in them; if they are the path of a file, give it as text: {path!r}", 0, len(content), ())
    places = Places(content)
    try:
        found = explain(NobodyToAsk(), content, fault, places)
        message, start, end = found.text or fault.sentence(), found.start, max(found.end, found.start)
    except CannotRun:
        message, start, end = fault.sentence(), byte, min(byte + 1, len(content))
    return Told(shown(message), start, end, tuple(places.marked(places.place(start), places.place(end))))
