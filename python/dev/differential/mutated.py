"""Changes bytes of documents, without a thought of what they mean."""

from __future__ import annotations

from collections.abc import Callable
from random import Random

from differential.chances import chance

SIGNS = (
    b"&", b"<", b">", b'"', b"'", b"/", b"=", b";", b"#", b"!", b"?", b"-", b"]]>", b"<!--", b"-->", b"</", b"/>", b"<?xml ",
    b"<!DOCTYPE ", b" ", b"\n", b"\r", b"\t", b"\0", b"&#", b"&lt;",
)  # fmt: skip
INVALID = (
    b"\xff", b"\x80", b"\xbf", b"\xc2", b"\xe2\x82", b"\xf0\x9f\x98", b"\xed\xa0\x80", b"\xef\xbb\xbf", b"\xf4\x8f\xbf\xbf", b"\xc3\xa9",
)  # fmt: skip


def place(random: Random, document: bytes) -> int:
    """A place in a document, its end included."""
    return random.randrange(len(document) + 1)


def insert(document: bytes, at: int, what: bytes) -> bytes:
    """Puts bytes at a place."""
    return document[:at] + what + document[at:]


def flip(random: Random, document: bytes) -> bytes:
    """Another bit or another byte in some place."""
    if not document:
        return document
    at = random.randrange(len(document))
    byte = document[at] ^ (1 << random.randrange(8)) if chance(random, 0.7) else random.randrange(256)
    return document[:at] + bytes([byte]) + document[at + 1 :]


def drop(random: Random, document: bytes) -> bytes:
    """Some bytes less."""
    at = place(random, document)
    return document[:at] + document[at + random.choice((1, 1, 1, 2, 5, 20, 100)) :]


def double(random: Random, document: bytes) -> bytes:
    """A line, or what stands between two `<`, twice."""
    sign = random.choice((b"\n", b"<"))
    parts = document.split(sign)
    at = random.randrange(len(parts))
    return sign.join([*parts[: at + 1], *parts[at:]])


def exchange(random: Random, document: bytes) -> bytes:
    """Two parts that begin with `<` in each other's place."""
    parts = document.split(b"<")
    a, b = random.randrange(len(parts)), random.randrange(len(parts))
    parts[a], parts[b] = parts[b], parts[a]
    return b"<".join(parts)


def copy(random: Random, document: bytes) -> bytes:
    """Some bytes of the document in another place of it."""
    at = place(random, document)
    return insert(document, place(random, document), document[at : at + random.choice((1, 3, 10, 40))])


CHANGES: tuple[Callable[[Random, bytes], bytes], ...] = (
    flip,
    drop,
    double,
    exchange,
    copy,
    lambda random, document: document[: place(random, document)],
    lambda random, document: insert(document, place(random, document), random.choice(SIGNS)),
    lambda random, document: insert(document, place(random, document), random.choice(SIGNS)),
    lambda random, document: insert(document, place(random, document), random.choice(INVALID)),
    lambda random, document: document[place(random, document) :] if chance(random, 0.2) else document,
)


def draw_mutated(random: Random, document: bytes) -> bytes:
    """A document after one change, or some."""
    for _ in range(random.choice((1, 1, 1, 2, 3, 6))):
        document = random.choice(CHANGES)(random, document)
    return document


def draw_noise(random: Random) -> bytes:
    """Signs, names and bytes in a row: no document."""
    pieces = (*SIGNS, *INVALID, b"TimeML", b"P", b"TLINK", b"a", b"='x'", b"\\")
    return b"".join(random.choice(pieces) for _ in range(random.choice((0, 1, 2, 3, 5, 9, 30))))
