"""Forges texts of evidence and of seconds one change at a time, at each place of a text, as somebody does who wants a checker to slip."""

from __future__ import annotations

import itertools
import re
from collections.abc import Iterator, Sequence

NUMBERS = (b"0", b"1", b"2", b"7", b"4294967294", b"4294967295", b"4294967296", b"9" * 60, b"00", b"01", b"-0", b"-1", b"+1", b"1e0", b"")
"""What is put in the place of a number, besides its neighbours."""

VERSIONS = (
    b"tml-evidence 1",
    b"tml-evidence 2",
    b"tml-evidence 3",
    b"tml-evidence",
    b"tml-seconds 1",
    b"tml-seconds 2",
    b"TML-EVIDENCE 1",
    b"",
)

AFTER = (b"\n", b" ", b"\0", b"x", b"end\n", b"end", b"\r\n", b"tml-evidence 1\ntimeline 0\nend\n")
"""What comes after the last line."""

AROUND = ((b" ", b""), (b"", b" "), (b"\t", b""), (b"", b"\r"), (b"", b"\0"), (b"\xef\xbb\xbf", b""), (b"\n", b""), (b"", b"\xff"))
"""What comes before a line, and after it."""

NO_WORDS = (b"", b"At", b"before", b"OVERLAP", b"x" * 200, b"\xc3\xa9")


def cut_short(text: bytes) -> Iterator[bytes]:
    """A text truncated at each of its bytes, the empty text first, and without each of its bytes."""
    for place in range(len(text)):
        yield text[:place]
        yield text[:place] + text[place + 1 :]


def other_lines(text: bytes) -> Iterator[bytes]:
    """A text without one of its lines, with one of them twice, and with each two of them exchanged."""
    lines = text.splitlines(keepends=True)
    for place, line in enumerate(lines):
        yield b"".join(lines[:place] + lines[place + 1 :])
        yield b"".join([*lines[:place], line, *lines[place:]])
    for first, second in itertools.combinations(range(len(lines)), 2):
        changed = [*lines]
        changed[first], changed[second] = lines[second], lines[first]
        yield b"".join(changed)


def other_numbers(text: bytes) -> Iterator[bytes]:
    """A text with another number in the place of each one, or with what is no number."""
    for found in re.finditer(rb"(?<![\w-])-?[0-9]+", text):
        near = (b"%d" % (int(found[0]) + change) for change in (-2, -1, 1, 2, 86_400))
        for number in (*near, *NUMBERS):
            yield text[: found.start()] + number + text[found.end() :]


def other_words(text: bytes) -> Iterator[bytes]:
    """A text with another of its words in the place of each one, or with what is no word of such a text."""
    words = sorted({*re.findall(rb"[A-Za-z_]+", text)})
    for found in re.finditer(rb"[A-Za-z_]+", text):
        for word in (*words, *NO_WORDS):
            yield text[: found.start()] + word + text[found.end() :]


def other_bytes(text: bytes) -> Iterator[bytes]:
    """A text of another version, with bytes after its end, and with bytes around its lines and words."""
    first, rest = text.split(b"\n", 1)
    yield from (version + b"\n" + rest for version in VERSIONS if version != first)
    yield from (text + after for after in AFTER)
    yield text.replace(b"\n", b"\r\n")
    yield text.replace(b" ", b"  ")
    lines = text.splitlines()
    for (place, line), (before, after) in itertools.product(enumerate(lines), AROUND):
        yield b"".join(one + b"\n" for one in [*lines[:place], before + line + after, *lines[place + 1 :]])


def forged(text: bytes, others: Sequence[bytes]) -> Iterator[bytes]:
    """A text after each of the changes, and texts that begin as it does and go on as others do."""
    for change in (cut_short, other_lines, other_numbers, other_words, other_bytes):
        yield from change(text)
    for other in others:
        yield from (text[: text.index(b"\n", place) + 1] + other for place in range(0, len(text), 40))
        yield text.removesuffix(b"end\n") + other.split(b"\n", 1)[1]
