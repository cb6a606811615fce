"""Texts in a picture: made harmless, measured and cut. They come from strangers, so nothing in them is taken on trust."""

from __future__ import annotations

import unicodedata
from bisect import bisect_right
from collections.abc import Sequence
from functools import lru_cache
from itertools import accumulate
from os.path import commonprefix

from tml.markup import JOINERS, printed

BROAD = (
    (0x0E00, 0x0FFF, 0.85),
    (0x1000, 0x1CFF, 1.5),
    (0x0900, 0x0DFF, 1.45),
    (0x1E00, 0x1FFF, 0.95),
    (0x2000, 0x206F, 1.0),
    (0xFDFA, 0xFDFD, 12.0),
    (0x12000, 0x1254F, 2.5),
    (0x1F000, 0x1FAFF, 1.4),
)
"""Of some stretches of characters how much room each takes at most; of others beyond Arabic it is about the size of the font."""

NARROW = set(" .,:;'|!()[]/\\-ijlftrI")


def plain(text: str) -> str:
    """The text with single spaces and without format characters; what cannot be printed is the replacement character."""
    line = " ".join(text.split())
    return line if line.isprintable() else "".join(map(printed, line))


def is_turned(text: str) -> bool:
    """Whether some letters of a text go from right to left."""
    return any(unicodedata.bidirectional(letter) in ("R", "AL") for letter in text)


def measured(text: str, size: float) -> float:
    """About as much room as a text takes in a wide font without serifs, so that it takes no more in others."""
    return size * sum(map(share, text))


@lru_cache(4096)
def share(character: str) -> float:
    """The room of one character, in parts of the size of the font."""
    if unicodedata.combining(character) or character in JOINERS:
        return 0.0
    if character > "\u08ff":
        return next((room for first, last, room in BROAD if first <= ord(character) <= last), 1.05)
    if character in NARROW:
        return 0.4
    return 1.0 if character in "mwMW@%\u2026" else 0.84 if character in "<>+=~#&" else 0.79 if character.isupper() else 0.64


def fitted(text: str, room: float, size: float) -> str:
    """The text, cut with an ellipsis where it takes more room."""
    if measured(text, size) <= room:
        return text
    return text[: fitting(text, room / size - share("\u2026"))].rstrip(" " + JOINERS) + "\u2026"


def told_apart(text: str, others: Sequence[str], room: float, size: float) -> str:
    """The same, cut in its middle if it would begin as one of some others does, so that the word in which they differ is there."""
    cut = fitted(text, room, size)
    same = max((len(commonprefix((text, other))) for other in others), default=0)
    if cut == text or same < len(cut) - 1:
        return cut
    start = max(text.rfind(" ", 0, same) + 1, same - 8)
    rest = fitted(text[start:], 0.6 * room, size)
    return fitted(text[:start], room - measured(rest, size), size) + rest


def fitting(text: str, shares: float) -> int:
    """How many characters of a text have the room, in parts of the size of the font, with the marks that belong to the last one."""
    return bisect_right(list(accumulate(map(share, text))), shares)


def broken(word: str, shares: float) -> list[str]:
    """A word in parts, each as long as the room, in parts of the size of the font."""
    parts = [word]
    while len(parts[-1]) > (count := max(fitting(parts[-1], shares), 1)):
        parts[-1:] = parts[-1][:count], parts[-1][count:]
    return parts


def in_lines(text: str, room: float, size: float) -> list[str]:
    """A text in lines that have the room, broken between words, and within a word that has not enough room in a line."""
    lines = [""]
    for word in (part for word in text.split() for part in broken(word, room / size)):
        longer = f"{lines[-1]} {word}".strip()
        if measured(longer, size) <= room or not lines[-1]:
            lines[-1] = longer
        else:
            lines.append(word)
    return lines
