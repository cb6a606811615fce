"""What one wrong keystroke does to a text, undone: the keys of a keyboard, and what may have been meant by what was typed."""

from __future__ import annotations

from collections import defaultdict
from collections.abc import Iterable, Iterator
from enum import Enum
from typing import NamedTuple

AMERICAN = (
    ("`1234567890-=", "~!@#$%^&*()_+"), (" qwertyuiop[]\\", " QWERTYUIOP{}|"),
    (" asdfghjkl;'", ' ASDFGHJKL:"'), (" zxcvbnm,./", " ZXCVBNM<>?"),
)  # fmt: skip
"""The rows of keys, without and with shift. A key lies between two keys of the row above it, of which its own place is the first one. A
space is no key."""

GERMAN = (
    ("^1234567890ß´", '°!"§$%&/()=?`'), (" qwertzuiopü+", " QWERTZUIOPÜ*"),
    (" asdfghjklöä#", " ASDFGHJKLÖÄ'"), ("<yxcvbnm,.-", ">YXCVBNM;:_"),
)  # fmt: skip
FRENCH = (
    ("²&é\"'(-è_çà)=", " 1234567890°+"), (" azertyuiop^$", " AZERTYUIOP¨£"),
    (" qsdfghjklmù*", " QSDFGHJKLM%µ"), ("<wxcvbn,;:!", ">WXCVBN?./§"),
)  # fmt: skip

BY_SPACE, BY_RETURN = "xcvbnm,.XCVBNM<>-_;:!", "'\"\\|]}#~+*$£µ"
"""What is written by the keys next to the space bar, and next to the key of the line feed."""

MARKUP = "<>/='\""
"""Signs that are next to other keys on keyboards of other countries. Only of these signs those keys are considered."""

TYPED = "".join(sorted({*map(chr, range(32, 127)), "\n"} - set("$%()*@[\\]^`{|}~")))
"""What a key can write, but for signs without which no tag, value or reference lacks anything."""


class Slip(Enum):
    """What went wrong with a key."""

    LOST = "a character is missing"
    STRUCK = "a character is one too many"
    NEIGHBOUR = "another key was struck, or shift was missed or held"
    EXCHANGED = "two characters are in the wrong order"


class Keystroke(NamedTuple):
    """A slip undone: the stretch of the text, and what was meant to be there."""

    slip: Slip
    start: int
    end: int
    text: str


class Keystrokes(NamedTuple):
    """Slips of one kind at one place undone: the stretch of the text, and each text that may have been meant to be there."""

    slip: Slip
    start: int
    end: int
    texts: str | tuple[str, ...]
    """As a string: each of its characters."""


def neighbours(rows: Iterable[tuple[str, str]]) -> Iterator[tuple[str, str]]:
    """What may be typed for what: of keys that are next to each other, or of one key."""
    keys = {(row, place): pair for row, those in enumerate(rows) for place, pair in enumerate(zip(*those, strict=True)) if " " not in pair}
    for (row, place), (plain, shifted) in keys.items():
        yield from ((plain, shifted), (shifted, plain))
        for near in filter(None, map(keys.get, ((row, place - 1), (row - 1, place), (row - 1, place + 1)))):
            yield from ((plain, near[0]), (near[0], plain), (shifted, near[1]), (near[1], shifted))
            # A key next to the right one may be struck before shift is.
            yield from ((plain, near[1]), (near[0], shifted))


def meant_by_keys() -> dict[str, str]:
    """For each character those that may have been meant: of the keys next to its own, or of its own with another shift."""
    found: defaultdict[str, set[str]] = defaultdict(set)
    for typed, meant in neighbours(AMERICAN):
        found[typed].add(meant)
    for rows in (GERMAN, FRENCH):
        for typed, meant in neighbours(rows):
            found[typed].update({meant} if typed in MARKUP or meant in MARKUP else ())
    for one, other in [*((one, " ") for one in BY_SPACE), *((one, "\n") for one in BY_RETURN)]:
        found[one].add(other)
        found[other].add(one)
    # One slash is written for the other.
    found["\\"].add("/")
    return {typed: "".join(sorted(meant - {typed})) for typed, meant in found.items()}


MEANT = meant_by_keys()


def undone(text: str, low: int, high: int, lost: str) -> Iterator[Keystrokes]:
    """The text with one keystroke undone from one place to another, if some characters may have been lost."""
    for place in range(max(low, 0), min(high, len(text)) + 1):
        yield Keystrokes(Slip.LOST, place, place, lost)
        if place == len(text):
            return
        typed, following = text[place], text[place + 1 : place + 2]
        yield Keystrokes(Slip.STRUCK, place, place + 1, ("",))
        yield Keystrokes(Slip.NEIGHBOUR, place, place + 1, MEANT.get(typed, ""))
        if following and typed != following:
            yield Keystrokes(Slip.EXCHANGED, place, place + 2, (following + typed,))
