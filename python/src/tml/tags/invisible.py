"""Characters that nobody sees, as a no-break space or a zero-width one: which they are, and a text without them."""

from __future__ import annotations

import re

INVISIBLE = re.compile("[\u00a0\u00ad\u034f\u061c\u115f\u1160\u1680\u180e\u2000-\u200f\u2028-\u202f\u205f-\u206f\u3000\ufeff]")
"""The characters of Unicode that look like nothing or like a space, but for the space itself."""

NAMES = {
    "\u00a0": "a no-break space", "\u00ad": "a soft hyphen", "\u200b": "a zero-width space", "\u200c": "a zero-width non-joiner",
    "\u200d": "a zero-width joiner", "\u2060": "a word joiner", "\ufeff": "a byte order mark", "\u202f": "a narrow no-break space",
}  # fmt: skip
"""How the usual ones are called."""


def first_invisible(text: str) -> str | None:
    """The first character of a text that nobody sees, with its name and number; None where there is none."""
    found = INVISIBLE.search(text)
    return named(found[0]) if found else None


def named(character: str) -> str:
    """A character that nobody sees, in words."""
    if character in NAMES:
        return f"{NAMES[character]} (U+{ord(character):04X})"
    import unicodedata

    return f"the character {unicodedata.name(character, 'without a name')} (U+{ord(character):04X})"


def without_invisible(text: str) -> str:
    """A text without such characters."""
    return INVISIBLE.sub("", text)
