"""Words that messages share, and texts as they may be printed."""

from __future__ import annotations

import re
from collections.abc import Iterable, Sequence

COMMAND = r"#(?=#(?:\[|vso|teamcity))"
"""The first sign of what build servers take for a command in a log: `##[` and `##vso[` for GitHub and Azure, `##teamcity[` for TeamCity."""

LONGEST = 40
"""How many characters of the words of an interval are shown."""

MOST_NAMED = 12
"""How many names a message lists at most."""


def cut_short(text: str, longest: int = LONGEST) -> str:
    """A text on one line, cut where it is long."""
    line = " ".join(text.split())
    return line if len(line) <= longest else line[: longest - 1] + "\u2026"


def counted(number: int, noun: str) -> str:
    """A number and its noun."""
    return f"{number} {noun}" if number == 1 else f"{number} {noun}s"


def listed(names: Sequence[str]) -> str:
    """Some names in a sentence, of many the first ones."""
    rest = [f"and {len(names) - MOST_NAMED} more"] if len(names) > MOST_NAMED else []
    return ", ".join([*map(shown, names[:MOST_NAMED]), *rest])


def meant(name: str, choices: Iterable[str]) -> str:
    """The question whether another name was meant; nothing where none of the choices is near."""
    from .tags.similar import near

    found = near(name, choices)
    return f"did you mean {' or '.join(map(shown, found[:MOST_NAMED]))}?" if found else ""


def shown(text: str) -> str:
    """A name or a text as it may be printed: what is not printable is escaped, so that a line stays a line.

    So is a colon at the beginning, and what build servers take for a command elsewhere in a line of a log.
    """
    if not text.isprintable():
        text = "".join(character if character.isprintable() else escaped(character) for character in text)
    return re.sub(COMMAND, r"\\x23", re.sub(r"^( *):", r"\1\\x3a", text))


def escaped(character: str) -> str:
    """An escape for one character; a byte that is not UTF-8 is printed as this byte."""
    code = ord(character)
    if 0xDC80 <= code <= 0xDCFF:
        return f"\\x{code - 0xDC00:02x}"
    if code < 0x100:
        return f"\\x{code:02x}"
    return f"\\u{code:04x}" if code < 0x10000 else f"\\U{code:08x}"
