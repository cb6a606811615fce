"""The texts of tags, each found once and cut where it is long, in one pass over the units of a document."""

from __future__ import annotations

import html
from dataclasses import dataclass

from tml.tags.units import EMPTY, END, START, TEXT, Units

LONGEST = 80
"""How many characters of a text are shown."""

ROOM = LONGEST + 1
"""How many are gathered, so that it is seen whether there are more."""


@dataclass(slots=True, eq=False)
class Gathered:
    """The text inside a tag, as far as it was read: its words with single spaces, and whether a space goes before the next one."""

    text: str = ""
    spaces: int = 0

    def add(self, words: str, before: bool, spaces: int) -> None:
        """Adds words, after a space where one stands before them or stood in the text since the last ones."""
        gap = " " if self.text and (before or spaces != self.spaces) else ""
        self.text, self.spaces = (self.text + gap + words)[:ROOM], spaces

    def full(self) -> bool:
        """Whether there is no room for more."""
        return len(self.text) >= ROOM


def cut(text: str, longest: int = LONGEST) -> str:
    """A text, cut where it is long."""
    return text if len(text) <= longest else text[: longest - 3] + "..."


def texts_of(units: Units, document: bytes, wanted: set[int]) -> dict[int, str]:
    """The texts inside the tags that begin at the places that are wanted, cut; that of an empty tag is empty.

    The tags of the document have to nest. White space, as Python has it, becomes single spaces. Each unit is looked at once
    at most, and none where no text that is wanted goes on.
    """
    found: dict[int, Gathered] = {}
    for place in sorted(wanted):
        if place not in found:
            found.update(texts_from(units, document, wanted, place))
    return {place: cut(one.text) for place, one in found.items()}


def texts_from(units: Units, document: bytes, wanted: set[int], place: int) -> dict[int, Gathered]:
    """The text of the tag at a place, and of those that begin before it is found."""
    found: dict[int, Gathered] = {}
    stack: list[Gathered | None] = []
    unfinished: list[Gathered] = []
    spaces = 0
    for row in units.rows_from(place):
        kind = units.kinds[row]
        if kind == TEXT:
            spaces = gather(document[units.starts[row] : units.ends[row]], unfinished, spaces)
        elif kind in (START, EMPTY):
            one = found.setdefault(units.starts[row], Gathered(spaces=spaces)) if units.starts[row] in wanted else None
            if kind == START:
                stack.append(one)
                unfinished += [one] if one else []
        elif kind == END and stack:
            one = stack.pop()
            if one in unfinished:
                unfinished.remove(one)
        if not unfinished:
            break
    return found


def gather(raw: bytes, unfinished: list[Gathered], spaces: int) -> int:
    """Adds one text to those that are open and have room. Answers how many spaces between words were met up to its end."""
    text = html.unescape(raw.decode("utf-8", "surrogateescape"))
    words = " ".join(text.split())
    if not words:
        return spaces + bool(text)
    for one in unfinished:
        one.add(words[:ROOM], text[:1].isspace(), spaces)
    unfinished[:] = [one for one in unfinished if not one.full()]
    return spaces + text[-1:].isspace()
