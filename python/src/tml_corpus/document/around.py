"""The words of the sentence around each event, found for all of them in one pass over the units of a document."""

from __future__ import annotations

import html
from collections.abc import Collection, Iterable
from dataclasses import dataclass

from tml.tags.profile import WRAPPERS
from tml.tags.units import EMPTY, END, START, TEXT, Units

from ..timeline.lettering import plain

MOST_WORDS, REACH = 5, 200
"""How many words on each side are shown, and how many characters of them."""

PARAGRAPH = "\n\n"
SENTENCE_ENDS = (".", "!", "?")


@dataclass(frozen=True)
class Around:
    """The words before something and those after it, in one sentence."""

    before: str = ""
    after: str = ""

    def sentence(self, text: str) -> str:
        """The words with the text between them."""
        return f"{self.before}{text}{self.after}"


@dataclass(frozen=True)
class Text:
    """The text of a document, and where some tags begin and end in it."""

    text: str
    stretches: dict[int, tuple[int, int]]

    def around(self, start: int) -> Around:
        """The words around a tag."""
        begin, end = self.stretches[start]
        return Around(words_before(self.text[max(begin - REACH, 0) : begin]), words_after(self.text[end : end + REACH]))


def text_around(units: Units, document: bytes, wanted: Collection[int]) -> Text:
    """The text of a document whose tags nest; wrappers begin and end paragraphs."""
    parts: list[str] = []
    stretches: dict[int, tuple[int, int]] = {}
    begun: list[tuple[int, int]] = []
    size = 0
    for row in units.rows:
        kind, start = units.kinds[row], units.starts[row]
        if kind == TEXT:
            part = html.unescape(document[start : units.ends[row]].decode("utf-8", "surrogateescape"))
        else:
            part = PARAGRAPH if kind <= END and units.words[units.names[row]] in WRAPPERS else ""
        if kind in (START, EMPTY):
            begun.append((start, size))
        if kind in (END, EMPTY) and begun:
            place, begin = begun.pop()
            if place in wanted:
                stretches[place] = begin, size
        parts.append(part)
        size += len(part)
    return Text("".join(parts), stretches)


def words_before(text: str) -> str:
    """The last words of a text that belong to its last sentence."""
    text = text.rpartition(PARAGRAPH)[2]
    words = list(until_sentence_end(reversed(text.split()), False))[:MOST_WORDS]
    return plain(" ".join(reversed(words))) + (" " if words and text[-1:].isspace() else "")


def words_after(text: str) -> str:
    """The first words of a text that belong to its first sentence."""
    text = text.partition(PARAGRAPH)[0]
    words = list(until_sentence_end(text.split(), True))[:MOST_WORDS]
    return (" " if words and text[:1].isspace() else "") + plain(" ".join(words))


def until_sentence_end(words: Iterable[str], with_it: bool) -> Iterable[str]:
    """Words up to the first that ends a sentence."""
    for word in words:
        ends = word.rstrip("\"')\u2019\u201d").endswith(SENTENCE_ENDS)
        if ends and not with_it:
            return
        yield word
        if ends:
            return
