"""The text of an accepted document as HTML, with its events, times and signals marked.

Each mark has a name of its own. Where its interval has a bar, the mark leads to it, and the bar leads back.
"""

from __future__ import annotations

import html
import re
from collections.abc import Iterable, Iterator, Mapping
from dataclasses import dataclass
from itertools import groupby

from tml.markup import NOTHING, Markup, element, harmless, tags, together
from tml.tags.units import EMPTY, END, START, TEXT

from ..document.words import Wording
from ..timeline.lettering import plain

MARKED = {"EVENT": "event", "TIMEX3": "time", "SIGNAL": "signal"}
BLOCKS = frozenset(("P", "p", "TEXT", "BODY", "TITLE", "HEADLINE", "DOCID", "DOCNO", "DCT", "EXTRAINFO"))
"""Wrappers that stand on lines of their own."""

MOST_LINES = re.compile(r"\n\s*\n")


@dataclass(frozen=True)
class Word:
    """One marked word: its name in the page, its kind, and the names of its intervals."""

    identifier: str
    kind: str
    intervals: tuple[str, ...]


class Words:
    """The marked words of a document, in their order."""

    def __init__(self, wording: Wording) -> None:
        tags = [(tag.start, kind) for name, kind in MARKED.items() for tag in wording.source.tags(name)]
        of_tags: dict[int, list[str]] = {}
        for name in wording.intervals:
            tag = wording.tag_of(name)
            if tag is not None:
                of_tags.setdefault(tag.start, []).append(name)
        numbered = enumerate(sorted(tags))
        self.by_start = {start: Word(f"word{number}", kind, tuple(of_tags.get(start, ()))) for number, (start, kind) in numbered}
        self.by_interval = {name: word for word in self.by_start.values() for name in word.intervals}

    def identifier(self, interval: str) -> str:
        """The name in the page of the word of an interval; nothing where it has none."""
        word = self.by_interval.get(interval)
        return word.identifier if word else ""


def marked_text(wording: Wording, words: Words, bars: Mapping[str, int]) -> Markup:
    """The text, with at most one empty line between two lines."""
    grouped = groupby(parts_of(wording, words, bars), lambda part: isinstance(part, str))
    parts = [few_lines(group) if is_text else together(group) for is_text, group in grouped]
    for place, strip in ((0, str.lstrip), (-1, str.rstrip)):
        if parts and isinstance(parts[place], str):
            parts[place] = strip(str(parts[place]), "\n")
    return together(parts)


def few_lines(texts: Iterable[Markup | str]) -> Markup | str:
    """Texts as one, with at most one empty line between two lines."""
    return MOST_LINES.sub("\n\n", "".join(map(str, texts)))


def parts_of(wording: Wording, words: Words, bars: Mapping[str, int]) -> Iterator[Markup | str]:
    """The text in parts. No mark that leads elsewhere stands within another one."""
    units, document = wording.units, wording.document
    open_tags: list[Mark] = []
    leading = 0
    for row in units.rows:
        kind, start = units.kinds[row], units.starts[row]
        if kind == TEXT:
            yield harmless(html.unescape(document[start : units.ends[row]].decode("utf-8", "surrogateescape")))
        elif kind == END and open_tags:
            closed = open_tags.pop()
            leading -= closed.is_leading
            yield closed.after
        elif kind in (START, EMPTY):
            made = mark(wording, words.by_start.get(start), units.words[units.names[row]], bars, leading)
            yield made.before
            if kind == START:
                open_tags.append(made)
                leading += made.is_leading
            else:
                yield empty_text(wording, words.by_start.get(start))
                yield made.after


@dataclass(frozen=True)
class Mark:
    """What stands before and after the text in a tag, and whether it leads elsewhere."""

    before: Markup | str = ""
    after: Markup | str = ""
    is_leading: bool = False


def mark(wording: Wording, word: Word | None, name: str, bars: Mapping[str, int], leading: int) -> Mark:
    """How a tag is marked."""
    if word is None:
        return Mark("\n", "\n") if name in BLOCKS else Mark()
    named = element("sup", plain(" ".join(word.intervals)), class_="name", aria_hidden="true") if word.intervals else NOTHING
    rows = [bars[one] for one in word.intervals if one in bars]
    date = wording.dates.get(word.intervals[0], []) if word.intervals else []
    is_leading = bool(rows) and not leading
    before, after = tags(
        "a" if is_leading else "span",
        class_=" ".join(["mark", word.kind, *date[:1]]),
        id=word.identifier,
        data_intervals=" ".join(word.intervals),
        data_bars=" ".join(map(str, rows)) if rows else None,
        href=f"#bar{rows[0]}" if is_leading else None,
        tabindex="0" if word.intervals and not is_leading else None,
    )
    return Mark(before, together(named, after), is_leading)


def empty_text(wording: Wording, word: Word | None) -> Markup | str:
    """What stands for a marked word without text: the value of a time, or a dot."""
    if word is None:
        return ""
    value = wording.text_of(word.intervals[0]) if word.intervals and word.kind == "time" else ""
    return element("span", f"[{plain(value) or '·'}]", class_="empty")
