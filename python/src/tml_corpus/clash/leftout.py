"""Copies of a document without some of its links, put to `tml solve`, and a bound on how many of them are.

A copy has only the tags that `tml` makes intervals and links of, so that it is short. The links that are left have other
numbers in it; what `tml` answers is given by the numbers of the document.
"""

from __future__ import annotations

from collections.abc import Collection, Mapping
from functools import cached_property
from operator import attrgetter

from tml.statuses import DOCUMENT_LIMIT
from tml.tags.edits import with_value
from tml.tags.source import Source
from tml.tags.units import Unit

from ..asking.program import CLASH, CannotRun, Program
from .clashes import Clash, is_timeline, read_clash, verify_clash, verify_timeline
from .hitting import TooMuch
from .touching import relation_of

START_OF_TAG = attrgetter("start")
INTERVAL_TAGS = ("EVENT", "SIGNAL", "MAKEINSTANCE", "TIMEX3", "TLINK")

QUESTIONS = 400
BYTES = 16 * DOCUMENT_LIMIT
"""So much is asked about one document at most: a bound that depends on the document alone, not on the time of day."""


class Copies:
    """Copies of one accepted document, with other relations for some links, and without some links."""

    def __init__(self, program: Program, source: Source, relations: Mapping[int, str]) -> None:
        self.program, self.document = program, source.document
        self.renew()
        self.tags = sorted((tag for kind in INTERVAL_TAGS for tag in source.tags(kind)), key=START_OF_TAG)
        self.links = {place: number for number, place in enumerate(place for place, tag in enumerate(self.tags) if tag.name == "TLINK")}
        self.as_written = [written(self.document, tag, None) for tag in self.tags]
        self.parts = list(self.as_written)
        for place, number in self.links.items():
            if number in relations:
                self.parts[place] = written(self.document, self.tags[place], relations[number])

    @cached_property
    def whole(self) -> bytes:
        """All links as they are in the document: by this, clashes are verified."""
        return enclosed(self.as_written)

    def renew(self) -> None:
        """Sets the bound anew."""
        self.questions, self.bytes = QUESTIONS, BYTES

    def spend(self, size: int) -> None:
        """Counts a question about so many bytes."""
        self.questions -= 1
        self.bytes -= size
        if self.questions < 0 or self.bytes < 0:
            raise TooMuch

    def without(self, left_out: Collection[int]) -> bytes:
        """The copy without some links."""
        return enclosed([part for place, part in enumerate(self.parts) if self.links.get(place) not in left_out])

    def clash_without(self, left_out: Collection[int]) -> Clash | None:
        """A clash of the document without some links, by its own numbers; None where a timeline fits."""
        copy = self.without(left_out)
        self.spend(len(copy))
        reply = self.program.ask(["solve", "-"], copy)
        if is_timeline(reply):
            return None
        if reply.status != CLASH:
            raise CannotRun(reply.problem())
        try:
            return read_clash(reply).renumbered([number for number in self.links.values() if number not in left_out])
        except IndexError:
            raise CannotRun("the answer of tml to `solve` cannot be read") from None

    def verify_without(self, left_out: Collection[int]) -> None:
        """Has `tml verify` accept a timeline of the document without some links."""
        copy = self.without(left_out)
        reply = self.program.ask(["solve", "-"], copy)
        if not is_timeline(reply):
            raise CannotRun("two answers of tml to `solve` do not belong together")
        verify_timeline(self.program, copy, reply)

    def verified_clash_without(self, left_out: Collection[int]) -> Clash | None:
        """The same, and `tml verify` accepted it as one of the document."""
        clash = self.clash_without(left_out)
        if clash is not None:
            self.spend(len(self.whole))
            verify_clash(self.program, self.whole, clash)
        return clash

    def fit_alone(self, links: Collection[int], relations: Mapping[int, str]) -> bool:
        """Whether a timeline fits some links alone, of which some have other relations."""
        chosen: list[bytes] = []
        for place, part in enumerate(self.parts):
            number = self.links.get(place)
            if number is None:
                chosen.append(part)
            elif number in links:
                chosen.append(written(self.document, self.tags[place], relations.get(number)) if number in relations else part)
        copy = enclosed(chosen)
        self.spend(len(copy))
        return is_timeline(self.program.ask(["solve", "-"], copy))


def enclosed(parts: list[bytes]) -> bytes:
    """A document of some tags."""
    return b"<TimeML>%s</TimeML>" % b"".join(parts)


def written(document: bytes, tag: Unit, relation: str | None) -> bytes:
    """A tag without what it holds, and with another relation where one is given."""
    start = tag.start
    text = document[start : tag.end]
    attribute = None if relation is None else relation_of(tag)
    if attribute is not None and relation is not None:
        edit = with_value(attribute, document, relation.encode())
        text = document[start : edit.start] + edit.text + document[edit.end : tag.end]
    return text if tag.kind == "empty" else text + b"</%s>" % tag.name.encode()
