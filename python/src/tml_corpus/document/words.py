"""An accepted document in words: the texts of its events and times, its links, and what the calendar says of its times."""

from __future__ import annotations

import html
from dataclasses import dataclass
from functools import cached_property

from tml.places import Place
from tml.tags.cutting import units_of_whole
from tml.tags.source import Source, attribute_of
from tml.tags.units import Unit, Units

from ..asking.program import CannotRun, Program
from .dates import dates_of
from .texts import cut, texts_of

LONGEST = 40
"""How many characters of a text stand in a sentence."""

MOST_OF_VALUE = 1000


@dataclass(frozen=True)
class Link:
    """A TLINK as `tml check` numbers it: its place, and its relation between the names of two intervals."""

    number: int
    place: Place
    left: str
    relation: str
    right: str
    lid: str = ""

    def called(self) -> str:
        """How it is called: by its lid, or where it has none by its number."""
        return self.lid or f"link {self.number}"


class Wording:
    """What can be said of the intervals and links of one accepted document."""

    def __init__(self, program: Program, document: bytes, units: Units | None = None) -> None:
        self.program, self.document = program, document
        self.units = units_of_whole(program, document) if units is None else units
        self.source = Source(document, self.units)
        self.places = self.source.places
        self.tags = {kind: self.source.identified(kind) for kind in ("EVENT", "MAKEINSTANCE", "TIMEX3")}
        self.texts: dict[str, str] = {}
        self.link_tags = self.source.tags("TLINK")

    @cached_property
    def dates(self) -> dict[str, list[str]]:
        """What the calendar says of each time, by its name."""
        return dates_of(self.program, self.source)

    @property
    def intervals(self) -> list[str]:
        """The names of the intervals by their numbers."""
        return self.source.intervals

    def link(self, number: int) -> Link:
        """The link of a number: links have the numbers of their tags, and at each end one attribute with a value."""
        if not 0 <= number < len(self.link_tags):
            raise CannotRun("the answers of tml to `solve` and `check` do not belong together")
        left, relation, right = self.source.links[number]
        tag = self.link_tags[number]
        return Link(number, self.places.place(tag.start), left, relation, right, self.source.value(tag, "lid"))

    def relation(self, number: int) -> str:
        """The relation of a link."""
        return self.source.links[number][1]

    def text_of(self, name: str) -> str:
        """The text of the event or time that an interval is, cut where it is long, or its name where it has none."""
        return cut(self.whole_text_of(name), LONGEST) or name

    def whole_text_of(self, name: str) -> str:
        """The text of the event or time that an interval is, cut only where it is very long; it may be empty. It is found once."""
        if name not in self.texts:
            tag = self.tag_of(name)
            self.texts[name] = "" if tag is None else self.inner_texts[tag.start] or cut(html.unescape(self.value_of(tag)))
        return self.texts[name]

    def tag_of(self, name: str) -> Unit | None:
        """The event or time that an interval is."""
        instance = self.tags["MAKEINSTANCE"].get(name)
        if name in self.tags["TIMEX3"] or instance is None:
            return self.tags["TIMEX3"].get(name)
        return self.tags["EVENT"].get(self.source.value(instance, "eventID"))

    def value_of(self, tag: Unit) -> str:
        """The beginning of the value of an empty time, which stands for its text."""
        return self.source.value(tag, "value")[:MOST_OF_VALUE] if tag.kind == "empty" else ""

    @cached_property
    def inner_texts(self) -> dict[int, str]:
        """The texts inside the tags of all intervals, by the places of the tags."""
        tags = map(self.tag_of, self.intervals)
        return texts_of(self.units, self.document, {tag.start for tag in tags if tag is not None})

    def in_words(self, link: Link, *, numbered: bool = False) -> str:
        """A link in words, and beside it its name and those of its intervals; with its number too where it stands beside evidence."""
        words = f"{self.text_of(link.left)} {link.relation} {self.text_of(link.right)}"
        return f"{words} ({self.name_of(link, numbered)}: {link.left} {link.relation} {link.right})"

    def name_of(self, link: Link, numbered: bool) -> str:
        """How a link is called: by its lid, or where it has none or that is wanted by the number that it has in evidence."""
        return f"{link.lid}, link {link.number}" if link.lid and numbered else link.called()

    def dated(self, point: int) -> tuple[Place, str] | None:
        """The date of the time of which a point is the start or the end: where its value stands, and what that is."""
        tag = self.tags["TIMEX3"].get(name := self.intervals[point // 2])
        attribute = attribute_of(tag, "value") if tag is not None else None
        if attribute is None:
            return None
        return self.places.place(attribute.start), f"the date of {self.text_of(name)} ({name}) is {attribute.written(self.document)}"

    def calendar(self, first: int, second: int) -> tuple[Place, str]:
        """Why the calendar puts one point no later than another: what it says of both."""
        name = self.intervals[first // 2]
        tag = self.tags["TIMEX3"].get(name)
        place = self.places.place(tag.start if tag is not None else 0)
        return place, f"by the calendar {self.point(first, 'no later than', 4)}, and {self.point(second, 'no earlier than', 3)}"

    def point(self, point: int, bound: str, column: int) -> str:
        """Where the start or the end of a time lies: exactly, or by its upper or its lower bound."""
        name = self.intervals[point // 2]
        date = self.dates.get(name, ["free"])
        verb = "ends" if point % 2 else "starts"
        if date[0] == "exact":
            return f"{self.text_of(name)} {verb} at {date[3 + point % 2]}"
        if date[0] == "within":
            return f"{self.text_of(name)} {verb} {bound} {date[column]}"
        return f"{self.text_of(name)} {verb} anywhere"
