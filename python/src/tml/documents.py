"""The model of an accepted document: its events, instances, times, signals and links, with their attributes, texts and places.

It is made from the document and what `check` says of it: the one has the tags, and the other one the names and numbers.
"""

from __future__ import annotations

import re
from collections.abc import Iterator, Mapping
from dataclasses import dataclass, field
from functools import cached_property
from typing import TYPE_CHECKING, Any, NamedTuple, TypeVar

from .misuse import ByName, unknown_identifier
from .results import Accepted, Link, Part, Relation, Result
from .running import CannotRun

if TYPE_CHECKING:
    from .tags.units import Units

__all__ = ["Document", "Event", "Instance", "Signal", "Stretch", "Tag", "Time", "TLink"]

IDENTIFIERS = {"EVENT": "eid", "MAKEINSTANCE": "eiid", "TIMEX3": "tid", "SIGNAL": "sid", "TLINK": "lid", "ALINK": "lid", "SLINK": "lid"}
"""The attribute with the identifier of each kind of tag."""

REFERENCE = re.compile(r"&(?:(lt|gt|amp|quot|apos)|#(\d{1,7})|#x([0-9A-Fa-f]{1,6}));")
SIGNS = {"lt": "<", "gt": ">", "amp": "&", "quot": '"', "apos": "'"}
APART = "the answers of tml to `check` and `spans` do not belong together"

AnyTag = TypeVar("AnyTag", bound="Tag")
Default = TypeVar("Default")


class Stretch(NamedTuple):
    """A part of something: its first byte or character, counted from 0, and the one after its last."""

    start: int
    end: int


@dataclass(frozen=True)
class Tag(Part):
    """A tag of a document, with what it holds.

    `bytes` and `characters` say where it stands in `content` and in `source` of its document, from the beginning of its start tag to the
    end of its end tag; and `stretch` where its words stand in `text`, which has no tags.
    """

    name: str
    id: str | None
    """Its `eid`, `eiid`, `tid`, `sid` or `lid`; only links may have none, or an empty one, which counts as none."""
    attributes: Mapping[str, str] = field(hash=False)
    text: str
    bytes: Stretch
    characters: Stretch
    stretch: Stretch


@dataclass(frozen=True)
class Event(Tag):
    """An EVENT."""

    @property
    def kind(self) -> str:
        """Its class, as OCCURRENCE or STATE."""
        return self.attributes["class"]


@dataclass(frozen=True)
class Instance(Tag):
    """A MAKEINSTANCE, which is an interval. Its text is that of its event."""

    event: Event


@dataclass(frozen=True)
class Time(Tag):
    """A TIMEX3, which is an interval."""

    @property
    def kind(self) -> str:
        """Its type, as DATE or DURATION."""
        return self.attributes["type"]

    @property
    def value(self) -> str:
        """Its value; nothing where it has none."""
        return self.attributes.get("value", "")


@dataclass(frozen=True)
class Signal(Tag):
    """A SIGNAL."""


@dataclass(frozen=True)
class TLink(Tag):
    """A TLINK: its number among these, counted from 0, and its relation between the names of two intervals."""

    number: int
    first: str
    relation: str
    second: str

    @property
    def lid(self) -> str | None:
        """Its identifier, where it has one."""
        return self.id

    def says(self) -> Relation:
        """What it says."""
        return Relation(self.first, self.relation, self.second)

    def called(self) -> str:
        """How it is called: by its lid, or by its number where it has none."""
        return self.id or f"link {self.number}"

    def __str__(self) -> str:
        return f"{self.called()}: {self.says()}"


@dataclass(frozen=True, repr=False)
class Document(Result):
    """An accepted document. Each question takes it in the place of bytes or a path. It contains its tags by their identifiers."""

    content: bytes
    """Its bytes."""
    path: str | None
    """Where it lay, if that is known."""
    events: tuple[Event, ...]
    instances: tuple[Instance, ...]
    times: tuple[Time, ...]
    signals: tuple[Signal, ...]
    links: tuple[TLink, ...]
    """The TLINK tags, by their numbers."""
    other_links: tuple[Tag, ...]
    """The ALINK and SLINK tags."""
    text: str
    """What can be read in it: the texts between its tags, with references decoded."""

    @cached_property
    def source(self) -> str:
        """Its bytes as characters."""
        return self.content.decode()

    @cached_property
    def intervals(self) -> Mapping[str, Instance | Time]:
        """Its instances and times by their names, in the order of their tags, which is that of their numbers."""
        found: list[Instance | Time] = in_order(*self.instances, *self.times)
        return ByName((str(one.id), one) for one in found)

    @cached_property
    def by_identifier(self) -> Mapping[str, Tag]:
        """Its tags by their identifiers, in their order."""
        tags = in_order(*self.events, *self.instances, *self.times, *self.signals, *self.links, *self.other_links)
        return {one.id: one for one in tags if one.id is not None}

    def __getitem__(self, identifier: str) -> Tag:
        """The tag with an identifier; `UnknownName` where there is none."""
        if identifier not in self.by_identifier:
            raise unknown_identifier(identifier, list(self.by_identifier))
        return self.by_identifier[identifier]

    def __contains__(self, identifier: object) -> bool:
        return identifier in self.by_identifier

    def __iter__(self) -> Iterator[str]:
        return iter(self.by_identifier)

    def __len__(self) -> int:
        return len(self.by_identifier)

    def get(self, identifier: str, default: Default | None = None) -> Tag | Default | None:
        """The tag with an identifier, or the default if there is none."""
        return self.by_identifier.get(identifier, default)

    def counted(self) -> Accepted:
        """What `check` says of it."""
        links = tuple(Link(one.number, one.first, one.relation, one.second, one.lid) for one in self.links)
        alinks = sum(one.name == "ALINK" for one in self.other_links)
        counts = (
            len(self.events),
            len(self.instances),
            len(self.times),
            len(self.signals),
            len(links),
            alinks,
            len(self.other_links) - alinks,
        )
        return Accepted(*counts, tuple(self.intervals), links)

    @property
    def creation_time(self) -> Time | None:
        """The time at which it was made, where it says one."""
        return next((one for one in self.times if one.attributes.get("functionInDocument") == "CREATION_TIME"), None)


def in_order(*tags: AnyTag) -> list[AnyTag]:
    """Tags by their places."""
    return sorted(tags, key=lambda one: one.bytes.start)


def document_from(content: bytes, path: str | None, accepted: Accepted) -> Document:
    """The model of a document, by what `check` said of it."""
    reader = Reader(content)
    events = tuple(Event(**one) for one in reader.tags("EVENT"))
    by_name = {one.id: one for one in events}
    instances = tuple(instance_of(one, by_name) for one in reader.tags("MAKEINSTANCE"))
    times = tuple(Time(**one) for one in reader.tags("TIMEX3"))
    signals = tuple(Signal(**one) for one in reader.tags("SIGNAL"))
    given = list(reader.tags("TLINK"))
    if len(given) != len(accepted.links):
        raise CannotRun(APART)
    links = tuple(link_of(one, link) for one, link in zip(given, accepted.links, strict=True))
    other_links = tuple(Tag(**one) for one in reader.tags("ALINK", "SLINK"))
    made = Document(content, path, events, instances, times, signals, links, other_links, reader.text)
    if tuple(made.intervals) != accepted.intervals:
        raise CannotRun(APART)
    return made


def units_of(content: bytes) -> Units:
    """The units of an accepted document."""
    from .tags.cutting import cut

    units = cut(content)
    if units is None:
        raise CannotRun(APART)
    return units


def instance_of(tag: dict[str, Any], events: Mapping[str | None, Event]) -> Instance:
    """An instance with its event, of which it has the text."""
    event = events.get(tag["attributes"].get("eventID"))
    if event is None:
        raise CannotRun(APART)
    tag |= {"text": event.text, "stretch": event.stretch, "event": event}
    return Instance(**tag)


def link_of(tag: dict[str, Any], link: Link) -> TLink:
    """A TLINK with its number and what it says."""
    return TLink(**tag, number=link.number, first=link.first, relation=link.relation, second=link.second)


def decoded(text: str) -> str:
    """A text or a value with its references decoded."""
    if "&" not in text:
        return text
    return REFERENCE.sub(lambda found: SIGNS[found[1]] if found[1] else chr(int(found[2]) if found[2] else int(found[3], 16)), text)


@dataclass(slots=True)
class Element:
    """A tag with what it holds: its name, where its start tag begins and ends, where it ends itself, and the same two of its words."""

    name: str
    start: int
    tag_end: int
    end: int
    first: int
    last: int


class Reader:
    """The tags of an accepted document as the model has them. It is gone through once, and only what has a meaning becomes an object."""

    def __init__(self, content: bytes) -> None:
        from .tags.source import VALUES
        from .tags.units import END, START, TEXT

        units = units_of(content)
        self.content, self.values = content, VALUES
        self.elements: list[Element] = []
        wanted = {number: (word, list[Element]()) for number, word in enumerate(units.words) if word in IDENTIFIERS}
        texts, length = list[str](), 0
        for row, (kind, number) in enumerate(zip(units.kinds, units.names, strict=True)):
            if kind == TEXT:
                texts.append(decoded(content[units.starts[row] : units.ends[row]].decode()))
                length += len(texts[-1])
            elif number in wanted:
                name, open_tags = wanted[number]
                if kind == END:
                    element = open_tags.pop()
                    element.end, element.last = units.ends[row], length
                    continue
                self.elements.append(Element(name, units.starts[row], units.ends[row], units.ends[row], length, length))
                open_tags += self.elements[-1:] if kind == START else []
        self.text = "".join(texts)
        self.characters = dict(self.counted())

    def counted(self) -> Iterator[tuple[int, int]]:
        """Of the bounds of the tags how many characters stand before them."""
        place, count = 0, 0
        for bound in sorted({bound for one in self.elements for bound in (one.start, one.end)}):
            count += len(self.content[place:bound].decode())
            place = bound
            yield place, count

    def tags(self, *names: str) -> Iterator[dict[str, Any]]:
        """The tags of some kinds in their order, by the fields of `Tag`."""
        return (self.tag(one) for one in self.elements if one.name in names)

    def tag(self, one: Element) -> dict[str, Any]:
        """A tag by the fields of `Tag`."""
        attributes = {name: decoded(value) for name, value in self.values[self.content[one.start : one.tag_end]].items()}
        return {
            "name": one.name,
            "id": attributes.get(IDENTIFIERS[one.name]) or None,
            "attributes": attributes,
            "text": self.text[one.first : one.last],
            "bytes": Stretch(one.start, one.end),
            "characters": Stretch(self.characters[one.start], self.characters[one.end]),
            "stretch": Stretch(one.first, one.last),
        }
