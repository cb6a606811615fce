"""Identifiers, references, limits, and what a document says: the section *Identifiers, references and limits* of docs/DEFINITIONS.md."""

from __future__ import annotations

from collections.abc import Iterator, Mapping, Sequence
from dataclasses import dataclass

from .dates import Time, bounds_of
from .faults import Fault, Kind, first_fault
from .nets import Link, Net
from .typed_tags import TypedTag

MOST_INTERVALS = 1_024
MOST_LINKS = 4_096
INTERVAL_TAGS = (b"MAKEINSTANCE", b"TIMEX3")


@dataclass(frozen=True)
class NamedInterval:
    """An interval of a document: its name, and what a TIMEX3 says of its time."""

    name: bytes
    time: Time | None


@dataclass(frozen=True)
class Document:
    """What a document says: the number of tags of each kind, the intervals and the links."""

    counts: Mapping[bytes, int]
    intervals: tuple[NamedInterval, ...]
    links: tuple[Link, ...]

    def number_of(self, name: bytes) -> int | None:
        """The number of the interval with a name."""
        return next((number for number, interval in enumerate(self.intervals) if interval.name == name), None)

    def net(self) -> Net:
        """*The net of a document*."""
        return Net(tuple(bounds_of(one.time) if one.time else None for one in self.intervals), self.links)


def judged(tags: Sequence[TypedTag]) -> Iterator[tuple[int, set[Kind]]]:
    """*Rules*: of each typed tag, in order, its place and the rules that it breaks given the tags before it."""
    known = {(tag.name, tag.identifier()) for tag in tags}
    names_before: set[bytes] = set()
    intervals_before, links_before = 0, 0
    for tag in tags:
        broken = set()
        name = tag.identifier()
        if name in names_before:
            broken.add(Kind.DuplicateId)
        if any(reference not in known for reference in tag.references()):
            broken.add(Kind.UnknownReference)
        if tag.name in INTERVAL_TAGS and intervals_before == MOST_INTERVALS:
            broken.add(Kind.TooManyIntervals)
        if tag.name == b"TLINK" and links_before == MOST_LINKS:
            broken.add(Kind.TooManyLinks)
        yield tag.place, broken
        names_before |= {name} if name is not None else set()
        intervals_before += tag.name in INTERVAL_TAGS
        links_before += tag.name == b"TLINK"


def reference_fault(tags: Sequence[TypedTag]) -> Fault | None:
    """The first fault of typed tags."""
    return first_fault(judged(tags))


def interval_of(tag: TypedTag) -> NamedInterval:
    """The interval that a MAKEINSTANCE or a TIMEX3 is."""
    if tag.name == b"MAKEINSTANCE":
        return NamedInterval(tag.fields[b"eiid"], None)
    return NamedInterval(tag.fields[b"tid"], Time(tag.fields[b"type"], tag.fields.get(b"mod"), tag.fields.get(b"value")))


def document_of(tags: Sequence[TypedTag]) -> Document:
    """*Intervals and links*: the document to which typed tags resolve that break no rule."""
    names = (b"EVENT", b"MAKEINSTANCE", b"TIMEX3", b"SIGNAL", b"TLINK", b"ALINK", b"SLINK")
    counts = {name: sum(tag.name == name for tag in tags) for name in names}
    intervals = tuple(interval_of(tag) for tag in tags if tag.name in INTERVAL_TAGS)
    numbers = {interval.name: number for number, interval in enumerate(intervals)}
    links = []
    for tag in tags:
        if tag.name == b"TLINK":
            left = tag.fields.get(b"eventInstanceID") or tag.fields[b"timeID"]
            right = tag.fields.get(b"relatedToEventInstance") or tag.fields[b"relatedToTime"]
            links.append(Link(numbers[left], tag.fields[b"relType"], numbers[right]))
    return Document(counts, intervals, tuple(links))
