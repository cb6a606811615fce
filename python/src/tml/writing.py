"""Documents that say given relations, such as those that a model predicts."""

from __future__ import annotations

import html
import re
from collections.abc import Collection, Iterable, Mapping, Sequence
from functools import cached_property
from itertools import count
from typing import TYPE_CHECKING, Any, Protocol

from . import reading
from .asking import Answerer, File, content
from .documents import Document, Time, TLink, units_of
from .helping import complete
from .misuse import unknown_interval, unknown_relation
from .questions import check
from .results import Fault, Link, Relation, TooLong
from .statuses import DOCUMENT_LIMIT, IDENTIFIER_LIMIT, RELATIONS

if TYPE_CHECKING:
    from .tags.units import Units

__all__ = ["Linkable", "document_of", "with_links"]

Linkable = tuple[str, str, str] | list[str] | Relation | Link | TLink | Mapping[str, object]
"""What says a relation between two intervals: a triple, a relation or link as it was answered, or a row by the names of its columns."""


class Frame(Protocol):
    """Rows as pandas has them."""

    def itertuples(self, index: bool) -> Iterable[Any]:
        """The rows as tuples."""


Linkables = Iterable[Linkable] | Frame
"""Relations in their order, which are read once."""

NAME = re.compile(rf"[A-Za-z0-9_.-]{{1,{IDENTIFIER_LIMIT}}}")
ENDS = {"eventInstanceID": "timeID", "relatedToEventInstance": "relatedToTime"}
"""The attributes that name the two ends of a link: an instance, or else a time."""

KEPT = ("type", "mod", "value")
"""The attributes of a time by which the calendar goes."""

DURATION = re.compile(r"P[\dX.T]")
SET = re.compile(r"XXXX-")
TIME = re.compile(r"(?:[\dX-]+T|T[\dX]).*", re.DOTALL)
"""How the values of durations, of times that come again each year, and of times of the day begin."""


def with_links(document: File, relations: Linkables, by: Answerer | None = None) -> bytes | Fault | TooLong:
    """A document with other links: without its own TLINK tags, and with one for each relation at the end of its root.

    A link keeps its `lid` if no other tag has it. The names are those of the intervals of the document.
    """
    given = content(document, DOCUMENT_LIMIT)
    accepted = document.counted() if isinstance(document, Document) else check(given, by)
    if isinstance(accepted, (Fault, TooLong)):
        return accepted
    ends = Ends(accepted.intervals, reading.times_of(given), given)
    return with_tags(given, [ends.tag(one) for one in links_in(relations)])


def with_tags(document: bytes, tags: Iterable[str]) -> bytes:
    """An accepted document with other tags as its links."""
    units = units_of(document)
    links = "".join(f"{tag}\n" for tag in tags).encode()
    kept, place = [], 0
    for start, end in of_links(units):
        kept.append(document[place:start])
        place = end
    *_, root = units.named("TimeML")
    if root.kind == "empty":
        return document[: root.end - 2] + b">" + links + b"</TimeML>" + document[root.end :]
    return b"".join((*kept, document[place : root.start], links, document[root.start :]))


def of_links(units: Units) -> Iterable[tuple[int, int]]:
    """Where the TLINK tags stand, each to the end of what it may enclose."""
    start = 0
    for unit in units.named("TLINK"):
        start = unit.start if unit.kind != "end" else start
        if unit.kind != "start":
            yield start, unit.end


def identifiers_of(document: bytes) -> set[str]:
    """The identifiers of the tags of an accepted document that are no TLINK."""
    from .tags.source import VALUES

    tags = (document[unit.start : unit.end] for unit in units_of(document) if unit.opens() and unit.name != "TLINK")
    return {values[name] for values in map(VALUES.__getitem__, tags) for name in ("eid", "eiid", "tid", "sid", "lid") if name in values}


def document_of(relations: Linkables, times: Mapping[str, str] | Sequence[Time] | None = None) -> bytes:
    """A document that says these relations and nothing else. A name for which `times` has a value is a time, and all others are events.

    Times are values by their names, or those of a document as `read` answered them, which keep their type, modifier and value. A value
    alone is one of a DURATION where it begins as `P1D` or `PT5M` do, of a SET where it comes again each year, as `XXXX-WXX-1`, of a TIME
    where it has an hour or a part of the day, and else of a DATE.

    Names are of the form of identifiers: letters, digits, `_`, `-` and `.`, 64 at most; a `ValueError` tells one that is not.
    """
    links, tags = [one._replace(lid=None) for one in links_in(relations)], times_of(times)
    names = dict.fromkeys([*tags, *(name for one in links for name in (one.first, one.second))])
    bad = next((name for name in names if not NAME.fullmatch(name)), None)
    if bad is not None:
        raise ValueError(f"{bad!r} is not of the form of an identifier: letters, digits, `_`, `-` and `.`, {IDENTIFIER_LIMIT} at most")
    event = next(name for name in map("event{}".format, count()) if name not in names)
    lines = [f'<EVENT eid="{event}" class="OCCURRENCE"></EVENT>']
    lines += [tags.get(name, f'<MAKEINSTANCE eiid="{name}" eventID="{event}"/>') for name in names]
    ends = Ends(list(names), tags)
    lines += [ends.tag(one) for one in links]
    return "\n".join(["<TimeML>", *lines, "</TimeML>", ""]).encode()


def times_of(times: Mapping[str, str] | Sequence[Time] | None) -> dict[str, str]:
    """The tags of times by their names."""
    if times is None:
        return {}
    if isinstance(times, Mapping):
        return {name: timex(name, {"type": type_of(name, value), "value": value}) for name, value in times.items()}
    given: list[Any] = [*times] if isinstance(times, Iterable) else [times]
    if not all(isinstance(one, Time) for one in given):
        raise TypeError(f"times are values by their names, or Times that tml.read answered, and not {times!r}")
    return {str(one.id): timex(str(one.id), {name: one.attributes[name] for name in KEPT if name in one.attributes}) for one in given}


def type_of(name: str, value: str) -> str:
    """The type of a time with this value, as far as that can be seen."""
    if not isinstance(value, str):
        raise TypeError(f"the value of the time {name!r} is a text, as 1998-01-08, and not {value!r}")
    if DURATION.match(value) and not value.startswith("PAST"):
        return "DURATION"
    return "SET" if SET.match(value) else "TIME" if TIME.fullmatch(value) else "DATE"


def timex(name: str, attributes: Mapping[str, str]) -> str:
    """The tag of a time."""
    written = "".join(f' {key}="{html.escape(value)}"' for key, value in attributes.items())
    return f'<TIMEX3 tid="{name}"{written}></TIMEX3>'


def links_in(relations: Linkables) -> list[Link]:
    """Relations as links, in their order."""
    rows = relations.itertuples(index=False) if hasattr(relations, "itertuples") else relations
    return [link_of(number, row) for number, row in enumerate(rows)]


def link_of(number: int, row: Any) -> Link:
    """What a row says: by its names, or a triple by its places; a `TypeError` where it says no relation."""
    *words, lid = (row.get(name) if hasattr(row, "get") else getattr(row, name, None) for name in (*Relation._fields, "lid"))
    is_array = hasattr(row, "tolist") and not isinstance(row, str)
    if (is_array or isinstance(row, (tuple, list))) and all(word is None for word in words):
        words = row.tolist() if is_array else list(row)
    if len(words) != 3 or not all(isinstance(word, str) for word in words):
        names = ", ".join(Relation._fields)
        raise TypeError(f"a relation is a triple of a name, a relation and a name, or a link, or a row with {names}, and not {row!r}")
    first, relation, second = map(str, words)
    return Link(number, first, relation, second, lid if isinstance(lid, str) else None)


class Ends:
    """The names that links of a document may have at their ends, of which some are times."""

    def __init__(self, names: Sequence[str], times: Collection[str], document: bytes = b"") -> None:
        self.names, self.known, self.times, self.document = names, set(names), times, document

    @cached_property
    def taken(self) -> set[str]:
        """The identifiers that are taken."""
        return identifiers_of(self.document) if self.document else set()

    def tag(self, one: Link) -> str:
        """The tag of a link."""
        for name in (one.first, one.second):
            if name not in self.known:
                raise unknown_interval(name, self.names, reading.events_of(self.document).get(name, ()))
        if one.relation not in RELATIONS:
            raise unknown_relation(one.relation)
        ends = [
            f'{time if name in self.times else instance}="{name}"'
            for (instance, time), name in zip(ENDS.items(), (one.first, one.second), strict=True)
        ]
        return f'<TLINK {self.identifier(one.lid)}{ends[0]} {ends[1]} relType="{one.relation}"/>'

    def identifier(self, lid: str | None) -> str:
        """The lid of a link as it is written, where it has one that no other tag has."""
        if lid is None or lid in self.taken or not NAME.fullmatch(lid):
            return ""
        self.taken.add(lid)
        return f'lid="{lid}" '


complete(globals())
