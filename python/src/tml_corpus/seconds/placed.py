"""A document with its placing in whole seconds, or with what cannot all be met, in words of the text."""

from __future__ import annotations

import math
from dataclasses import dataclass, replace

from tml.lines import Step

from ..asking.program import FAULT, CannotRun, Program
from ..check.placed import PlacedNote
from ..clash.constraints import Constraints
from ..clash.fitting import Unfit, fault_of
from ..clash.report import PlacedLink
from ..clash.search import placed_link
from ..clash.touching import asks, touching_changes, with_changes
from ..document.words import Wording
from ..files.finding import counted
from .civil import civil, length
from .placing import Cycle, Placing, place


@dataclass(frozen=True)
class PlacedInterval:
    """An interval with the seconds of its start and its end, and the earliest and latest ones that these can have, where there are such."""

    name: str
    text: str
    kind: str
    start: int
    end: int
    starts: tuple[int | None, int | None]
    ends: tuple[int | None, int | None]

    def is_fixed(self) -> bool:
        """Whether it has no other place."""
        return self.starts == (self.start, self.start) and self.ends == (self.end, self.end)


@dataclass(frozen=True)
class Placed:
    """The intervals of a document in the order of their starts, and how many links it has."""

    wording: Wording
    intervals: list[PlacedInterval]
    order: tuple[int, ...]
    """Of each interval in this order its number in the document."""

    changes: tuple[PlacedNote, ...] = ()
    """How links between dates that touch were read."""

    def by_number(self) -> dict[int, PlacedInterval]:
        """The intervals by their numbers in the document."""
        return dict(zip(self.order, self.intervals, strict=True))

    def counts(self) -> str:
        """How many intervals and links there are."""
        return f"{counted(len(self.intervals), 'interval')}, {counted(len(self.wording.link_tags), 'link')}"


@dataclass(frozen=True)
class Unplaced:
    """What cannot all be met: links, and dates and lengths; and how many seconds are missing."""

    links: list[PlacedLink]
    notes: list[PlacedNote]
    short: int
    changes: tuple[PlacedNote, ...] = ()
    """How links between dates that touch were read."""

    def text(self) -> str:
        """It in one line."""
        things = ["links"] if self.links else []
        things += ["dates and lengths"] if self.notes else []
        what = " and ".join(things).replace("links and dates", "links, dates") or "intervals"
        return f"no placing in seconds: these {what} cannot all be met, {self.short:,} {'second' if self.short == 1 else 'seconds'} short"


def document_placed(program: Program, path: str, document: bytes, touching: bool) -> Placed | Unplaced | Unfit:
    """The placing of a document, or why there is none. Links between dates that touch may be read as the relation that holds."""
    found = placed(program, path, document)
    return read_touching(program, path, document) or found if touching and isinstance(found, Unplaced) else found


def placed(program: Program, path: str, document: bytes) -> Placed | Unplaced | Unfit:
    """The placing of a document whose links are read as they are written."""
    found = place(program, document)
    if isinstance(found, Placing | Cycle):
        wording = Wording(program, document)
        return with_intervals(wording, found) if isinstance(found, Placing) else in_words(wording, found)
    if found.status == FAULT:
        return fault_of(program, path, document)
    raise CannotRun(found.problem())


def read_touching(program: Program, path: str, document: bytes) -> Placed | Unplaced | None:
    """The same with links between dates that touch read as the relation that holds, where there are such: none is true as it is written."""
    changes = touching_changes(Wording(program, document))
    found = placed(program, path, with_changes(document, changes)) if changes else None
    if found is None or isinstance(found, Unfit):
        return None
    said = (PlacedNote(one.link.place, f"read as {one.relation}: {one.reason}, and {asks(one.link.relation)}") for one in changes)
    return replace(found, changes=tuple(said))


def with_intervals(wording: Wording, placing: Placing) -> Placed:
    """The intervals with their seconds; of those that start together the ones that end later come first."""
    seconds = placing.seconds
    if len(seconds) != 2 * len(wording.intervals):
        raise CannotRun("the answers of tml to `check` and `seconds` do not belong together")
    ranges = [(whole(earliest), whole(latest)) for earliest, latest in Constraints(wording).ranges()]
    if any(not between(second, *limits) for second, limits in zip(seconds, ranges, strict=True)):
        raise CannotRun("the answers of tml to `seconds` and `dates` do not belong together")
    order = sorted(range(len(wording.intervals)), key=lambda number: (seconds[2 * number], -seconds[2 * number + 1], number))
    intervals = []
    for number in order:
        name = wording.intervals[number]
        kind = wording.dates[name][0] if name in wording.dates else "event"
        start, end = 2 * number, 2 * number + 1
        intervals.append(PlacedInterval(name, wording.whole_text_of(name), kind, seconds[start], seconds[end], ranges[start], ranges[end]))
    return Placed(wording, intervals, tuple(order))


def whole(second: float) -> int | None:
    """A second, or none where there is no end."""
    return int(second) if math.isfinite(second) else None


def between(second: int, earliest: int | None, latest: int | None) -> bool:
    """Whether a second is within limits, of those that are there."""
    return (earliest is None or earliest <= second) and (latest is None or second <= latest)


def in_words(wording: Wording, cycle: Cycle) -> Unplaced:
    """What a cycle goes over in words, each once: links as they come in time, and then what the dates and lengths say."""
    constraints = Constraints(wording)
    short, steps = constraints.short_of(cycle), constraints.in_time(cycle)
    links = list(dict.fromkeys(step.first for step in steps if step.kind == "via"))
    others = list(dict.fromkeys(step for step in steps if step.kind not in ("via", "span")))
    return Unplaced([placed_link(wording, number) for number in links], [note(constraints, step) for step in others], short)


def note(constraints: Constraints, step: Step) -> PlacedNote:
    """What the calendar says of a point, or a time of its length."""
    wording, is_date = constraints.wording, step.kind in ("lower", "upper")
    name = wording.intervals[step.first // 2 if is_date else step.first]
    tag, text = wording.tags["TIMEX3"].get(name), wording.text_of(name)
    where = wording.places.place(tag.start if tag is not None else 0)
    if is_date:
        bound = constraints.bound(step.first, step.kind == "upper")
        verb = "ends" if step.first % 2 else "starts"
        when = "no later than" if step.kind == "upper" else "no earlier than"
        return PlacedNote(where, f"by the calendar {text} {verb} {when} {civil(bound or 0)}")
    limits = constraints.limits[step.first]
    number = limits.most if step.kind == "most" else limits.least
    most = "at most" if step.kind == "most" else "at least"
    return PlacedNote(where, f"{text} lasts {length(number or 0)} {most}")
