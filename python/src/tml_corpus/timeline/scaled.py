"""A placing in whole seconds: an axis of time that is true to scale, and rows that say when they are placed."""

from __future__ import annotations

from dataclasses import dataclass, replace

from ..figure.shapes import SMALL
from ..seconds.civil import civil, length
from ..seconds.formats import span
from ..seconds.placed import Placed, PlacedInterval
from .axis import marks
from .extents import Extent
from .lettering import measured
from .rows import Row, Timeline

NARROWEST_BAR = 2.0


@dataclass(frozen=True)
class Seconds:
    """An axis of seconds: its first and its last one, and where these are in a picture."""

    first: int
    last: int
    left: float
    right: float

    def x(self, second: int) -> float:
        """Where a second is; one beyond an edge is at that edge."""
        inside = min(max(second, self.first), self.last)
        return self.left + (inside - self.first) * (self.right - self.left) / (self.last - self.first)

    def marks(self) -> list[tuple[float, str]]:
        """The marks of the axis, as many as have room."""
        most = int((self.right - self.left) // (measured("0000-00-00 ", SMALL) + 8))
        return [(self.x(second), text) for second, text in marks(self.first, self.last, most)]

    def extent(self, one: PlacedInterval) -> Extent:
        """The bar of an interval: solid where it is placed, and hollow where it can be too."""
        begin, (earliest, latest) = self.x(one.start), (one.starts[0], one.ends[1])
        solid = begin, max(self.x(one.end), begin + NARROWEST_BAR)
        left = self.left if earliest is None else self.x(earliest)
        right = self.right if latest is None else self.x(latest)
        # What is shorter than a point is not seen.
        outer = left if left < solid[0] - 1 else solid[0], right if right > solid[1] + 1 else solid[1]
        return Extent(outer, (earliest is None, latest is None), solid)


def placed_row(row: Row, one: PlacedInterval, is_tied: bool) -> Row:
    """A row that says when it is placed and how far each of its ends can move, if some order ties it."""
    limits = (("start", one.start, one.starts), ("end", one.end, one.ends))
    said = tuple(f"{end}: {span(*ends)}" for end, second, ends in limits if ends != (second, second))
    when = f"{civil(one.start)} to {civil(one.end)}, {length(one.end - one.start)}"
    return replace(row, is_tied=is_tied, when=when, said=said if is_tied else ())


def in_seconds(timeline: Timeline, placed: Placed) -> Timeline:
    """The rows of a placing; only those without any order are listed."""
    intervals, untied = placed.by_number(), timeline.known.untied()
    rows = [placed_row(row, intervals[number], number not in untied) for number, row in timeline.by_number().items()]
    return replace(timeline, rows=rows, known=replace(timeline.known, listed=sorted(untied), orders=[]))
