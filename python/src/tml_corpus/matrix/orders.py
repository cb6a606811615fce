"""What `tml matrix` says of the starts and ends of intervals: which are always before which others, and which never after.

The start or the end of an interval is a *point*: of interval i the start is point 2i and the end point 2i + 1. `tml matrix` prints of
each two intervals those base relations that some timeline has. So what is so of two points in each of these is so in every timeline.
"""

from __future__ import annotations

from collections.abc import Iterator
from dataclasses import dataclass
from functools import cached_property

from tml.matrices import Matrix
from tml.statuses import BASE_RELATIONS

SIGNS = dict(
    zip(
        BASE_RELATIONS,
        ("<<<<", ">>>>", "<<>>", "><><", "=<>=", "<<=<", ">=>>", "=<><", "=<>>", "><>=", "<<>=", "<<><", "><>>"),
        strict=True,
    )
)
"""Of each base relation how the start and then the end of the first interval stand to the start and then to the end of the second."""

POINTS = tuple((one, other) for one in range(2) for other in range(2))
"""The four pairs of a point of one interval and one of another, in the order of the signs: a start is 0, and an end is 1."""

RELATIONS = {signs: relation for relation, signs in SIGNS.items()}


def base_relation(first: tuple[int, int], second: tuple[int, int]) -> str:
    """The base relation that holds between two intervals, each given by the ranks of its start and its end."""
    return RELATIONS["".join("<" if one < other else "=" if one == other else ">" for one in first for other in second)]


def members(points: int) -> Iterator[int]:
    """The points of a set, which is a number: point p is in it where bit p is set."""
    while points:
        lowest = points & -points
        yield lowest.bit_length() - 1
        points ^= lowest


@dataclass
class PointOrders:
    """Of each point the sets of those that are never before it, always after it, never after it, and always before it."""

    not_before: list[int]
    after: list[int]
    not_after: list[int]
    before: list[int]

    @classmethod
    def of(cls, matrix: Matrix) -> PointOrders:
        """What a matrix says."""
        points = range(2 * len(matrix.intervals))
        itself = [1 << point for point in points]
        orders = cls(itself, [0] * len(points), itself[:], [0] * len(points))
        for start in points[::2]:
            orders.note(start, start + 1, "<")
        signs = [["".join(sorted({SIGNS[one][place] for one in relations})) for place in range(len(POINTS))] for relations in matrix.sets]
        known = [[(pair, sign) for pair, sign in zip(POINTS, some, strict=True) if sign not in ("<=>", "<>")] for some in signs]
        for left, right, number in matrix.pairs():
            for (point, other), sign in known[number]:
                orders.note(2 * left + point, 2 * right + other, sign)
        return orders

    def note(self, first: int, second: int, signs: str) -> None:
        """Notes which signs are possible between two points, without what follows from it."""
        if ">" not in signs:
            self.not_before[first] |= 1 << second
            self.not_after[second] |= 1 << first
        if "<" not in signs:
            self.not_before[second] |= 1 << first
            self.not_after[first] |= 1 << second
        if signs == "<":
            self.after[first] |= 1 << second
            self.before[second] |= 1 << first
        if signs == ">":
            self.after[second] |= 1 << first
            self.before[first] |= 1 << second

    def copy(self) -> PointOrders:
        """The same, to be changed."""
        return PointOrders(self.not_before[:], self.after[:], self.not_after[:], self.before[:])

    def add(self, first: int, second: int, strict: bool) -> int:
        """Adds that one point is before another, or no later, and all that follows; and answers the points of which more is known."""
        if (self.after if strict else self.not_before)[first] >> second & 1:
            return 0
        earlier, later = self.not_after[first], self.not_before[second]
        before, after = (earlier, later) if strict else (self.before[first], self.after[second])
        really_earlier, really_later = self.before[first], self.after[second]
        for point in members(earlier):
            self.not_before[point] |= later
            self.after[point] |= later if really_earlier >> point & 1 else after
        for point in members(later):
            self.not_after[point] |= earlier
            self.before[point] |= earlier if really_later >> point & 1 else before
        return earlier | later

    def add_relation(self, left: int, relation: str, right: int) -> int:
        """Adds that a base relation holds between two intervals; and answers the points of which more is known."""
        changed = 0
        for (point, other), sign in zip(POINTS, SIGNS[relation], strict=True):
            first, second = 2 * left + point, 2 * right + other
            if sign != ">":
                changed |= self.add(first, second, sign == "<")
            if sign != "<":
                changed |= self.add(second, first, sign == ">")
        return changed

    def placed(self, point: int) -> int:
        """The points of which it is known how they stand to a point."""
        return self.after[point] | self.before[point] | (self.not_before[point] & self.not_after[point])

    def decided(self, interval: int) -> int:
        """With how many intervals an interval is decided, itself among them."""
        start, end = self.placed(2 * interval), self.placed(2 * interval + 1)
        starts = self.starts
        return (start & (start >> 1) & end & (end >> 1) & starts).bit_count()

    @cached_property
    def starts(self) -> int:
        """The points that are starts."""
        return sum(1 << point for point in range(0, len(self.after), 2))
