"""What pictures of a document state: the one model that they are drawn from. It holds only what is so in every timeline that fits.

A *point* is the start or the end of an interval, and all is read off what `tml matrix` says of each two points (`matrix.orders`).
One point is *before* another if it is before it in every timeline, and *never after* it if it is after it in none; two points are
*together* if neither is ever after the other.

- **The axis** is a row of *places*. A place is a point and all points that are together with it, and each place is before the next
  one. Every start and end of an exact date has a place, unless no other interval is ordered with any of these. There is no such row
  with more places. If no two intervals are ordered, there is no axis, or only that of the exact date.
- **Bounds.** The *lower* bound of a point is the last place that is never after it, and its *upper* bound the first place that it is
  never after. A bound is *strict* if the two are never together. Either may be missing. Both are its own place if it has one.
- **A bar** reaches from the lower bound of its start to the upper bound of its end: its interval lies nowhere else. It is solid from
  the upper bound of its start to the lower bound of its end, if these are in that order: its interval has begun and not ended there.
- **Listed** is an interval that has no bound at either point.
- **Orders** are what bars do not say: that one point is before another one, never after it, or together with it, where neither has a
  place. What follows from bounds, from the other orders, and from the fact that a start is before its end is left out.

So the bounds and orders together say, of each two points, exactly what `tml matrix` says but for this: that two points are never
together though each may be before the other.
"""

from __future__ import annotations

from collections.abc import Collection, Iterator
from dataclasses import dataclass
from itertools import pairwise

from ..matrix.orders import PointOrders, members


@dataclass(frozen=True)
class Bound:
    """A place of the axis, and whether the point is never at it."""

    place: int
    strict: bool = False


@dataclass(frozen=True)
class Order:
    """One point and another one that it is before (`<`), that it is never after (`≤`), or that it is together with (`=`)."""

    first: int
    sign: str
    second: int

    def is_whole(self) -> bool:
        """Whether it puts a whole interval before another one: its end before the start of that."""
        return self.first % 2 == 1 and self.second % 2 == 0


@dataclass(frozen=True)
class Known:
    """The axis, as the points of each place; of each point its lower and its upper bound; what is listed; and the orders."""

    axis: list[list[int]]
    lower: dict[int, Bound | None]
    upper: dict[int, Bound | None]
    listed: list[int]
    orders: list[Order]

    @classmethod
    def of(cls, orders: PointOrders, exact: Collection[int], chosen: Collection[int]) -> Known:
        """What is known of some intervals, of which some are exact dates."""
        sets = Sets(orders, sum(3 << 2 * interval for interval in chosen))
        axis = sets.axis(sum(3 << 2 * interval for interval in exact))
        places = sum(1 << point for point in axis)
        points = [point for interval in sorted(chosen) for point in (2 * interval, 2 * interval + 1)]
        lower = {point: bound(orders.not_after[point], orders.before[point], places, True) for point in points}
        upper = {point: bound(orders.not_before[point], orders.after[point], places, False) for point in points}
        bounds = {point: lower[point] or upper[point] for point in points}
        listed = [start // 2 for start in points[::2] if not (bounds[start] or bounds[start + 1])]
        return cls([list(members(sets.together(point))) for point in axis], lower, upper, listed, list(sets.orders_beyond(axis)))

    def untied(self) -> set[int]:
        """The listed intervals without any order."""
        ordered = {point // 2 for order in self.orders for point in (order.first, order.second)}
        return set(self.listed) - ordered

    def place(self, point: int) -> int | None:
        """The place of a point on the axis, if it has one."""
        lower, upper = self.lower[point], self.upper[point]
        return lower.place if lower is not None and lower == upper else None


def bound(weak: int, strict: int, places: int, is_lower: bool) -> Bound | None:
    """A bound of a point, by the points that are never after it, or that it is never after, and those of these that are never at it."""
    count = (weak & places).bit_count()
    if not count:
        return None
    return Bound(count - 1 if is_lower else places.bit_count() - count, count == (strict & places).bit_count())


@dataclass(frozen=True)
class Sets:
    """The orders of some points, as sets of points."""

    of: PointOrders
    chosen: int

    def together(self, point: int) -> int:
        """The points that are together with a point, itself among them."""
        return self.of.not_before[point] & self.of.not_after[point] & self.chosen

    def first_ones(self) -> int:
        """Of all points that are together the first."""
        return sum(1 << point for point in members(self.chosen) if self.together(point) & ((1 << point) - 1) == 0)

    def axis(self, dates: int) -> list[int]:
        """A point for each place of the axis, which has some points that are ordered with each other, if others are ordered with them.

        A longest row of points that are ordered with all of these has them too, since it could have them besides.
        """
        order, allowed, others = self.of, self.first_ones(), self.chosen & ~dates
        is_tied = any((order.not_before[point] | order.not_after[point]) & others for point in members(dates))
        for point in members(dates if is_tied else 0):
            allowed &= order.placed(point)
        # Of each length of a row the points with which the longest row that ends there is so long. One before comes earlier.
        ends: list[int] = []
        for point in sorted(members(allowed), key=lambda point: order.before[point].bit_count()):
            length = next((one for one in range(len(ends), 0, -1) if order.before[point] & ends[one - 1]), 0)
            ends += [0] * (length == len(ends))
            ends[length] |= 1 << point
        row: list[int] = []
        for some in reversed(ends):
            fitting = some & order.before[row[-1]] if row else some
            row.append(max(members(fitting), key=lambda point: (order.placed(point).bit_count(), self.ordered(point).bit_count(), -point)))
        return list(members(dates)) if self.is_alone(row) else row[::-1]

    def is_alone(self, row: list[int]) -> bool:
        """Whether some points are of one interval, and no other interval is ordered with them."""
        others = self.chosen & ~sum(1 << point | 1 << (point ^ 1) for point in row[:1])
        return not any(self.ordered(point) & others for point in row)

    def ordered(self, point: int) -> int:
        """The points that are never before a point, or never after it."""
        return (self.of.not_before[point] | self.of.not_after[point]) & self.chosen

    def orders_beyond(self, axis: list[int]) -> Iterator[Order]:
        """The orders that neither the axis nor others say."""
        on_axis = sum(self.together(point) for point in axis)
        first_ones = self.first_ones()
        for point in members(first_ones & ~on_axis):
            for one, other in pairwise(members(self.together(point))):
                yield Order(other, "=", one) if one % 2 < other % 2 else Order(one, "=", other)
            for sign, later in zip("<≤", self.next_ones(point, first_ones), strict=True):
                for other in members(later & ~on_axis):
                    if sign == "≤" or not self.is_of_one_interval(point, other):
                        yield self.between(point, sign, other)

    def next_ones(self, point: int, first_ones: int) -> tuple[int, int]:
        """The points that a point is before, and those that it is never after, without those of which other points between say so."""
        order = self.of
        before = order.after[point] & first_ones
        never_after = order.not_before[point] & first_ones & ~before & ~self.together(point)
        for other in members(before):
            before &= ~order.not_before[other] | self.together(other)
        for other in members(never_after):
            before &= ~order.after[other]
        for other in members(never_after):
            never_after &= ~order.not_before[other] | self.together(other)
        return before, never_after

    def is_of_one_interval(self, first: int, second: int) -> bool:
        """Whether an interval starts at the one and ends at the other."""
        starts = self.together(first) & self.of.starts
        return bool(starts << 1 & self.together(second))

    def between(self, first: int, sign: str, second: int) -> Order:
        """An order between two of the points that are together with these: best of an end and a start, then of two starts or two ends."""
        pairs = [(one, other) for one in members(self.together(first)) for other in members(self.together(second))]
        best = min(pairs, key=lambda pair: (pair[1] % 2 - pair[0] % 2, pair))
        return Order(best[0], sign, best[1])
