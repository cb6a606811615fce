"""Relations that clash with more confident ones, found by the walks that their orders make: what is found so is put to `tml`, which judges.

The start of interval I is point 2 I and its end is point 2 I + 1; after these come the seconds at which times start or end. A relation
clashes where it would put a point before itself.
"""

from __future__ import annotations

from collections.abc import Iterable, Mapping, Sequence

from .results import Date, Relation
from .statuses import ORDERS


class Walks:
    """Points, and of each one those that it is no later than, and those that it is before, as the bits of two numbers."""

    def __init__(self, intervals: Sequence[str], dates: Mapping[str, Date]) -> None:
        self.numbers = {name: number for number, name in enumerate(intervals)}
        dated = [(name, one.start, one.end) for name, one in dates.items() if one.start is not None and one.end is not None]
        seconds = sorted({second for _, *bounds in dated for second in bounds})
        places = {second: 2 * len(intervals) + number for number, second in enumerate(seconds)}
        count = 2 * len(intervals)
        self.before = [0 if point % 2 else 1 << point + 1 for point in range(count)]
        self.before += [(1 << count + len(seconds)) - (1 << point + 1) for point in places.values()]
        self.no_later = [later | 1 << point for point, later in enumerate(self.before)]
        for name, start, end in dated:
            self.add_date(self.numbers[name], places[start], places[end], is_exact=dates[name].kind == "exact")

    def add_date(self, number: int, start: int, end: int, *, is_exact: bool) -> None:
        """An interval lies between two points, or starts and ends at them."""
        self.add(start, 2 * number, is_strict=False)
        self.add(2 * number + 1, end, is_strict=False)
        if is_exact:
            self.add(2 * number, start, is_strict=False)
            self.add(end, 2 * number + 1, is_strict=False)

    def add(self, first: int, second: int, *, is_strict: bool) -> bool:
        """One point is no later than another one, or before it; answers whether that puts no point before itself."""
        if self.before[second] >> first & 1 or (is_strict and self.no_later[second] >> first & 1):
            return False
        if not (self.before if is_strict else self.no_later)[first] >> second & 1:
            for point, reached in enumerate(self.no_later):
                if reached >> first & 1:
                    strictly = is_strict or self.before[point] >> first & 1
                    self.before[point] |= self.no_later[second] if strictly else self.before[second]
                    self.no_later[point] |= self.no_later[second]
        return True

    def takes(self, relation: Relation) -> bool:
        """Whether a relation fits what was added before; then it is added, and else nothing is changed."""
        numbers = {"A": self.numbers[relation.first], "B": self.numbers[relation.second]}
        kept = list(self.no_later), list(self.before)
        for order in ORDERS[relation.relation]:
            first, second = (2 * numbers[point[0]] + int(point[1]) for point in (order[:2], order[3:]))
            if not self.add(first, second, is_strict=order[2] == "<"):
                self.no_later, self.before = kept
                return False
        return True


def fitting(intervals: Sequence[str], dates: Mapping[str, Date], relations: Iterable[tuple[int, Relation]]) -> list[int]:
    """The numbers of those relations that clash with none of those before them which are among these."""
    walks = Walks(intervals, dates)
    return [number for number, relation in relations if walks.takes(relation)]
