"""The relations of TLINK: *Relations* and *Atoms* of the section *Relations, nets and timelines* of docs/DEFINITIONS.md.

What a relation says is written down twice, as the page has it: where it holds of two intervals, and as orders of points.
"""

from __future__ import annotations

from collections.abc import Callable, Mapping, Sequence
from dataclasses import dataclass

Interval = tuple[int, int]
"""The ranks of a start and of an end."""


@dataclass(frozen=True)
class Order:
    """An atom: the first of two points is before the second, or, where it is not strict, no later."""

    first: int
    second: int
    strict: bool

    def is_true(self, ranks: Sequence[int]) -> bool:
        """Whether it is true of a timeline."""
        first, second = ranks[self.first], ranks[self.second]
        return first < second if self.strict else first <= second

    def negation(self) -> Order:
        """The order that is true exactly where this one is not."""
        return Order(self.second, self.first, not self.strict)


ORDERS: Mapping[bytes, tuple[str, ...]] = {
    b"BEFORE": ("a.finish < b.start",),
    b"AFTER": ("b.finish < a.start",),
    b"INCLUDES": ("a.start < b.start", "b.finish < a.finish"),
    b"IS_INCLUDED": ("b.start < a.start", "a.finish < b.finish"),
    b"DURING": ("b.start <= a.start", "a.finish <= b.finish"),
    b"DURING_INV": ("a.start <= b.start", "b.finish <= a.finish"),
    b"SIMULTANEOUS": ("a.start <= b.start", "b.start <= a.start", "a.finish <= b.finish", "b.finish <= a.finish"),
    b"IDENTITY": ("a.start <= b.start", "b.start <= a.start", "a.finish <= b.finish", "b.finish <= a.finish"),
    b"IBEFORE": ("a.finish <= b.start", "b.start <= a.finish"),
    b"IAFTER": ("b.finish <= a.start", "a.start <= b.finish"),
    b"BEGINS": ("a.start <= b.start", "b.start <= a.start", "a.finish < b.finish"),
    b"BEGUN_BY": ("a.start <= b.start", "b.start <= a.start", "b.finish < a.finish"),
    b"ENDS": ("a.finish <= b.finish", "b.finish <= a.finish", "b.start < a.start"),
    b"ENDED_BY": ("a.finish <= b.finish", "b.finish <= a.finish", "a.start < b.start"),
    b"OVERLAPS": ("a.start < b.start", "b.start < a.finish", "a.finish < b.finish"),
    b"OVERLAPPED_BY": ("b.start < a.start", "a.start < b.finish", "b.finish < a.finish"),
}
"""The table of *Atoms*. Its order is that of the table of relations."""
PARSED = {relation: tuple(text.split() for text in texts) for relation, texts in ORDERS.items()}
"""The same, with each order cut into a point, a sign and a point."""

RELATIONS = tuple(ORDERS)
BASE_RELATIONS = tuple(relation for relation in RELATIONS if relation not in (b"DURING", b"DURING_INV", b"IDENTITY"))
"""*Base relations*: of two intervals, each of which starts before it ends, exactly one of them holds."""
INVERSES = {
    b"AFTER": b"BEFORE",
    b"IAFTER": b"IBEFORE",
    b"INCLUDES": b"IS_INCLUDED",
    b"DURING_INV": b"DURING",
    b"BEGUN_BY": b"BEGINS",
    b"ENDED_BY": b"ENDS",
    b"OVERLAPPED_BY": b"OVERLAPS",
}


def orders_of(left: int, relation: bytes, right: int) -> tuple[Order, ...]:
    """The orders of a relation between two intervals: interval i starts at point 2i and ends at point 2i + 1."""
    points = {"a.start": 2 * left, "a.finish": 2 * left + 1, "b.start": 2 * right, "b.finish": 2 * right + 1}
    return tuple(Order(points[first], points[second], sign == "<") for first, sign, second in PARSED[relation])


def holds(left: Interval, relation: bytes, right: Interval) -> bool:
    """*Relations*: whether a relation holds of two intervals, by their starts and ends."""
    if relation in INVERSES:
        return HOLDS[INVERSES[relation]](*right, *left)
    return HOLDS[relation](*left, *right)


HOLDS: Mapping[bytes, Callable[[int, int, int, int], bool]] = {
    b"BEFORE": lambda start, finish, other_start, other_finish: finish < other_start,
    b"IBEFORE": lambda start, finish, other_start, other_finish: finish == other_start,
    b"IS_INCLUDED": lambda start, finish, other_start, other_finish: other_start < start and finish < other_finish,
    b"DURING": lambda start, finish, other_start, other_finish: other_start <= start and finish <= other_finish,
    b"BEGINS": lambda start, finish, other_start, other_finish: start == other_start and finish < other_finish,
    b"ENDS": lambda start, finish, other_start, other_finish: finish == other_finish and other_start < start,
    b"SIMULTANEOUS": lambda start, finish, other_start, other_finish: start == other_start and finish == other_finish,
    b"IDENTITY": lambda start, finish, other_start, other_finish: start == other_start and finish == other_finish,
    b"OVERLAPS": lambda start, finish, other_start, other_finish: start < other_start < finish < other_finish,
}
"""The table of *Relations*, without those that are another one the other way round: by the start and the end of each interval."""
