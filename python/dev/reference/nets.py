"""Nets, what fits them, steps and walks: the section *Relations, nets and timelines* of docs/DEFINITIONS.md."""

from __future__ import annotations

import functools
import operator
from collections.abc import Iterable, Iterator, Sequence
from dataclasses import dataclass

from .dates import Bounds
from .relations import Order, holds, orders_of

Ranks = tuple[int, ...]
"""Two numbers for each interval: its start and its end. As a timeline they put each point at its rank."""


@dataclass(frozen=True)
class Link:
    """A link: a relation between two intervals."""

    left: int
    relation: bytes
    right: int


@dataclass(frozen=True)
class Net:
    """A net: what the calendar says of each interval, and the links."""

    bounds: tuple[Bounds | None, ...]
    links: tuple[Link, ...]

    def intervals(self) -> int:
        """How many intervals it has."""
        return len(self.bounds)

    def points(self) -> int:
        """How many points it has."""
        return 2 * len(self.bounds)

    def lower(self, point: int) -> int | None:
        """The *lower* number of a point, if it has one: it is not below it."""
        bounds = self.bounds[point // 2]
        if bounds is None:
            return None
        if point % 2 == 0:
            return bounds.low
        return bounds.high if bounds.exact else None

    def upper(self, point: int) -> int | None:
        """The *upper* number of a point, if it has one: it is not above it."""
        bounds = self.bounds[point // 2]
        if bounds is None:
            return None
        if point % 2 == 1:
            return bounds.high
        return bounds.low if bounds.exact else None

    def calendar_order(self, first: int, second: int) -> Order | None:
        """The order that the calendar gives to two points, if it gives one."""
        upper, lower = self.upper(first), self.lower(second)
        if upper is None or lower is None or upper > lower:
            return None
        return Order(first, second, upper < lower)

    def calendar_orders(self) -> Iterator[Order]:
        """The orders that the calendar gives to all points, by the first point and then by the second."""
        uppers = [(point, number) for point in range(self.points()) if (number := self.upper(point)) is not None]
        lowers = [(point, number) for point in range(self.points()) if (number := self.lower(point)) is not None]
        return (Order(first, second, upper < lower) for first, upper in uppers for second, lower in lowers if upper <= lower)

    @functools.cached_property
    def calendar(self) -> tuple[tuple[list[int], list[int]], ...]:
        """Of each number of the calendar, from the least one on: the points of which it is the upper number, and the lower one."""
        points: dict[int, tuple[list[int], list[int]]] = {}
        for point in range(self.points()):
            for place, number in enumerate((self.upper(point), self.lower(point))):
                if number is not None:
                    points.setdefault(number, ([], []))[place].append(point)
        return tuple(points[number] for number in sorted(points))

    def link_orders(self, link: int) -> tuple[Order, ...]:
        """The orders of the relation of a link, between its two intervals."""
        one = self.links[link]
        return orders_of(one.left, one.relation, one.right)


def interval_at(ranks: Sequence[int], interval: int) -> tuple[int, int]:
    """The ranks of the start and of the end of an interval."""
    return ranks[2 * interval], ranks[2 * interval + 1]


def keeps_link(net: Net, ranks: Sequence[int], link: int) -> bool:
    """Whether a link holds by these ranks."""
    one = net.links[link]
    return holds(interval_at(ranks, one.left), one.relation, interval_at(ranks, one.right))


def keeps_calendar(net: Net, ranks: Ranks) -> bool:
    """Whether all orders that the calendar gives are true of ranks: its numbers are gone through once, and no pairs are asked."""
    before = -1
    for uppers, lowers in net.calendar:
        until = before
        for point in uppers:
            until = max(until, ranks[point])
        for point in lowers:
            if ranks[point] <= before or ranks[point] < until:
                return False
        before = until
    return True


def fits(net: Net, ranks: Ranks, links: Iterable[int]) -> bool:
    """*Fits*: whether ranks fit a net with a set of its links."""
    if len(ranks) != net.points():
        return False
    start_first = all(map(operator.lt, ranks[::2], ranks[1::2]))
    return start_first and keeps_calendar(net, ranks) and all(keeps_link(net, ranks, link) for link in links)


@dataclass(frozen=True)
class Via:
    """A step over a link, by one of its orders."""

    link: int
    order: int


@dataclass(frozen=True)
class Span:
    """A step over the span of an interval."""

    interval: int


@dataclass(frozen=True)
class Calendar:
    """A step from one point to another in the calendar."""

    first: int
    second: int


Step = Via | Span | Calendar


def order_of_step(net: Net, step: Step) -> Order | None:
    """*Steps*: the order that a step goes by, if it goes by one."""
    if isinstance(step, Via):
        orders = net.link_orders(step.link) if step.link < len(net.links) else ()
        return orders[step.order] if step.order < len(orders) else None
    if isinstance(step, Span):
        return Order(2 * step.interval, 2 * step.interval + 1, True) if step.interval < net.intervals() else None
    inside = step.first < net.points() and step.second < net.points()
    return net.calendar_order(step.first, step.second) if inside else None


def links_of(steps: Iterable[Step]) -> set[int]:
    """The links that steps go over."""
    return {step.link for step in steps if isinstance(step, Via)}


def joined_end(net: Net, steps: Iterable[Step], start: int) -> int | None:
    """*Walks*: where steps end that are joined from a point on; none where they are not joined."""
    point = start
    for step in steps:
        order = order_of_step(net, step)
        if order is None or order.first != point:
            return None
        point = order.second
    return point


def has_strict(net: Net, steps: Iterable[Step]) -> bool:
    """Whether one of the steps is strict."""
    orders = [order_of_step(net, step) for step in steps]
    return any(order is not None and order.strict for order in orders)


def proves(net: Net, steps: Sequence[Step], order: Order) -> bool:
    """Whether steps are a walk over links of the net from the first point of an order to the second, strict where the order is."""
    return joined_end(net, steps, order.first) == order.second and (not order.strict or has_strict(net, steps))


def is_closed_walk(net: Net, steps: Sequence[Step]) -> bool:
    """Whether steps are a closed walk: a strict walk from a point to itself."""
    first = order_of_step(net, steps[0]) if steps else None
    return first is not None and proves(net, steps, Order(first.first, first.first, True))
