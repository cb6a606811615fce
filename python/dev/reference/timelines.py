"""Which timelines fit, the least one, and what follows: *Fits*, *Clashes*, *What follows* and *Least timelines* of docs/DEFINITIONS.md.

Nets of up to three intervals are looked at by the definitions alone: all timelines up to the order of their points are tried.
Greater nets are looked at by the orders of steps: the least ranks are raised until all orders are true of them, and an
order of two points always holds where there is a walk (laws `steps_say_what_fits` and `walks_say_all`).
"""

from __future__ import annotations

import functools
import itertools
import operator
from collections import deque
from collections.abc import Iterable, Iterator, Sequence
from dataclasses import dataclass
from enum import Enum

from .nets import Net, Ranks, fits, interval_at
from .relations import PARSED, RELATIONS, Order, holds

SMALL = 3
"""The greatest number of intervals of a net whose timelines are tried one by one."""


class Cell(Enum):
    """What all timelines that fit have in common, of two points: a cell of a table of orders."""

    FREE = 0
    WEAK = 1
    STRICT = 2


@functools.cache
def all_timelines(intervals: int) -> tuple[Ranks, ...]:
    """All ranks of so many intervals, each of which starts before it ends, in which no rank below the greatest is left out.

    Each timeline has the order of one of them, and is at each point at least at its rank.
    """
    points = 2 * intervals
    found = []
    for ranks in itertools.product(range(points), repeat=points):
        if all(ranks[one] < ranks[one + 1] for one in range(0, points, 2)) and set(ranks) == set(range(max(ranks, default=-1) + 1)):
            found.append(ranks)
    return tuple(found)


def fitting(net: Net, links: Iterable[int], further: Sequence[Order] = ()) -> list[Ranks]:
    """Those of all timelines of a small net that fit it with a set of links, and of which some further orders are true."""
    return [ranks for ranks in that_fit(net, tuple(links)) if all(order.is_true(ranks) for order in further)]


@functools.lru_cache(maxsize=16)
def that_fit(net: Net, links: tuple[int, ...]) -> tuple[Ranks, ...]:
    """The same without further orders. The last ones are kept, since many further orders are asked of one net."""
    return tuple(ranks for ranks in all_timelines(net.intervals()) if fits(net, ranks, links))


def least_tried(net: Net, links: Iterable[int], further: Sequence[Order] = ()) -> Ranks | None:
    """The least one of those: it has the property, and is at each point at most every one that has it."""
    found = fitting(net, links, further)
    if not found:
        return None
    least = tuple(min(ranks) for ranks in zip(*found, strict=True))
    assert least in found
    return least


def orders_of_calendar(net: Net) -> list[Order]:
    """Orders that say what the calendar gives, by a *mark* for each of its numbers: a point after those of the net.

    The mark is not before the points whose upper number is its own or a lesser one. So points whose lower number is its own
    are not before the mark, and they are after the mark of the number before it. The first mark is of an upper number.
    """
    numbers = list(itertools.dropwhile(lambda points: not points[0], net.calendar))
    orders = []
    for mark, (uppers, lowers) in enumerate(numbers, net.points()):
        orders += [Order(point, mark, False) for point in uppers] + [Order(mark, point, False) for point in lowers]
        if mark > net.points():
            orders += [Order(mark - 1, mark, False), *(Order(mark - 1, point, True) for point in lowers)]
    return orders


def orders_that_fit(net: Net, links: Iterable[int]) -> list[Order]:
    """The orders of all steps over spans, over a set of links and in the calendar, the latter by marks."""
    spans = [Order(2 * one, 2 * one + 1, True) for one in range(net.intervals())]
    return [*spans, *(order for link in links for order in net.link_orders(link)), *orders_of_calendar(net)]


def by_first(points: int, orders: Sequence[Order]) -> list[list[Order]]:
    """Of each point, and of each mark, the orders that go from it to another one."""
    table: list[list[Order]] = [[] for _ in range(max([points - 1, *(max(order.first, order.second) for order in orders)]) + 1)]
    for order in orders:
        table[order.first].append(order)
    return table


def least_raised(points: int, orders: Sequence[Order]) -> Ranks | None:
    """The least ranks of which orders are true; none where a rank would not be below the number of points."""
    ranks = raised_with_marks(points, by_first(points, orders))
    return None if ranks is None else ranks[:points]


def raised_with_marks(points: int, orders_from: Sequence[Sequence[Order]]) -> Ranks | None:
    """The same with the ranks of the marks after those of the points."""
    ranks = [0] * len(orders_from)
    raised = deque(range(len(orders_from)))
    waiting = [True] * len(orders_from)
    while raised:
        first = raised.popleft()
        waiting[first] = False
        for order in orders_from[first]:
            wanted = ranks[first] + (1 if order.strict else 0)
            if wanted <= ranks[order.second]:
                continue
            if wanted >= points:
                return None
            ranks[order.second] = wanted
            if not waiting[order.second]:
                waiting[order.second] = True
                raised.append(order.second)
    return tuple(ranks)


def least_timeline(net: Net, links: Iterable[int], further: Sequence[Order] = ()) -> Ranks | None:
    """The least ranks that fit a net with a set of links, and of which some further orders are true; none where no timeline does."""
    if net.intervals() <= SMALL:
        return least_tried(net, links, further)
    return least_raised(net.points(), orders_that_fit(net, links) + list(further))


def clashes(net: Net, links: Iterable[int]) -> bool:
    """*Clashes*: whether no timeline fits a net with a set of links."""
    return least_timeline(net, links) is None


def is_minimal_clash(net: Net, links: Iterable[int]) -> bool:
    """Whether links clash, and the others of each of them do not."""
    chosen = set(links)
    return clashes(net, chosen) and not any(clashes(net, chosen - {link}) for link in chosen)


def all_links(net: Net) -> range:
    """The numbers of all links of a net."""
    return range(len(net.links))


def false_timeline(net: Net, order: Order) -> Ranks | None:
    """The least of the timelines that fit a net and make an order false; none where the order always holds."""
    return least_timeline(net, all_links(net), [order.negation()])


@dataclass(frozen=True)
class Closure:
    """*The closure* of a net. Of each point the points that are never before it, and of these the ones that are always after it.

    A set of points is a number: point p is in it where bit p of the number is set.
    """

    weak: tuple[int, ...]
    strict: tuple[int, ...]

    def cell(self, first: int, second: int) -> Cell:
        """What is known of two points."""
        if self.strict[first] >> second & 1:
            return Cell.STRICT
        return Cell.WEAK if self.weak[first] >> second & 1 else Cell.FREE

    def says(self, order: Order) -> bool:
        """Whether its cells give an order."""
        cell = self.cell(order.first, order.second)
        return cell == Cell.STRICT or (cell == Cell.WEAK and not order.strict)

    def turned(self) -> Closure:
        """The same of each point as the second one: the points that are never after it, and those that are always before it."""
        return Closure(turned(self.weak), turned(self.strict))


def turned(table: Sequence[int]) -> tuple[int, ...]:
    """Sets of points turned: point p is in that of point q where q was in that of p."""
    rows = [f"{points:0{len(table)}b}" for points in reversed(table)]
    return tuple(int("".join(column), 2) for column in zip(*rows, strict=True))[::-1]


def members(points: int) -> Iterator[int]:
    """The points of a set, in order."""
    while points:
        lowest = points & -points
        yield lowest.bit_length() - 1
        points ^= lowest


def closure(net: Net) -> Closure:
    """*The closure* of a net that some timeline fits: to which points walks lead from each, and to which strict ones do.

    Walks grow at their beginning until no further point is met. No walk leads to a lesser rank, so the greatest ranks come first.
    """
    orders_from = by_first(net.points(), orders_that_fit(net, all_links(net)))
    ranks = raised_with_marks(net.points(), orders_from)
    assert ranks is not None
    weak, strict = [1 << point for point in range(len(ranks))], [0] * len(ranks)
    for points in of_one_rank(ranks):
        changed = True
        while changed:
            before = [(weak[point], strict[point]) for point in points]
            for point in points:
                for order in orders_from[point]:
                    weak[point] |= weak[order.second]
                    strict[point] |= weak[order.second] if order.strict else strict[order.second]
            changed = before != [(weak[point], strict[point]) for point in points]
    no_marks = (1 << net.points()) - 1
    return Closure(*(tuple(cells & no_marks for cells in table[: net.points()]) for table in (weak, strict)))


def of_one_rank(ranks: Ranks) -> list[list[int]]:
    """The points and marks of each rank, of the greatest rank first."""
    points = sorted(range(len(ranks)), key=lambda point: -ranks[point])
    return [list(some) for _, some in itertools.groupby(points, key=lambda point: ranks[point])]


def rows_tried(net: Net) -> list[tuple[int, bytes, int]]:
    """The relations that hold in all timelines that fit a small net, between an interval and one after it."""
    found = fitting(net, all_links(net))
    pairs = itertools.combinations(range(net.intervals()), 2)
    return [
        (left, relation, right)
        for left, right in pairs
        for relation in RELATIONS
        if all(holds(interval_at(ranks, left), relation, interval_at(ranks, right)) for ranks in found)
    ]


def rows_of_closure(net: Net) -> list[tuple[int, bytes, int]]:
    """The rows of the closure of a net: a row is an interval, a relation that its cells give, and an interval after it."""
    after = closure(net)
    before = after.turned()
    rows = []
    starts = sum(1 << point for point in range(0, net.points(), 2))
    for left in range(net.intervals()):
        later = starts >> 2 * left + 2 << 2 * left + 2
        rights = [members(later & related(after, before, left, relation)) for relation in RELATIONS]
        found = sorted((start // 2, number) for number, points in enumerate(rights) for start in points)
        rows += [(left, RELATIONS[number], right) for right, number in found]
    return rows


def related(after: Closure, before: Closure, left: int, relation: bytes) -> int:
    """A set of points, of which the starts are those of the intervals to which the relation follows from an interval.

    All orders of the relation have to be given: each of them is one of a point of the interval and of the start or the end of
    the other one.
    """
    points = {"a.start": 2 * left, "a.finish": 2 * left + 1, "b.start": 0, "b.finish": 1}
    rights = []
    for first, sign, second in PARSED[relation]:
        cells, own, other = (after, first, second) if first.startswith("a.") else (before, second, first)
        table = cells.strict if sign == "<" else cells.weak
        rights.append(table[points[own]] >> points[other])
    return functools.reduce(operator.and_, rights)


def entailed_rows(net: Net) -> list[tuple[int, bytes, int]]:
    """*What `relations` prints*, of a net that some timeline fits."""
    return rows_tried(net) if net.intervals() <= SMALL else rows_of_closure(net)
