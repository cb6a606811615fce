"""Which base relations are possible between two intervals: *What is possible* of docs/DEFINITIONS.md.

A base relation is possible where some timeline that fits has it. Nets of up to three intervals are looked at by that alone: all
timelines are tried. In greater nets, which of two points comes first, or that they are one, is possible where the closure of the net
says nothing against it, and a base relation is where that is so of the four pairs of a point of one interval and one of the other.
"""

from __future__ import annotations

import functools
import itertools
import operator
from collections.abc import Iterator

from .nets import Net, Ranks, interval_at
from .relations import BASE_RELATIONS, Interval, holds, orders_of
from .timelines import SMALL, Closure, all_links, closure, fitting, least_timeline

Row = tuple[int, int, tuple[bytes, ...]]
"""Two intervals, and the base relations that are possible between them."""


def least_of_each(net: Net, left: int, right: int) -> dict[bytes, Ranks]:
    """Of each base relation that is possible between two intervals the least timeline that fits and has it."""
    least = {relation: least_timeline(net, all_links(net), orders_of(left, relation, right)) for relation in BASE_RELATIONS}
    return {relation: ranks for relation, ranks in least.items() if ranks is not None}


def possible_rows(net: Net) -> Iterator[Row]:
    """*What `matrix` prints*, of a net that some timeline fits."""
    return possible_tried(net) if net.intervals() <= SMALL else possible_by_closure(net)


def possible_tried(net: Net) -> Iterator[Row]:
    """The base relations that each interval of a small net has to each one after it, in some timeline that fits."""
    found = fitting(net, all_links(net))
    for left, right in itertools.combinations(range(net.intervals()), 2):
        pairs = {(interval_at(ranks, left), interval_at(ranks, right)) for ranks in found}
        yield left, right, tuple(one for one in BASE_RELATIONS if any(holds(first, one, second) for first, second in pairs))


def sign(first: int, second: int) -> str:
    """Which of two points comes first, or that they are one."""
    return "<" if first < second else "=" if first == second else ">"


def example_of(relation: bytes) -> tuple[Interval, Interval]:
    """Two intervals between which a base relation holds."""
    intervals = list(itertools.combinations(range(4), 2))
    return next((first, second) for first in intervals for second in intervals if holds(first, relation, second))


SIGNS = {relation: tuple(sign(one, other) for one, other in itertools.product(*example_of(relation))) for relation in BASE_RELATIONS}
"""Of each base relation how the start and then the end of the first interval stand to the start and then to the end of the other."""


def possible_by_closure(net: Net) -> Iterator[Row]:
    """The same of any net, by its closure."""
    after = closure(net)
    before = after.turned()
    texts: dict[tuple[str, ...], tuple[bytes, ...]] = {}
    for left in range(net.intervals()):
        rows = [starts_of(after, before, left, relation) for relation in BASE_RELATIONS]
        # A column is a point, of the last one first; of a start it says whether each base relation is possible to its interval.
        columns = list(zip(*(f"{points:0{net.points()}b}" for points in rows), strict=True))[::-1]
        for right in range(left + 1, net.intervals()):
            column = columns[2 * right]
            if column not in texts:
                texts[column] = tuple(relation for relation, bit in zip(BASE_RELATIONS, column, strict=True) if bit == "1")
            yield left, right, texts[column]


def starts_of(after: Closure, before: Closure, left: int, relation: bytes) -> int:
    """A set of points, of which the starts are those of the intervals to which a base relation is possible from an interval."""
    every = (1 << len(after.weak)) - 1
    possible = []
    for (point, shift), one in zip(itertools.product((2 * left, 2 * left + 1), range(2)), SIGNS[relation], strict=True):
        against = {"<": before.weak[point], "=": after.strict[point] | before.strict[point], ">": after.weak[point]}[one]
        possible.append((every & ~against) >> shift)
    return functools.reduce(operator.and_, possible)
