"""What is known of intervals, in sentences: when each starts and ends, by the axis, and in which orders it is besides."""

from __future__ import annotations

from collections.abc import Mapping

from .known import Bound, Known, Order
from .lettering import plain
from .rows import Row

VERBS = {"<": "is before", "≤": "is never after", "=": "is"}
SIDES = {"<": ("before", "after"), "≤": ("not after", "not before"), "=": ("at", "at")}
"""Of each sign how its first point is to the second one, and how the second one is to the first."""


def called(row: Row) -> str:
    """How an interval is called: a date by the calendar, another one by its text, or by its name if it has none."""
    return row.dates() if row.kind == "exact" else plain(row.text) or row.name


def named(row: Row) -> str:
    """The same with its name."""
    return row.name if called(row) == row.name else f"{called(row)} ({row.name})"


def point_called(rows: Mapping[int, Row], point: int) -> str:
    """How a point is called."""
    return f"the {'end' if point % 2 else 'start'} of {named(rows[point // 2])}"


def place_called(known: Known, rows: Mapping[int, Row], place: int, besides: int = -1) -> str:
    """How a place of the axis is called: by a date if there is one, and not by some interval if there is another one."""
    return point_called(rows, point_at(known, rows, place, besides))


def point_at(known: Known, rows: Mapping[int, Row], place: int, besides: int) -> int:
    """The point by which a place is called."""
    return min(known.axis[place], key=lambda point: (point // 2 == besides, rows[point // 2].kind != "exact", point))


def sentences(known: Known, rows: Mapping[int, Row]) -> dict[int, tuple[str, ...]]:
    """Of each interval the sentences on its start and end, and on its orders."""
    found: dict[int, list[str]] = {number: [] for number in rows}
    for number in rows:
        for point, verb in ((2 * number, "starts"), (2 * number + 1, "ends")):
            when = bounded(known, rows, point)
            found[number] += [f"{verb} {when}"] if when else []
    for order in known.orders:
        for number in sorted({order.first // 2, order.second // 2}):
            found[number].append(order_said(order, rows))
    return {number: tuple(said) for number, said in found.items()}


def bounded(known: Known, rows: Mapping[int, Row], point: int) -> str:
    """Between which places a point lies, or at which."""
    return " and ".join(f"{how} {place_called(known, rows, place, point // 2)}" for how, place in places_around(known, point))


def places_around(known: Known, point: int) -> list[tuple[str, int]]:
    """The places that say when a point is, and how."""
    place = known.place(point)
    if place is not None and known.axis[place] != [point]:
        return [("at", place)]
    lower, upper = known.lower[point], known.upper[point]
    if place is not None:
        lower, upper = Bound(place - 1, True), Bound(place + 1, True)
    return [
        (words[bound.strict], bound.place)
        for bound, words in ((lower, ("not before", "after")), (upper, ("not after", "before")))
        if bound is not None and 0 <= bound.place < len(known.axis) and known.axis[bound.place] != [point ^ 1]
    ]


def neighbours(known: Known, rows: Mapping[int, Row], number: int) -> set[int]:
    """The intervals by which it is said when one starts and ends, and those with which it is in an order besides."""
    points = {point_at(known, rows, place, number) for point in (2 * number, 2 * number + 1) for _, place in places_around(known, point)}
    ends = ((order.first, order.second) for order in known.orders if number in (order.first // 2, order.second // 2))
    return {point // 2 for point in points.union(*ends)}


def order_said(order: Order, rows: Mapping[int, Row]) -> str:
    """An order in words."""
    return f"{point_called(rows, order.first)} {VERBS[order.sign]} {point_called(rows, order.second)}"


def said_of(number: int, order: Order, rows: Mapping[int, Row]) -> str:
    """An order of one of its two intervals in words that do not name it."""
    is_first = order.first // 2 == number
    own, other = (order.first, order.second) if is_first else (order.second, order.first)
    how = SIDES[order.sign][not is_first]
    if order.is_whole() and order.sign == "<":
        return f"{how} {named(rows[other // 2])}"
    return f"{'ends' if own % 2 else 'starts'} {how} {point_called(rows, other)}"
