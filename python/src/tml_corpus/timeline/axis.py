"""An axis of time: where its marks are, and what is written at them. It goes by the calendar as far as that reaches."""

from __future__ import annotations

from collections.abc import Iterator, Sequence
from datetime import datetime

from ..seconds.civil import EPOCH, FIRST, LAST, moment

MINUTE, HOUR, DAY = 60, 3_600, 86_400
EVEN = (
    *(1, 2, 5, 10, 15, 30),
    *(MINUTE * count for count in (1, 2, 5, 10, 15, 30)),
    *(HOUR * count for count in (1, 2, 3, 6, 12)),
    *(DAY * count for count in (1, 2, 7, 14)),
)
"""Steps of so many seconds."""

YEAR = 12
MONTHS = (1, 2, 3, 6, *(YEAR * count for count in (1, 2, 5, 10, 20, 50, 100, 200, 500, 1000, 2000, 5000)))
"""Steps of so many months."""

MONDAY = 4 * DAY
"""The first Monday, from which weeks are counted."""

DECADES = tuple(10**power for power in range(20))
"""Steps where the seconds are no longer those of the calendar."""

Mark = tuple[int, str]
"""A second of the axis, and what is written at it."""


def marks(first: int, last: int, most: int) -> list[Mark]:
    """Marks from one second to another, at most so many, at least two."""
    if not FIRST <= first <= last <= LAST:
        return numbered(first, last, most)
    for step in EVEN:
        if (last - first) // step < most:
            form = "%Y-%m-%d" if step >= DAY else "%m-%d %H:%M" if step >= MINUTE else "%H:%M:%S"
            begin = MONDAY if step % (7 * DAY) == 0 else 0
            return [(second, moment(second).strftime(form)) for second in range(first + (begin - first) % step, last + 1, step)]
    steps = (list(of_months(first, last, months)) for months in MONTHS)
    return next((found for found in steps if len(found) <= most), numbered(first, last, most))


def of_months(first: int, last: int, months: int) -> Iterator[Mark]:
    """Marks at the beginnings of months, each so many after the one before it; of years, where these are twelve or more."""
    begin = moment(first)
    for number in range(-(-(12 * begin.year + begin.month - 1) // months) * months, 120_000, months):
        day = datetime(number // 12, number % 12 + 1, 1, tzinfo=EPOCH.tzinfo)
        second = int((day - EPOCH).total_seconds())
        if second > last:
            return
        if second >= first:
            yield second, f"{day.year:04}" if months >= YEAR else f"{day.year:04}-{day.month:02}"


def numbered(first: int, last: int, most: int) -> list[Mark]:
    """Marks with the numbers of their seconds."""
    step = next(step for step in DECADES if (last - first) // step < max(most // 2, 2))
    return [(second, f"{second:,}") for second in range(first + -first % step, last + 1, step)]


def extent(seconds: Sequence[int]) -> tuple[int, int]:
    """The first and the last second of an axis with some room before and after all seconds."""
    first, last = min(seconds), max(seconds)
    room = max((last - first) // 40, 1)
    before, after = first - room, last + room
    return max(before, FIRST) if first >= FIRST else before, min(after, LAST) if last <= LAST else after
