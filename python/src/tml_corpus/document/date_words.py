"""Stretches of the calendar in words, as `9 March 1998` for the day that `tml dates` gives by its first second and the one after it."""

from __future__ import annotations

import calendar
import re

CIVIL = re.compile(r"(\d+)-(\d\d)-(\d\d)T(\d\d:\d\d:\d\d)")
MONTHS = (
    "January", "February", "March", "April", "May", "June", "July", "August", "September", "October", "November", "December",
)  # fmt: skip
MIDNIGHT = "00:00:00"

Day = tuple[int, int, int]
"""A year, a month and a day."""


def stretch(first: str, last: str) -> str:
    """A stretch in words, where its first second and the one after its last are given as `tml dates` has them."""
    begin, end = CIVIL.fullmatch(first), CIVIL.fullmatch(last)
    if begin is None or end is None:
        return f"{first} \u2013 {last}"
    from_day, to_day = day_of(begin), day_of(end)
    if begin[4] == end[4] == MIDNIGHT and from_day < to_day:
        return whole_days(from_day, to_day)
    if from_day == to_day:
        return f"{between(from_day, from_day, 3)}, {short(begin[4])} to {short(end[4])}"
    return f"{between(from_day, from_day, 3)}, {short(begin[4])} to {between(to_day, to_day, 3)}, {short(end[4])}"


def day_of(civil: re.Match[str]) -> Day:
    """The day of a text."""
    return int(civil[1]), int(civil[2]), int(civil[3])


def short(clock: str) -> str:
    """A time of the day, without seconds where they are 0."""
    return clock.removesuffix(":00") if clock.count(":") == 2 else clock


def whole_days(first: Day, after: Day) -> str:
    """Days, months or years from one day up to another one, which is the first after them."""
    last = day_before(after)
    if first[1:] == after[1:] == (1, 1):
        return between(first, last, 1)
    return between(first, last, 2 if first[2] == after[2] == 1 else 3)


def day_before(day: Day) -> Day:
    """The day before a day."""
    year, month, number = day
    if number > 1:
        return year, month, number - 1
    if month == 1:
        return year - 1, 12, 31
    return year, month - 1, calendar.monthrange(year, month - 1)[1]


def between(first: Day, last: Day, parts: int) -> str:
    """Two days in words, by so many of year, month and day; what they share is said once."""
    begin, end = words_of(first)[3 - parts :], words_of(last)[3 - parts :]
    if begin == end:
        return " ".join(end)
    while begin[-1] == end[len(begin) - 1]:
        begin.pop()
    return f"{' '.join(begin)} to {' '.join(end)}"


def words_of(day: Day) -> list[str]:
    """The day, the month and the year, in words."""
    year, month, number = day
    return [str(number), MONTHS[month - 1], str(year)]
