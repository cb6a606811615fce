"""The proleptic Gregorian calendar and the weeks of ISO 8601: *The calendar* of the section *Values of TIMEX3* of docs/DEFINITIONS.md.

Days are counted from 0001-01-01, which was a Monday and has the number 0.
"""

from __future__ import annotations

THURSDAY = 3
"""The days of a week are counted from Monday, which is 0."""


def is_leap(year: int) -> bool:
    """Of the years every fourth is a leap year, but of the centuries only every fourth."""
    return year % 4 == 0 and (year % 100 != 0 or year % 400 == 0)


def days_of_month(year: int, month: int) -> int:
    """How many days a month has."""
    return [31, 29 if is_leap(year) else 28, 31, 30, 31, 30, 31, 31, 30, 31, 30, 31][month - 1]


def new_year(year: int) -> int:
    """The first day of a year: there were so many years before, and among them so many leap years."""
    before = year - 1
    return 365 * before + before // 4 - before // 100 + before // 400


def day_of(year: int, month: int, day: int) -> int:
    """The number of a date."""
    return new_year(year) + sum(days_of_month(year, one) for one in range(1, month)) + day - 1


def date_of(number: int) -> tuple[int, int, int]:
    """The date of a day: its year, month and day."""
    year = number // 366 + 1
    while new_year(year + 1) <= number:
        year += 1
    month, day = 1, number - new_year(year) + 1
    while day > days_of_month(year, month):
        day -= days_of_month(year, month)
        month += 1
    return year, month, day


def first_week(year: int) -> int:
    """The Monday of the first week of a year, which is that of its first Thursday."""
    first = new_year(year)
    thursday = next(day for day in range(first, first + 7) if day % 7 == THURSDAY)
    return thursday - THURSDAY


def weeks_of_year(year: int) -> int:
    """How many weeks a year has: as many as Thursdays."""
    return (first_week(year + 1) - first_week(year)) // 7
