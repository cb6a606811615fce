"""When a time is by the calendar: the section *Calendar intervals* of docs/DEFINITIONS.md."""

from __future__ import annotations

from collections.abc import Mapping
from dataclasses import dataclass
from functools import cache

from .civil import date_of, day_of, days_of_month, first_week
from .values import fields_of

DAY = 86_400
EPOCH = 62_135_596_800
"""How many seconds there are from 0001-01-01T00:00:00 to 1970-01-01T00:00:00, which has the number 0."""


@dataclass(frozen=True)
class Time:
    """What a TIMEX3 says of its time: its kind, and its modifier and value if it has them."""

    kind: bytes
    modifier: bytes | None
    value: bytes | None


@dataclass(frozen=True)
class Bounds:
    """Numbers of seconds between which an interval lies: exactly from `low` to `high`, or within them."""

    exact: bool
    low: int
    high: int


def known_part(fields: Mapping[str, bytes]) -> tuple[bytes, dict[str, int]]:
    """*The known part*: the digits of the year, century or decade and the fields that stand before the first `X`."""
    known: dict[str, int] = {}
    for name, field in fields.items():
        if b"X" in field:
            return fields["year"].partition(b"X")[0], known
        if name != "year":
            known[name] = int(field)
    return fields["year"], known


@cache
def years_that_begin(digits: bytes) -> tuple[int, int]:
    """The least and the greatest of the years from 1 to 9999 that begin with these digits."""
    years = [year for year in range(1, 10_000) if (b"%04d" % year).startswith(digits)]
    return min(years), max(years)


def days_of(digits: bytes, known: Mapping[str, int], in_weeks: bool) -> tuple[int, int]:
    """The first of the days of a known part, and the day after the last one."""
    first, last = years_that_begin(digits)
    if in_weeks:
        if "week" not in known:
            return first_week(first), first_week(last + 1)
        monday = first_week(first) + 7 * (known["week"] - 1)
        if "weekday" not in known:
            return monday, monday + 7
        return monday + known["weekday"] - 1, monday + known["weekday"]
    months = (known["month"], known["month"]) if "month" in known else (1, 12)
    if "quarter" in known:
        months = (3 * known["quarter"] - 2, 3 * known["quarter"])
    if "half" in known:
        months = (6 * known["half"] - 5, 6 * known["half"])
    if "day" in known:
        return day_of(first, known["month"], known["day"]), day_of(first, known["month"], known["day"]) + 1
    return day_of(first, months[0], 1), day_of(last, months[1], days_of_month(last, months[1])) + 1


def extent(value: bytes) -> tuple[int, int]:
    """The extent of the seconds that belong to a calendar value whose year has a digit, by their numbers.

    Hour 24 of a date is hour 0 of the next day, as it begins 24 hours after the date does.
    """
    fields = fields_of(value) or {}
    digits, known = known_part(fields)
    first, end = days_of(digits, known, "week" in fields)
    low, high = first * DAY, end * DAY
    for name, seconds in (("hour", 3600), ("minute", 60), ("second", 1)):
        if name in known:
            low += known[name] * seconds
            high = low + seconds
    return low - EPOCH, high - EPOCH


def bounds_of(time: Time) -> Bounds | None:
    """*The bounds of a time*; none where they are unspecified. The lines of the table in their order."""
    if time.kind in (b"DURATION", b"SET") or not time.value:
        return None
    fields = fields_of(time.value)
    if fields is None or fields["year"] == b"XXXX":
        return None
    if time.modifier not in (None, b"START", b"MID", b"END"):
        return None
    low, high = extent(time.value)
    return Bounds(b"X" not in time.value and time.modifier is None, low, high)


def civil_text(number: int) -> bytes:
    """*The civil text* of a second."""
    day, second = divmod(number + EPOCH, DAY)
    return b"%04d-%02d-%02dT%02d:%02d:%02d" % (*date_of(day), second // 3600, second // 60 % 60, second % 60)


def line_of(name: bytes, bounds: Bounds | None) -> bytes:
    """The line of a time (*Texts*)."""
    if bounds is None:
        return name + b" free\n"
    word = b"exact" if bounds.exact else b"within"
    return b"%s %s %d %d %s %s\n" % (name, word, bounds.low, bounds.high, civil_text(bounds.low), civil_text(bounds.high))
