"""Shapes and fillings of the value of a TIMEX3: the section *Values of TIMEX3* of docs/DEFINITIONS.md.

Durations have no calendar shape, and no answer depends on what else has none, so they are not told from other texts here.
"""

from __future__ import annotations

import itertools
import re
from collections.abc import Mapping

from .civil import days_of_month, weeks_of_year

YEAR = rb"(?P<year>[0-9]{4}|[0-9]{3}X|[0-9]{2}XX|XXXX)"
DATE = YEAR + rb"-(?P<month>[0-9]{2}|XX)-(?P<day>[0-9]{2}|XX)"
WEEK = YEAR + rb"-W(?P<week>[0-9]{2}|XX)"
HOUR, MINUTE, SECOND = rb"T(?P<hour>[0-9]{2}|XX)", rb":(?P<minute>[0-9]{2}|XX)", rb":(?P<second>[0-9]{2}|XX)"

SHAPES = tuple(
    re.compile(shape)
    for shape in (
        rb"(?P<year>[0-9]{2})",
        rb"(?P<year>[0-9]{3})",
        YEAR,
        YEAR + rb"-(?P<month>[0-9]{2}|XX)",
        DATE,
        WEEK,
        WEEK + rb"-(?P<weekday>[0-9]|X)",
        YEAR + rb"-Q(?P<quarter>[0-9]|X)",
        YEAR + rb"-H(?P<half>[0-9]|X)",
        DATE + HOUR,
        DATE + HOUR + MINUTE,
        DATE + HOUR + MINUTE + SECOND,
    )
)
"""*Shapes*: a century, a decade, or the year and then the fields, with what separates them."""

Fields = Mapping[str, bytes]
"""The year and the fields of a text with a calendar shape, by their names, in the order in which they stand."""


def fields_of(text: bytes) -> Fields | None:
    """The fields of a text that has a calendar shape."""
    for shape in SHAPES:
        found = shape.fullmatch(text)
        if found:
            return found.groupdict()
    return None


def fillings(field: bytes) -> list[int]:
    """All numbers that a field can be: a digit is put for each `X`."""
    digits = [b"0123456789" if byte == ord("X") else bytes([byte]) for byte in field]
    return [int(bytes(filling)) for filling in itertools.product(*digits)]


def some_date_is_valid(fields: Fields) -> bool:
    """Whether a filling of the year, the month and the day, the week and the weekday, the quarter or the half is in range.

    A century and a decade are their own fillings, and always valid.
    """
    if len(fields["year"]) < 4:
        return True
    years = [year for year in fillings(fields["year"]) if 1 <= year <= 9999]
    if "month" in fields:
        months = [month for month in fillings(fields["month"]) if 1 <= month <= 12]
        days = fillings(fields.get("day", b"01"))
        return any(1 <= day <= days_of_month(year, month) for year in years for month in months for day in days)
    if "week" in fields:
        weekdays = fillings(fields.get("weekday", b"1"))
        in_range = any(1 <= week <= weeks_of_year(year) for year in years for week in fillings(fields["week"]))
        return in_range and any(1 <= weekday <= 7 for weekday in weekdays)
    if "quarter" in fields:
        return bool(years) and any(1 <= quarter <= 4 for quarter in fillings(fields["quarter"]))
    if "half" in fields:
        return bool(years) and any(1 <= half <= 2 for half in fillings(fields["half"]))
    return bool(years)


def some_time_is_valid(fields: Fields) -> bool:
    """Whether a filling of the hour, the minute and the second is in range; the hour may be 24 where the others are 00."""
    times = itertools.product(*(fillings(fields.get(name, b"00")) for name in ("hour", "minute", "second")))
    return any((hour <= 23 and minute <= 59 and second <= 59) or (hour, minute, second) == (24, 0, 0) for hour, minute, second in times)


def is_bad_date(text: bytes) -> bool:
    """Whether a text has a calendar shape and no valid filling. The time of a day is in range whatever its date is."""
    fields = fields_of(text)
    return fields is not None and not (some_date_is_valid(fields) and some_time_is_valid(fields))
