"""A referee for dates: when a TIMEX3 is, by Python's `datetime` alone.

Seconds are counted from 1970-01-01T00:00:00. Days are numbers of `date.toordinal`, which may go past the last day that a
`date` has, as the end of 9999 does.
"""

from __future__ import annotations

import re
from calendar import monthrange
from dataclasses import dataclass
from datetime import date, timedelta

EPOCH = date(1970, 1, 1).toordinal()
DAY = 86400
MODIFIERS = ("START", "MID", "END")
YEARS = r"(?P<year>\d{4}|\d{3}X|\d\dXX|XXXX)"
SHAPES = tuple(
    re.compile(shape, re.ASCII)
    for shape in (
        r"(?P<year>\d{2,3})",
        YEARS,
        YEARS + r"-(?P<month>\d\d|XX)",
        YEARS + r"-(?P<month>\d\d|XX)-(?P<day>\d\d|XX)",
        YEARS + r"-W(?P<week>\d\d|XX)",
        YEARS + r"-W(?P<week>\d\d|XX)-(?P<weekday>\d|X)",
        YEARS + r"-Q(?P<quarter>\d|X)",
        YEARS + r"-H(?P<half>\d|X)",
        YEARS + r"-(?P<month>\d\d|XX)-(?P<day>\d\d|XX)T(?P<hour>\d\d|XX)",
        YEARS + r"-(?P<month>\d\d|XX)-(?P<day>\d\d|XX)T(?P<hour>\d\d|XX):(?P<minute>\d\d|XX)",
        YEARS + r"-(?P<month>\d\d|XX)-(?P<day>\d\d|XX)T(?P<hour>\d\d|XX):(?P<minute>\d\d|XX):(?P<second>\d\d|XX)",
    )
)
"""The first shape is that of centuries and decades, by the digits that their years have in common."""


@dataclass(frozen=True)
class Bounds:
    """The seconds of a time: from `low` up to `high`, exactly or somewhere within them."""

    exact: bool
    low: int
    high: int

    def line(self, name: str) -> str:
        """The line that `tml dates` prints of it."""
        kind = "exact" if self.exact else "within"
        return f"{name} {kind} {self.low} {self.high} {civil(self.low)} {civil(self.high)}"


def civil(second: int) -> str:
    """The date and the time of a second."""
    days, into = divmod(second, DAY)
    number = days + EPOCH
    past = number - date.max.toordinal()
    shown = f"10000-01-{past:02}" if past > 0 else date.fromordinal(number).isoformat()
    return f"{shown}T{timedelta(seconds=into)!s:0>8}"


def bounds(kind: str, modifier: str, value: str) -> Bounds | None:
    """The bounds of a time whose value is no bad date, or None where the calendar says nothing of it."""
    shape = next((found for found in (shape.fullmatch(value) for shape in SHAPES) if found), None)
    if kind in ("DURATION", "SET") or shape is None or shape["year"] == "XXXX":
        return None
    if modifier and modifier not in MODIFIERS:
        return None
    fields = {name: text for name, text in shape.groupdict().items() if text is not None}
    known: dict[str, int] = {}
    for name, text in fields.items():
        if name != "year" and "X" in text or "X" in fields["year"] and name != "year":
            break
        if "X" not in text:
            known[name] = int(text)
    weeks = "week" in fields
    low, high = extent(known, fields["year"], weeks)
    return Bounds("X" not in value and not modifier, low, high)


def extent(known: dict[str, int], year: str, weeks: bool) -> tuple[int, int]:
    """The seconds that belong to the known fields: the first one, and one past the last."""
    first_year = max(int(year.replace("X", "0").ljust(4, "0")), 1)
    last_year = int(year.replace("X", "9").ljust(4, "9"))
    if "week" in known:
        first = date.fromisocalendar(first_year, known["week"], 1).toordinal() + known.get("weekday", 1) - 1
        return seconds(first), seconds(first + (1 if "weekday" in known else 7))
    if weeks:
        first = date.fromisocalendar(first_year, 1, 1).toordinal()
        return seconds(first), seconds(date.fromisocalendar(last_year, 52, 1).toordinal() + 7 * (1 + has_week_53(last_year)))
    if "day" in known:
        return of_day(date(first_year, known["month"], known["day"]).toordinal(), known)
    first_month, last_month = 1, 12
    if "month" in known:
        first_month = last_month = known["month"]
    if "quarter" in known:
        first_month, last_month = known["quarter"] * 3 - 2, known["quarter"] * 3
    if "half" in known:
        first_month, last_month = known["half"] * 6 - 5, known["half"] * 6
    last = date(last_year, last_month, monthrange(last_year, last_month)[1])
    return seconds(date(first_year, first_month, 1).toordinal()), seconds(last.toordinal() + 1)


def of_day(day: int, known: dict[str, int]) -> tuple[int, int]:
    """The seconds of a day, or of an hour, a minute or a second of it."""
    start = seconds(day) + known.get("hour", 0) * 3600 + known.get("minute", 0) * 60 + known.get("second", 0)
    length = 1 if "second" in known else 60 if "minute" in known else 3600 if "hour" in known else DAY
    return start, start + length


def has_week_53(year: int) -> bool:
    """Whether a year of weeks has 53 of them."""
    try:
        date.fromisocalendar(year, 53, 1)
    except ValueError:
        return False
    return True


def seconds(day: int) -> int:
    """The first second of a day."""
    return (day - EPOCH) * DAY
