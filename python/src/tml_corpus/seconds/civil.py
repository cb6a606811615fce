"""Seconds as dates, and lengths in words."""

from __future__ import annotations

from datetime import UTC, datetime, timedelta

EPOCH = datetime(1970, 1, 1, tzinfo=UTC)
FIRST, LAST = -62_135_596_800, 253_402_300_799
"""The first and the last second of the years 1 to 9999."""


def in_calendar(second: int) -> bool:
    """Whether a second lies in the years 1 to 9999."""
    return FIRST <= second <= LAST


def moment(second: int) -> datetime:
    """A second of the years 1 to 9999."""
    return EPOCH + timedelta(seconds=second)


def civil(second: int) -> str:
    """The date and time of a second, as `tml dates` has it; outside of the years 1 to 9999 its number."""
    if second == LAST + 1:
        return "10000-01-01T00:00:00"
    if not in_calendar(second):
        return f"second {second}"
    return moment(second).replace(tzinfo=None).isoformat()


def length(seconds: int) -> str:
    """A number of seconds as days, hours, minutes and seconds."""
    days, rest = divmod(seconds, 86_400)
    parts = [(days, "d"), (rest // 3_600, "h"), (rest // 60 % 60, "min"), (rest % 60, "s")]
    return " ".join(f"{count:,} {unit}" for count, unit in parts if count) or "0 s"
