"""How long a time lasts: the lengths of the section *Placings in whole seconds* of docs/DEFINITIONS.md."""

from __future__ import annotations

import re
from dataclasses import dataclass

from .dates import Time

COUNT = rb"(?:(?P<%s>[0-9]{1,9}|X)%s)?"
DURATION = re.compile(
    b"P"
    + b"".join(COUNT % (name, name) for name in (b"Y", b"M", b"W", b"D"))
    + b"(?P<clock>T"
    + b"".join(COUNT % (b"time" + name, name) for name in (b"H", b"M", b"S"))
    + b")?"
)
"""Counts of years, months, weeks and days, and after a T of hours, minutes and seconds."""

SECONDS = {"W": 604_800, "D": 86_400, "timeH": 3_600, "timeM": 60, "timeS": 1}


@dataclass(frozen=True)
class Limits:
    """The least and the greatest number of seconds that an interval lasts, each where there is one."""

    least: int | None = None
    most: int | None = None


NO_LIMITS = Limits()


def counts_of(value: bytes) -> dict[str, bytes] | None:
    """The counts that are written in a duration, at least one, and after a T at least one; none where the text is no duration."""
    found = DURATION.fullmatch(value)
    if found is None:
        return None
    counts = {name: count for name, count in found.groupdict().items() if count is not None and name != "clock"}
    has_clock = any(name.startswith("time") for name in counts)
    return counts if counts and has_clock == (found["clock"] is not None) else None


def length_of(value: bytes) -> int | None:
    """The seconds of a duration in which all counts are numbers, and neither years nor months are written."""
    counts = counts_of(value)
    if counts is None or "Y" in counts or "M" in counts or b"X" in counts.values():
        return None
    return sum(SECONDS[name] * int(count) for name, count in counts.items())


def limits_of(time: Time | None) -> Limits:
    """The limits of an interval, by what a TIMEX3 says of its time."""
    length = length_of(time.value) if time and time.kind == b"DURATION" and time.value else None
    if time is None or length is None:
        return NO_LIMITS
    by_modifier = {
        None: Limits(length, length),
        b"LESS_THAN": Limits(None, length - 1),
        b"EQUAL_OR_LESS": Limits(None, length),
        b"MORE_THAN": Limits(length + 1, None),
        b"EQUAL_OR_MORE": Limits(length, None),
    }
    return by_modifier.get(time.modifier, NO_LIMITS)
