"""Draws values of TIMEX3: of all shapes, with and without X, and such as have no valid filling or no meaning."""

from __future__ import annotations

from dataclasses import dataclass
from datetime import date
from random import Random

from differential.chances import chance

KINDS = ("DATE", "DATE", "DATE", "TIME", "DURATION", "SET")
MODIFIERS = (
    "BEFORE", "AFTER", "ON_OR_BEFORE", "ON_OR_AFTER", "LESS_THAN", "MORE_THAN", "EQUAL_OR_LESS", "EQUAL_OR_MORE", "START", "MID", "END",
    "APPROX",
)  # fmt: skip
MEANINGLESS = (
    "", "PRESENT_REF", "PAST_REF", "1998-3-11", "1998-SU", "1998-W1", "1998-01-07T18:30Z", "1998-01-07TEV", "P", "PT", "P1", "P1D1Y",
    "P1.5D", "8", "XX", "XXX", "1X", "19X", "19-01", "199-Q1", "199-H1", "1998-H", "1998-HXX", "1998-H01", "1998-h1", "1998-H1-1", "19 ",
    "1998-", "-1998", "19981", "1998-01-07T18:30:00.5", "XX98", "1X98", "1998-Q", "1998-W01-", "1998-1X", "1998-01-X1", "P1234567890D",
    "PXXD", "&#49;998",
    " 1998", "1998 ", "1998-W01-XX", "1998-XX-X", "T18:30", "1998-01T18", "p1d", "P1d", "199x", "1998-w01",
)  # fmt: skip
BAD = (
    "0000", "1998-00", "1998-13", "1999-02-29", "1900-02-29", "1998-04-31", "1998-01-00", "1998-01-32", "1998-W00", "1998-W54", "1999-W53",
    "1998-W01-0",
    "1998-W01-8", "1998-Q0", "1998-Q5", "1998-H0", "1998-H3", "0000-H1", "0000-HX", "XXXX-H3", "199X-H9", "1998-01-07T25",
    "1998-01-07T24:01", "1998-01-07T24:00:01", "1998-01-07T23:60",
    "1998-01-07T23:59:60",
    "XXXX-02-30", "XXXX-13", "XXXX-Q9", "19XX-02-30", "XXXX-XX-32", "XXXX-W54", "1998-02-30TXX", "XXXX-W01-9", "1998-XX-32", "1999-W53-X",
    "0000-XX",
    "200X-W99", "1998-XX-XXT25", "XXXX-XX-XXTXX:XX:60", "190X-02-30",
)  # fmt: skip
EDGES = (
    "0001", "9999", "9999-12-31", "0001-01-01", "9999-12-31T24", "9999-12-31T24:00:00", "9999-12-31T23:59:59", "0001-W01-1", "9999-W52",
    "9999-W52-6",
    "000X", "00XX", "0XXX", "999X", "1998-W53", "1998-W53-7", "2004-W53", "2000-02-29", "1600-02-29", "9999-Q4", "9999-12", "199X-W53",
    "199X-W53-7", "00", "000", "01", "001", "99", "999", "98", "1998-H1", "1998-H2", "0001-H1", "9999-H2", "1998-HX", "199X-H2", "XXXX-HX",
    "XXXX-H1",
    "1998-XX-31", "1998-01-07T24", "1998-01-07T24:00", "1998-01-07T24:XX", "1998-01-07TXX:30", "1998-01-07T18:XX:30", "XXXX-W53",
    "00XX-W01", "000X-W53",
    "XXX1", "1998-02-XX", "1998-XX", "1998-WXX", "1998-WXX-3", "1998-QX", "1998-W07-X", "1970-01-01", "1969-12-31T23:59:59",
)  # fmt: skip


@dataclass(frozen=True)
class Time:
    """What a TIMEX3 says of when it is; `value` may be left out."""

    kind: str
    modifier: str
    value: str | None


def draw_time(random: Random, near: bool = False) -> Time:
    """A time without a fault. Where it is to be near, it lies in a few years, and has mostly an interval."""
    if near:
        modifier = random.choice(("START", "MID", "END")) if chance(random, 0.1) else ""
        return Time(random.choice(("DATE", "DATE", "DATE", "TIME")), modifier, calendar_value(random, near))
    modifier = random.choice(MODIFIERS) if chance(random, 0.25) else ""
    return Time(random.choice(KINDS), modifier, draw_value(random))


def draw_value(random: Random) -> str | None:
    """A value that is no bad date, or none."""
    if chance(random, 0.05):
        return None
    if chance(random, 0.15):
        return random.choice((duration(random), random.choice(MEANINGLESS), random.choice(EDGES)))
    return calendar_value(random, chance(random, 0.5))


def calendar_value(random: Random, near: bool) -> str:
    """A value of a calendar shape with a valid filling: that of a day that is drawn, with some X put in."""
    day = date(1998, 1, 1) if near else date(1, 1, 1)
    day = date.fromordinal(day.toordinal() + random.randrange(800 if near else date.max.toordinal()))
    week = day.isocalendar()
    year = f"{day.year:04}"
    month, of_month = f"{day.month:02}", f"{day.day:02}"
    in_weeks = ["-W", f"{week.week:02}", "-", str(week.weekday)]
    in_months = ["-", month, "-", of_month, "T", hour(random), ":", sixty(random), ":", sixty(random)]
    shape = random.choice(("week", "weekday", "quarter", "half", "years", "other", "other", "other", "other", "other", "other"))
    if shape == "years":
        return year[: random.choice((2, 3))]
    if shape in ("week", "weekday"):
        year = f"{week.year:04}"
        fields = in_weeks[: 2 if shape == "week" else 4]
    elif shape == "quarter":
        fields = ["-Q", str((day.month + 2) // 3)]
    elif shape == "half":
        fields = ["-H", str((day.month + 5) // 6)]
    else:
        fields = in_months[: 2 * random.randrange(6)]
    return with_unknown(random, year, fields) if chance(random, 0.2) else "".join([year, *fields])


def hour(random: Random) -> str:
    """An hour, from 00 to 23."""
    return f"{random.randrange(24):02}"


def sixty(random: Random) -> str:
    """A minute or a second."""
    return random.choice(("00", "59", f"{random.randrange(60):02}"))


def with_unknown(random: Random, year: str, fields: list[str]) -> str:
    """A value with X for some of its fields, or for the last digits of its year."""
    if not fields or chance(random, 0.4):
        count = random.choice((1, 1, 2, 4))
        year = year[: 4 - count] + "X" * count
    for place in range(1, len(fields), 2):
        if chance(random, 0.4):
            fields[place] = "X" * len(fields[place])
    return "".join([year, *fields])


def duration(random: Random) -> str:
    """A duration with some of its parts."""

    def parts(letters: str, share: float) -> str:
        return "".join(f"{random.choice(('X', '0', '1', '12', '123456789'))}{letter}" for letter in letters if chance(random, share))

    days, hours = parts("YMWD", 0.4), parts("HMS", 0.3)
    return f"P{days}T{hours}" if hours else f"P{days or '1D'}"


def bad_value(random: Random) -> str:
    """A value of a calendar shape that no filling makes a date."""
    return random.choice(BAD)
