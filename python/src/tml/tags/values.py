"""The values of TIMEX3: which form one has, and why it is not a date. `tml` judges them; the words are found here."""

from __future__ import annotations

import re

from .invisible import without_invisible
from .similar import LOOKALIKES

YEARS = range(1, 10000)

CALENDAR = re.compile(
    r"(?P<year>\d{4}|\d{3}X|\d\dXX|XXXX)"
    r"(?:-(?P<month>\d\d|XX)(?:-(?P<day>\d\d|XX)(?:T(?P<hour>\d\d|XX)(?::(?P<minute>\d\d|XX)(?::(?P<second>\d\d|XX))?)?)?)?"
    r"|-W(?P<week>\d\d|XX)(?:-(?P<weekday>\d|X))?|-Q(?P<quarter>\d|X)|-H(?P<half>\d|X))?"
    r"|\d{2,3}",
    re.ASCII,
)
"""The shapes that the calendar places. Two digits are a century, and three a decade."""

SHORTEST_DATE = 4
"""How many digits a value has at least that is a date rather than a length."""

NUMBER = r"(?:\d{1,9}|X)"
DURATION = re.compile(
    rf"P(?=[\dXT])(?:{NUMBER}Y)?(?:{NUMBER}M)?(?:{NUMBER}W)?(?:{NUMBER}D)?(?:T(?=[\dX])(?:{NUMBER}H)?(?:{NUMBER}M)?(?:{NUMBER}S)?)?",
    re.ASCII,
)

YEAR = r"(?:\d{4}|\d{3}X|\d\dXX|XXXX)"
FIELD = r"(?:\d\d|XX)"
PART_OF_DAY = re.compile(rf"{YEAR}-(?:{FIELD}-{FIELD}|W{FIELD}-[\dX])T(?:MO|MI|AF|EV|NI|DT|AM|PM)", re.ASCII)
OF_YEAR = rf"{YEAR}(?:-(?:SP|SU|FA|WI|H[12X]|Q[1-4X]))?"
FISCAL = re.compile(rf"FY{OF_YEAR}", re.ASCII)
OTHER_FORMS = re.compile(
    r"(?:PAST|PRESENT|FUTURE)_REF"
    rf"|(?:FY)?{OF_YEAR}"
    rf"|{YEAR}-W{FIELD}-WE"
    r"|BC[\dX]{2,4}|[KMG]A[\dX]+"
    r"|PT?(?:\d+(?:\.\d+)?|X+)[A-Z]{1,2}"
    rf"|T{FIELD}(?::{FIELD}(?::{FIELD})?)?",
    re.ASCII,
)
"""Forms of TimeML that no calendar places: references, seasons, weekends, fiscal years, other durations, hours."""

LOOKS_LIKE_DATE = re.compile(r"[\dX]{4}-[\dX]{2}(?:-[\dX]{2}(?:T[\dX]{2}(?:[:\dX.,]*)(?:Z|[+-]\d\d(?::?\d\d)?)?)?)?", re.ASCII)
"""A date or time with a zone, with parts of a second, or with a field of which only a part is X."""

YEAR_FIRST = re.compile(r"(\d{4})(?:[-/.](\d{1,2})[-/.](\d{1,2})|(\d\d)(\d\d))(T.*)?", re.ASCII)
YEAR_LAST = re.compile(r"(\d{1,2})[-/.](\d{1,2})[-/.](\d{4})(T.*)?", re.ASCII)
PART_FIRST = re.compile(r"([1-4]Q|Q[1-4]|W\d\d|H[12])[-/ ]?(\d{4})", re.ASCII)
CLOCK = re.compile(r"(.*\dT|T|)(\d{1,2})(:\d\d(?::\d\d)?)? ?([AP])?\.?(?:M\.?)?(?: ?(?:UTC|GMT|[A-Z]{1,2}[DS]?T|Z))?", re.ASCII)
"""A time of the day of one digit or two, perhaps with the half of the day, and with the name of a zone, which no value has."""

RANGE = re.compile(r"(\d{4}(?:-\d\d){0,2})(?:/|--| ?- ?| to )(\d{2,4}(?:-\d\d){0,2})", re.ASCII | re.IGNORECASE)
"""Two dates from the one to the other."""


def has_form(value: str) -> bool:
    """Whether a value has one of the forms that TimeML knows."""
    return any(form.fullmatch(value) for form in (CALENDAR, DURATION, PART_OF_DAY, OTHER_FORMS))


def better(value: str) -> list[str]:
    """The values that may have been meant by one that has no form: one where it is clear, two where the day and the month cannot be
    told apart."""
    plain = without_invisible(value).strip().upper()
    if plain != value and has_form(plain):
        return [plain]
    digits = value.translate(LOOKALIKES)
    if digits != value and real(digits):
        return [digits]
    decade = re.fullmatch(r"(\d{3})0'?S", plain, re.ASCII)
    if decade:
        # The 1900s may be ten years or a hundred.
        return [] if decade[1].endswith("0") else [decade[1]]
    if has_form("P" + plain) and not CALENDAR.fullmatch(plain):
        return ["P" + plain]
    return part_of_year(plain) or dated(plain) or on_the_clock(plain)


def part_of_year(value: str) -> list[str]:
    """A quarter, a week, a half or a month of a year that was written in another way."""
    part, month = re.fullmatch(r"(\d{4})-?(Q[1-4]|W\d\d|H[12])", value, re.ASCII), re.fullmatch(r"(\d{4})[-/.](\d{1,2})", value, re.ASCII)
    reversed_part = PART_FIRST.fullmatch(value)
    if part:
        return real(f"{part[1]}-{part[2]}")
    if reversed_part:
        name = reversed_part[1]
        return real(f"{reversed_part[2]}-{name[::-1] if name.endswith('Q') else name}")
    return real(f"{month[1]}-{month[2]:0>2}") if month else []


def dated(value: str) -> list[str]:
    """A date in the order of the calendar: of one with the year last both readings, the day first and the month first, where both are
    dates."""
    first, last = YEAR_FIRST.fullmatch(value), YEAR_LAST.fullmatch(value)
    if first:
        month, day = first[2] or first[4], first[3] or first[5]
        return real(f"{first[1]}-{month:0>2}-{day:0>2}{first[6] or ''}")
    if last is None:
        return []
    one, other, rest = last[1].zfill(2), last[2].zfill(2), last[4] or ""
    return list(dict.fromkeys(real(f"{last[3]}-{other}-{one}{rest}") + real(f"{last[3]}-{one}-{other}{rest}")))


def on_the_clock(value: str) -> list[str]:
    """A time of the day with two digits of the hour, and without the name of a zone."""
    found = CLOCK.fullmatch(re.sub(r"(?<=\d\d-\d\d) (?=\d{1,2}:)", "T", value))
    if found is None or not (found[1] or found[3]):
        return []
    hour = int(found[2]) % 12 + 12 * (found[4] == "P") if found[4] else int(found[2])
    written = f"{found[1] or 'T'}{hour:02}{found[3] or ''}"
    return real(written) or ([written] if has_form(written) and not found[1].strip("T") else [])


def real(value: str) -> list[str]:
    """The value, if it is one of the calendar."""
    return [value] if CALENDAR.fullmatch(value) and no_date(value) is None else []


def no_date(value: str) -> str | None:
    """Why a value of a calendar shape is not a date; None where it is one, or has no such shape."""
    found = CALENDAR.fullmatch(value)
    if found is None:
        return None
    if found["year"] == "0000":
        return "the first year is 0001"
    for field, first, last, words in (
        ("month", 1, 12, "the months are 01 to 12"),
        ("weekday", 1, 7, "the days of a week are 1 to 7"),
        ("quarter", 1, 4, "the quarters are 1 to 4"),
        ("half", 1, 2, "the halves of a year are 1 and 2"),
        ("hour", 0, 24, "the hours are 00 to 24"),
        ("minute", 0, 59, "the minutes are 00 to 59"),
        ("second", 0, 59, "the seconds are 00 to 59"),
    ):
        if is_number(found[field]) and not first <= int(found[field]) <= last:
            meant = exchanged(value)
            return f"{words}; did you mean {meant}?" if meant else words
    return no_day(found) or no_week(found) or past_midnight(found)


def is_number(field: str | None) -> bool:
    """Whether a field is there and is not X."""
    return field is not None and "X" not in field


def exchanged(value: str) -> str | None:
    """The date that was meant where the month and the day were exchanged."""
    found = CALENDAR.fullmatch(value)
    if found is None or not is_number(found["month"]) or not is_number(found["day"]) or int(found["month"]) <= 12 or int(found["day"]) > 12:
        return None
    return next(iter(real(f"{found['year']}-{found['day']}-{found['month']}{value[len('YYYY-MM-DD') :]}")), None)


def next_day(value: str) -> str | None:
    """The time that was meant where the day is over by hours, as 24:30, and the next day is known."""
    found = CALENDAR.fullmatch(value)
    if found is None or found["hour"] != "24" or not real(value[: len("YYYY-MM-DD")]) or "X" in value[: len("YYYY-MM-DD")]:
        return None
    from datetime import date, timedelta

    day = date.fromisoformat(value[: len("YYYY-MM-DD")])
    return next(iter(real(f"{day + timedelta(days=1)}T00{value[len('YYYY-MM-DDT24') :]}")), None) if day < date.max else None


def years_of(found: re.Match[str]) -> list[int]:
    """The years that a year with X may be: of a century or of all years as many as have every kind of year among them."""
    digits = found["year"].rstrip("X")
    first = int(digits.ljust(4, "0")) if digits else 1996
    count = {4: 1, 3: 10, 2: 100, 0: 28}[len(digits)]
    return [year for year in range(first, first + count) if year in YEARS]


def no_day(found: re.Match[str]) -> str | None:
    """Why no month has the day."""
    if not is_number(found["day"]):
        return None
    day, years = int(found["day"]), years_of(found)
    if day == 0:
        return "the first day of a month is 01"
    if not is_number(found["month"]):
        return "no month has more than 31 days" if day > 31 else None
    import calendar

    month = int(found["month"])
    days = max(calendar.monthrange(year, month)[1] for year in years)
    if day <= days:
        return None
    if len(years) == 1:
        return f"{calendar.month_name[month]} {found['year']} has {days} days"
    return f"{calendar.month_name[month]} never has more than {days} days"


def no_week(found: re.Match[str]) -> str | None:
    """Why no year has the week."""
    if not is_number(found["week"]):
        return None
    week, years = int(found["week"]), years_of(found)
    if week == 0:
        return "the first week of a year is W01"
    from datetime import date

    weeks = max(date(year, 12, 28).isocalendar().week for year in years)
    if week <= weeks:
        return None
    return f"{found['year']} has {weeks} weeks" if len(years) == 1 else f"no year has more than {weeks} weeks"


def past_midnight(found: re.Match[str]) -> str | None:
    """Why no day has the time."""
    if found["hour"] != "24":
        return None
    later = [found[field] for field in ("minute", "second") if is_number(found[field]) and int(found[field]) > 0]
    return "at 24:00 the day is over: write 00 and the next day" if later else None
