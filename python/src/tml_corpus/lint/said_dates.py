"""What the words of a time say of its date: a weekday, a month, a year. The words are English; of others nothing is said."""

from __future__ import annotations

import re
from datetime import date
from functools import lru_cache
from typing import NamedTuple

from tml.statuses import MOST_REMEMBERED

from ..document.date_words import MONTHS

WEEKDAYS = ("Monday", "Tuesday", "Wednesday", "Thursday", "Friday", "Saturday", "Sunday")
SHORTEST = 3
"""How many letters of the name of a weekday or a month stand for it at least."""


def word_of(names: tuple[str, ...], more: str = "") -> re.Pattern[str]:
    """An expression for one of some names, whole or cut as it is usual."""
    words = "|".join(dict.fromkeys(one for name in names for one in (name, name[:SHORTEST])))
    return re.compile(rf"\b(?:{words}{more})\b")


WEEKDAY = word_of(WEEKDAYS, "|Tues|Thur|Thurs")
MONTH = word_of(MONTHS, "|Sept")
YEAR = re.compile(r"(?<!\d)(?:1\d|20)\d\d(?!\d)")
FULL_YEAR, DAY, WEEK_DAY = re.compile(r"(?:FY)?(\d{4})(?!\d)"), re.compile(r"(\d{4})-(\d\d)-(\d\d)(?!\d)"), re.compile(r"\d{4}-W\d\d-(\d)")
YEAR_AND_MONTH = re.compile(r"\d{4}-(\d\d)(?!\d)")

MOST_DAYS = 31
"""How many days from its creation time a document mostly speaks of."""


class Said(NamedTuple):
    """Something that the words say: the word, and its number, where a week begins with Monday as 0 and a year with January as 1."""

    word: str
    number: int


def weekday_in(words: str) -> Said | None:
    """The weekday of which some words speak; None where they speak of none or of several."""
    return only_one([Said(word, number_in(WEEKDAYS, word)) for word in WEEKDAY.findall(words)])


def month_in(words: str) -> Said | None:
    """The month of which some words speak."""
    return only_one([Said(word, number_in(MONTHS, word) + 1) for word in MONTH.findall(words)])


def only_one(found: list[Said]) -> Said | None:
    """What is said, where it is the same each time."""
    return found[0] if len({one.number for one in found}) == 1 else None


def number_in(names: tuple[str, ...], word: str) -> int:
    """The number of the name that begins as a word does."""
    return next(number for number, name in enumerate(names) if name[:SHORTEST] == word[:SHORTEST])


def day_of(value: str) -> date | None:
    """The day of a value; None where it has none."""
    found = DAY.match(value)
    try:
        return date(*map(int, found.groups())) if found else None
    except ValueError:
        return None


def weekday_of(value: str) -> int | None:
    """The weekday of a value, with Monday as 0."""
    day, found = day_of(value), WEEK_DAY.match(value)
    return day.weekday() if day is not None else int(found[1]) - 1 if found else None


def month_of(value: str) -> int | None:
    """The month of a value, with January as 1."""
    found = YEAR_AND_MONTH.match(value)
    return int(found[1]) if found else None


def year_of(value: str) -> int | None:
    """The year of a value."""
    found = FULL_YEAR.match(value)
    return int(found[1]) if found else None


@lru_cache(MOST_REMEMBERED)
def contradiction(words: str, value: str) -> str | None:
    """Which word of a time its value contradicts; None where none does."""
    said, weekday = weekday_in(words), weekday_of(value)
    if said is not None and weekday is not None and weekday != said.number:
        return f"the text says {said.word}, and this day is a {WEEKDAYS[weekday]}"
    said, month = month_in(words), month_of(value)
    if said is not None and month is not None and month != said.number and 1 <= month <= len(MONTHS):
        return f"the text says {said.word}, and this is in {MONTHS[month - 1]}"
    return None


def spoken_for(readings: list[str], words: str, created: str) -> tuple[str, str, bool] | None:
    """The one of two readings of a date for which a word of the text speaks, or else the creation time; what speaks; and whether it is
    a word.

    The creation time speaks for the reading that is nearer, where that lies within a month of it and the other one does not.
    """
    agreeing = [reading for reading in readings if contradiction(words, reading) is None]
    word = weekday_in(words) or month_in(words)
    if word is not None and len(agreeing) == 1:
        return agreeing[0], f"the word {word.word}", True
    day = day_of(created)
    days = [(reading, found) for reading in readings if (found := day_of(reading)) is not None]
    near = [reading for reading, found in days if day is not None and abs((found - day).days) <= MOST_DAYS]
    return (near[0], "the creation time", False) if len(near) == 1 else None
