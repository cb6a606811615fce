"""What is suspect in times: values, and what the words of the text and the creation time say of them."""

from __future__ import annotations

import re
from collections.abc import Iterable, Iterator
from functools import partial

from tml.tags.edits import Edit, Ways, encoded, with_spaces_before, with_value
from tml.tags.invisible import first_invisible
from tml.tags.source import Source, Suspect, attribute_of, cut
from tml.tags.units import Unit
from tml.tags.values import CALENDAR, DURATION, FISCAL, LOOKS_LIKE_DATE, PART_OF_DAY, RANGE, SHORTEST_DATE, better, has_form

from .said_dates import YEAR, contradiction, spoken_for, year_of

DATED = ("DATE", "TIME")
"""The types of which the value is a date."""

MOST_CREATION_TIMES = 3
"""How many times, the first ones, are offered as the creation time."""

NEAR, FAR = 2, 5
"""Within so many years of its creation time a document mostly speaks, and from the second number on a date is far from it."""

TOO_FINE = re.compile(r"(?<=T\d\d)((?::\d\d){0,2})(?:[.,]\d+)?(?:Z|[+-]\d\d(?::?\d\d)?)?$", re.ASCII)
"""The minutes and seconds of a time, and then parts of a second and a zone, which the calendar does not know."""

PLACED_BY_LINKS = "which the calendar does not place: only links can order it"


def value_form(source: Source) -> Iterator[Suspect]:
    """A value of a TIMEX3 that has none of the forms."""
    for tag, _, value in source.odd_times:
        if not has_form(value) and not LOOKS_LIKE_DATE.fullmatch(value):
            hint, edit = meant_value(source, tag, value)
            said = f'value="{cut(value)}" is not a TIMEX3 value, so the calendar cannot place it{hint}'
            yield of_value(tag, said, edit, partial(others, source, tag, "value", better(value)))


def of_value(tag: Unit, text: str, edit: Edit | None = None, choices: Ways = tuple) -> Suspect:
    """A warning on the value of a time."""
    attribute = attribute_of(tag, "value")
    return Suspect(tag, text) if attribute is None else Suspect.of_attribute(tag, attribute, text, edit, choices)


def others(source: Source, tag: Unit, name: str, values: Iterable[str]) -> list[tuple[Edit, ...]]:
    """The edits that give an attribute one of some values."""
    attribute = attribute_of(tag, name)
    return [(with_value(attribute, source.document, encoded(value)),) for value in values] if attribute is not None else []


def meant_value(source: Source, tag: Unit, value: str) -> tuple[str, Edit | None]:
    """What was probably meant by a value that has no form, and the edit where that is clear."""
    readings, attribute, hidden = better(value), attribute_of(tag, "value"), first_invisible(value)
    seen = f", since it has {hidden} in it, which nobody sees" if hidden else ""
    if attribute is None or not readings:
        if RANGE.fullmatch(value):
            return f"{seen}: it is a range; write the date that is meant, or a DURATION with beginPoint and endPoint", None
        return f"{seen}: a date is written as 1998-03-11", None
    chosen, hint = readings[0], f"{seen}; did you mean {' or '.join(readings)}?"
    if len(readings) > 1:
        spoken = spoken_for(readings, source.words_of(tag), source.creation_value())
        if spoken is None:
            return f"{hint} (the day first, or the month first)", None
        chosen, speaker, is_word = spoken
        other = next(reading for reading in readings if reading != chosen)
        if not is_word:
            return f"{seen}; did you mean {chosen} or {other}? ({speaker} suggests the first)", None
        hint = f"{seen}; did you mean {chosen}? ({speaker} suggests it rather than {other})"
    return hint, with_value(attribute, source.document, encoded(chosen))


def free_date(source: Source) -> Iterator[Suspect]:
    """A value that looks like a date, of a time that has none."""
    for tag, kind, value in source.odd_times:
        if kind == "DURATION" and CALENDAR.fullmatch(value):
            text = f'value="{value}" is {a_date(value)}, and a DURATION has none; did you mean {not_a_date(value)}?'
            is_length = len(value) < SHORTEST_DATE
            name, meant = ("value", length_of(value)) if is_length else ("type", "DATE")
            yield of_value(tag, text, choices=partial(others, source, tag, name, [meant]))
        elif kind in DATED and DURATION.fullmatch(value):
            text = f'value="{value}" is a duration, so this {kind} has no date; did you mean type="DURATION"?'
            yield of_value(tag, text, choices=partial(others, source, tag, "type", ["DURATION"]))
        elif not CALENDAR.fullmatch(value) and LOOKS_LIKE_DATE.fullmatch(value):
            text = f'value="{cut(value)}" looks like a date, and the calendar does not place it: {why_free(value)}'
            shorter = TOO_FINE.sub(r"\1", value)
            yield of_value(tag, text, choices=partial(others, source, tag, "value", [shorter] if CALENDAR.fullmatch(shorter) else []))


def a_date(value: str) -> str:
    """What a value is that the calendar places."""
    return {2: "a century", 3: "a decade"}.get(len(value), "a date")


def not_a_date(value: str) -> str:
    """What was probably meant by such a value of a DURATION: a few digits are rather a length than a decade."""
    return f"a length, as {length_of(value)}" if len(value) < SHORTEST_DATE else 'type="DATE"'


def length_of(digits: str) -> str:
    """The length of so many days."""
    return f"P{int(digits)}D"


def why_free(value: str) -> str:
    """Why a value that looks like a date is none."""
    if value.endswith("Z") or "+" in value or value.count("-") > 2:
        return "write it without the zone"
    if "." in value or "," in value:
        return "write it without the parts of a second"
    return "a field is all digits or all X" if "X" in value else "a time is written as T18, T18:30 or T18:30:00"


def part_of_day(source: Source) -> Iterator[Suspect]:
    """A part of a day, which no calendar places."""
    for tag, _, value in source.odd_times:
        if PART_OF_DAY.fullmatch(value):
            yield of_value(tag, f'value="{value}" is a part of a day, {PLACED_BY_LINKS}')


def fiscal_value(source: Source) -> Iterator[Suspect]:
    """A fiscal year, of which the calendar knows no beginning."""
    for tag, _, value in source.odd_times:
        if FISCAL.fullmatch(value):
            yield of_value(tag, f'value="{value}" is a fiscal year or a part of one, {PLACED_BY_LINKS}')


def contradicting_word(source: Source) -> Iterator[Suspect]:
    """A weekday or a month of the text that is not that of the value."""
    for tag, values in source.valued("TIMEX3"):
        value = values.get("value", "")
        if value and values.get("type", "") in DATED:
            why = contradiction(source.words_of(tag), value)
            if why is not None:
                yield of_value(tag, f'value="{cut(value)}": {why}')


def far_date(source: Source) -> Iterator[Suspect]:
    """A date in another time than the creation time and all others, where the words name no such year."""
    created = year_of(source.creation_value())
    if created is None:
        return
    dates = [(tag, values.get("value", "")) for tag, values in source.valued("TIMEX3") if values.get("type", "") in DATED]
    dated = [(tag, value, year) for tag, value in dates if CALENDAR.fullmatch(value) and (year := year_of(value)) is not None]
    years = [(tag, value, year) for tag, value, year in dated if abs(year - created) > NEAR]
    if len(years) != 1:
        return
    [(tag, value, year)] = years
    words = source.words_of(tag)
    is_named = f"{year}"[-2:] in words
    if abs(year - created) >= FAR and not is_named and (len(value) > len("YYYY") or YEAR.search(words)):
        yield of_value(
            tag,
            f'value="{cut(value)}" is far from the creation time in {created} and from all other dates, and the text does not name {year}',
        )


def two_creation_times(source: Source) -> Iterator[Suspect]:
    """A second time that says when the document was made."""
    for tag in source.creation_times[1:]:
        attribute, first = attribute_of(tag, "functionInDocument"), source.creation_times[0]
        if attribute is not None:
            text = (
                f"the TIMEX3 at {source.at(first.start)} is the creation time already: see which of the two is, and "
                f"remove this attribute from the other"
            )
            yield Suspect.of_attribute(tag, attribute, text, choices=partial(without_attribute, source, (tag, first), attribute.name))


def without_attribute(source: Source, tags: Iterable[Unit], name: str) -> list[tuple[Edit, ...]]:
    """The edits that take an attribute from one of some tags."""
    return [(with_spaces_before(source.document, found),) for tag in tags if (found := attribute_of(tag, name)) is not None]


def date_with_points(source: Source) -> Iterator[Suspect]:
    """A date with a begin and an end, which say nothing of when it is."""
    for tag, values in source.valued("TIMEX3"):
        names = [name for name in ("beginPoint", "endPoint") if values.get(name, "")]
        kind = values.get("type", "")
        attribute = attribute_of(tag, names[0]) if names and kind in DATED else None
        if attribute is not None:
            say = "say" if len(names) > 1 else "says"
            text = f"{' and '.join(names)} of a {kind} {say} nothing about its time: only its value and links do"
            yield Suspect.of_attribute(tag, attribute, text)


def no_creation_time(source: Source) -> Iterator[Suspect]:
    """A document of which no time says when it was made."""
    root = source.units.first_tag() if not source.creation_times else None
    if root is not None:
        text = 'the document has no creation time: add functionInDocument="CREATION_TIME" to the TIMEX3 that says when it was made'
        yield Suspect(root, text, choices=lambda: [(says_when_made(source, tag),) for tag in source.tags("TIMEX3")[:MOST_CREATION_TIMES]])


def says_when_made(source: Source, tag: Unit) -> Edit:
    """The edit that makes a time the creation time."""
    attribute = attribute_of(tag, "functionInDocument")
    if attribute is not None:
        return with_value(attribute, source.document, b"CREATION_TIME")
    at = tag.start + 1 + len(tag.name)
    return Edit(at, at, b' functionInDocument="CREATION_TIME"')
