"""The dates of a picture: boxes in lanes above the axis, and between them the gaps of the calendar.

A name stays in its stretch of the axis. If that is narrow its months are short, it is set in two lines, and then smaller. If this does not
help it is next to its stretch, to which a short line leads; but a gap has no name then, since the dates next to it have. No name is cut.
"""

from __future__ import annotations

import re
from collections.abc import Mapping, Sequence
from dataclasses import dataclass

from ..document.date_words import MONTHS, stretch
from ..timeline.known import Known
from ..timeline.lettering import in_lines, measured
from ..timeline.rows import Row
from .shapes import EDGE, GREY, LABEL, Box, Line, Shape, Text

BAND, LEADER, TINY = 10.0, 4.0, 5.2
"""How high a date is if its name is in one line, how long a line to a name is, and the least size of letters."""

MONTH = re.compile("|".join(MONTHS))
YEAR = re.compile(rf"({MONTH.pattern}) (\d{{4,5}})(?=,|$)")
"""A month and its year."""


@dataclass(frozen=True)
class Dated:
    """A stretch of the axis that has a name of the calendar: its first and last place, its name, and its date, unless it is between two."""

    start: int
    end: int
    name: str
    number: int | None = None

    def short(self) -> str:
        """Its name with months in three letters."""
        return MONTH.sub(lambda found: found[0][:3], self.name)

    def room(self, lines: int) -> float:
        """How much room its short name takes at least in one or two lines."""
        words = self.short().split()
        splits = range(1, len(words)) if lines == 2 and len(words) > 1 else [len(words)]
        return min(max(measured(" ".join(part), LABEL) for part in (words[:place], words[place:])) for place in splits) + 3


def dated(known: Known, rows: Mapping[int, Row]) -> list[Dated]:
    """The exact dates that are on the axis, the longest ones first, and last the gaps between them."""
    names = names_of({number: row for number, row in rows.items() if row.kind == "exact"})
    found = []
    for number, name in names.items():
        start, end = known.place(2 * number), known.place(2 * number + 1)
        if start is not None and end is not None:
            found.append(Dated(start, end, name, number))
    found.sort(key=lambda one: (one.start - one.end, one.start))
    return [*found, *gaps(found, rows, names)]


def gaps(dates: Sequence[Dated], rows: Mapping[int, Row], names: Mapping[int, str]) -> list[Dated]:
    """The stretches of the axis between dates that no date covers."""
    found: list[Dated] = []
    end, last = -1, -1
    for one in sorted(dates, key=lambda one: one.start):
        assert one.number is not None
        if 0 <= end < one.start:
            found.append(Dated(end, one.start, between((rows[last], names[last]), (rows[one.number], names[one.number]))))
        end, last = max((end, last), (one.end, one.number))
    return found


def names_of(dates: Mapping[int, Row]) -> dict[int, str]:
    """The dates by the calendar. A year that all have is said of the first one alone."""
    names = {number: row.dates() for number, row in dates.items()}
    years = {year for name in names.values() for _, year in YEAR.findall(name) or [("", "")]}
    if len(years) == 1 and years != {""}:
        return {number: YEAR.sub(r"\1", name) if place else name for place, (number, name) in enumerate(names.items())}
    return names


def between(first: tuple[Row, str], second: tuple[Row, str]) -> str:
    """How the stretch between two dates is called: by their names if they are whole days or more, else by the calendar."""
    one, other = (YEAR.sub(r"\1", name) for _, name in (first, second))
    if "," in one + other or not (one and other):
        return stretch(first[0].civil[1], second[0].civil[0])
    month = other.rpartition(" ")[2]
    return f"between {one.removesuffix(f' {month}')} and {other}"


@dataclass(frozen=True)
class Name:
    """A name as it is set: its lines with their size, where each begins, and from where to where a line leads to it."""

    lines: tuple[tuple[float, str], ...]
    size: float = LABEL
    leader: tuple[float, float] | None = None

    def high(self) -> float:
        """How high the box of its date has to be."""
        return max(BAND, len(self.lines) * (self.size + 0.8) + 1.6)

    def reach(self, begin: float, end: float) -> tuple[float, float]:
        """From where to where it reaches together with its stretch."""
        rights = (x + measured(text, self.size) for x, text in self.lines)
        return min([begin, *(x for x, _ in self.lines)]), max([end, *rights])

    def shapes(self, box: Box, colour: str) -> list[Shape]:
        """Its lines at the height of a box, and what leads to them."""
        step, middle = self.size + 0.8, box.y + box.height / 2
        first, is_outside = middle + 0.36 * self.size - step * (len(self.lines) - 1) / 2, self.leader is not None
        ys = (first + step * place for place in range(len(self.lines)))
        texts = [Text(x, y, text, self.size, colour=colour, halo=is_outside) for y, (x, text) in zip(ys, self.lines, strict=True)]
        return [Line(tuple((x, middle) for x in self.leader), 0.5, GREY, kind="leader"), *texts] if self.leader else [*texts]


def name_of(one: Dated, begin: float, end: float, width: float) -> Name:
    """The name of a stretch: in it, or of a date next to it, on the right if there is room for it, or else on the side with more room."""
    for text, size, most in ((one.name, LABEL, 1), (one.short(), LABEL, 1), (one.short(), LABEL, 2), (one.short(), TINY, 2)):
        # Two lines are about as long as each other.
        lines = in_lines(text, min(end - begin - 2, one.room(2) * size / LABEL) if most == 2 else end - begin - 2, size)
        if len(lines) <= most and " ".join(lines) == text and max(measured(line, size) for line in lines) <= end - begin - 2:
            return Name(tuple(((begin + end - measured(line, size)) / 2, line) for line in lines), size)
    if one.number is None:
        return Name(())
    before, after = begin - LEADER - 1 - EDGE, width - EDGE - end - LEADER - 1
    lines = in_lines(one.short(), max(before, after), LABEL)
    broad = max(measured(line, LABEL) for line in lines)
    if broad <= after:
        return Name(tuple((end + LEADER + 1, line) for line in lines), LABEL, (end, end + LEADER))
    return Name(tuple((begin - LEADER - 1 - measured(line, LABEL), line) for line in lines), LABEL, (begin - LEADER, begin))
