"""The forms in which placings are printed: lines, JSON, CSV and iCalendar; and the lines of what cannot all be met.

Texts and names come from strangers: they are printed as all others are, and escaped and quoted as each form asks for it.
"""

from __future__ import annotations

import hashlib
from collections.abc import Callable, Mapping

from ..check import formats
from ..clash.formats import link_object, located
from ..files.finding import shown
from ..matrix.formats import harmless, in_lines
from ..timeline.lettering import plain
from .civil import civil, in_calendar, length, moment
from .placed import Placed, PlacedInterval, Unplaced

HEAD = ("name", "text", "kind", "start", "end", "from", "to", "earliest start", "latest start", "earliest end", "latest end")
FOLD = 73
"""How many bytes of a line of iCalendar come before it is folded."""

STAMP = "19700101T000000Z"
"""The moment at which iCalendar says that an event was made: the same for each run."""


def label(one: PlacedInterval) -> str:
    """The text and the name of an interval."""
    text = plain(one.text).strip()
    return f"{text} ({one.name})" if text and text != one.name else one.name


def text(path: str, found: Placed) -> str:
    """A line for each interval: when it starts and ends, how long it lasts, its text, and whether it may be elsewhere."""
    lines = []
    for one in found.intervals:
        when = f"{civil(one.start)} to {civil(one.end)}, {length(one.end - one.start)}"
        lines.append(f"{when}: {shown(label(one))}{'' if one.is_fixed() else moved(one)}\n")
    return "".join([*lines, f"{shown(path)}: placed: {found.counts()}\n"])


def moved(one: PlacedInterval) -> str:
    """Where else the start and the end may be."""
    return f"; starts {span(*one.starts)}, ends {span(*one.ends)}"


def span(earliest: int | None, latest: int | None) -> str:
    """The earliest and the latest second in words."""
    if earliest is not None and earliest == latest:
        return f"at {civil(earliest)}"
    words = [f"from {civil(earliest)}"] if earliest is not None else []
    words += [f"up to {civil(latest)}"] if latest is not None else []
    return " ".join(words) or "anywhere"


def interval_object(one: PlacedInterval) -> dict[str, object]:
    """An interval as JSON has it."""
    printed: dict[str, object] = {"name": one.name, "text": one.text, "kind": one.kind, "start": one.start, "end": one.end}
    printed |= {"from": civil(one.start), "to": civil(one.end)}
    ranges = {"earliestStart": one.starts[0], "latestStart": one.starts[1], "earliestEnd": one.ends[0], "latestEnd": one.ends[1]}
    return {**printed, **ranges}


def json(path: str, found: Placed) -> str:
    """An object on a line of its own."""
    return formats.printable({"path": path, "verdict": "placed", "intervals": [interval_object(one) for one in found.intervals]})


def unplaced_json(path: str, found: Unplaced) -> str:
    """What cannot all be met as an object."""
    printed: dict[str, object] = {"path": path, "verdict": "not placed", "links": [link_object(link) for link in found.links]}
    printed |= {"notes": list(map(formats.note_object, found.notes)), "short": found.short, "message": found.text()}
    return formats.printable(printed)


def comma_separated(path: str, found: Placed) -> str:
    """A line for each interval, after one with the names of the columns; a bound that is not there is empty."""
    del path
    rows = []
    for one in found.intervals:
        bounds = map(date_or_nothing, one.starts + one.ends)
        rows.append((harmless(one.name), harmless(one.text), one.kind, one.start, one.end, civil(one.start), civil(one.end), *bounds))
    return in_lines([HEAD, *rows])


def date_or_nothing(second: int | None) -> str:
    """The date of a second, if there is one."""
    return "" if second is None else civil(second)


def calendar(path: str, found: Placed) -> str:
    """Events of iCalendar, in local time; what lies outside of the years 1 to 9999 is left out."""
    lines = ["BEGIN:VCALENDAR", "VERSION:2.0", "PRODID:-//tml//tml-corpus//EN"]
    document = hashlib.sha256(found.wording.document).hexdigest()[:16]
    for one in found.intervals:
        if in_calendar(one.start) and in_calendar(one.end):
            lines += ["BEGIN:VEVENT", f"UID:{one.name}@{document}.tml", f"DTSTAMP:{STAMP}"]
            lines += [f"DTSTART:{local(one.start)}", f"DTEND:{local(one.end)}", f"SUMMARY:{quoted(label(one))}", "END:VEVENT"]
    return "".join(folded(line) + "\r\n" for line in [*lines, "END:VCALENDAR"])


def local(second: int) -> str:
    """A second as iCalendar has it."""
    return moment(second).strftime("%Y%m%dT%H%M%S").rjust(15, "0")


def quoted(words: str) -> str:
    """A text as iCalendar has it, of one line."""
    return words.replace("\\", "\\\\").replace(";", "\\;").replace(",", "\\,")


def folded(line: str) -> str:
    """A line whose parts are short enough, each but the first after a space."""
    parts, size = [""], 0
    for character in line:
        room = len(character.encode("utf-8", "replace"))
        if size + room > FOLD:
            parts.append("")
            size = 0
        parts[-1] += character
        size += room
    return "\r\n ".join(parts)


def change_lines(path: str, found: Placed | Unplaced) -> str:
    """How links between dates that touch were read, a line for each."""
    return "".join(located(shown(path), note.place, f"note: {note.text}") + "\n" for note in found.changes)


def unplaced_lines(path: str, found: Unplaced) -> str:
    """The links that cannot all be met, as those of a clash are printed, and what dates and lengths say."""
    lines: list[str] = []
    name = shown(path)
    for place, link in enumerate(found.links, 1):
        lines += [located(name, link.place(), f"error: cycle, {place} of {len(found.links)}: {link.text}"), *link.source]
    lines += [located(name, note.place, f"note: {note.text}") for note in found.notes]
    return "".join(line + "\n" for line in [*lines, f"{name}: {shown(found.text())}"])


FORMS: Mapping[str, Callable[[str, Placed], str]] = {"text": text, "json": json, "csv": comma_separated, "ics": calendar}
"""What is printed of a placing."""
