"""A timeline in rows, as it is drawn: an interval each, with its words."""

from __future__ import annotations

from dataclasses import dataclass, field

from tml.matrices import Matrix

from ..document.around import Around
from ..document.date_words import stretch
from .known import Known
from .lettering import plain

KINDS = {"event": "event", "exact": "date", "within": "time within a date", "free": "time without a date"}
"""The kinds of rows: events, and those of `tml dates`."""

NOT_ASSERTED = "event not asserted"
NOT_KNOWN = "nothing says when"
NO_INTERVAL = "There is no interval: the document has no event instance and no time."


@dataclass(frozen=True)
class Row:
    """One interval: its name, text and kind, its ranks, the civil texts of a time, and its links in words."""

    name: str
    text: str
    kind: str
    start: int
    finish: int
    civil: tuple[str, ...] = ()
    links: list[str] = field(default_factory=list)
    said: tuple[str, ...] = ()
    """When it starts and when it ends, as far as that is known, in sentences."""

    place: int = 0
    """Where it stands in the document."""

    around: Around = Around()
    """The words around an event."""

    unasserted: str = ""
    """Why the document does not assert it, where it does not."""

    is_tied: bool = True
    """Whether it has a bar: whether it has a bound on the axis, or in seconds some order."""

    when: str = ""
    """When it is placed, in seconds."""

    def dates(self) -> str:
        """When a time is by the calendar, in words. Nothing of an event."""
        if len(self.civil) != 2:
            return "no date" if self.kind == "free" else ""
        return f"{'within ' if self.kind == 'within' else ''}{stretch(*self.civil)}"

    def filling(self) -> str:
        """How its bar is filled: by its kind, unless it is not asserted."""
        return "unasserted" if self.unasserted else self.kind

    def label(self) -> str:
        """Its whole text and its name."""
        return f"{plain(self.text)} ({self.name})" if plain(self.text) else self.name

    def heading(self) -> str:
        """Its label, its kind, and perhaps when it is."""
        kind, when = NOT_ASSERTED if self.unasserted else KINDS[self.kind], self.when if self.is_tied else NOT_KNOWN
        return f"{self.label()}: {kind}{', ' if when else ''}{when}"

    def description(self) -> str:
        """All that is known of it, in lines: its heading, the words around it, its dates, its start and end, and each of its links."""
        lines = [self.heading()]
        lines += [self.around.sentence(plain(self.text))] if self.around != Around() else []
        lines += [f"not asserted: {plain(self.unasserted)}"] if self.unasserted else []
        if self.civil:
            lines.append(" to ".join(self.civil) + (", or a part of it" if self.kind == "within" else ""))
        return "\n".join([*lines, *self.said, *self.linked()])

    def linked(self) -> list[str]:
        """Its links, in lines."""
        return [plain(link) for link in self.links] or ["no links"]


@dataclass(frozen=True)
class Timeline:
    """What is known of a document, with its rows in the order of their starts, or of the text; last those that are listed."""

    title: str
    rows: list[Row]
    matrix: Matrix
    known: Known
    order: tuple[int, ...]
    """Of each row the number of its interval."""

    ends: tuple[tuple[int, str, int], ...] = ()
    """Of each link the rows of its ends, and between them its relation."""

    def by_number(self) -> dict[int, Row]:
        """The rows by the numbers of their intervals."""
        return dict(zip(self.order, self.rows, strict=True))

    def in_text_order(self) -> list[int]:
        """The rows in the order of the text; last those that are listed."""
        return sorted(range(len(self.rows)), key=lambda place: (not self.rows[place].is_tied, self.rows[place].place, place))
