"""Faults, notes and warnings with their places in lines and columns."""

from __future__ import annotations

from typing import TYPE_CHECKING, NamedTuple

if TYPE_CHECKING:
    from tml.explaining.faults import Fault
    from tml.places import Place


class PlacedNote(NamedTuple):
    """A note on a fault, with its line and column."""

    place: Place
    text: str


class Mark(NamedTuple):
    """The stretch of which a sentence speaks, and the line of the source where it begins, with the stretch marked below it."""

    start: Place
    end: Place
    source: list[str]


class PlacedFault(NamedTuple):
    """A fault with its line and column, the sentence on it, what that speaks of, and notes."""

    fault: Fault
    place: Place
    text: str
    mark: Mark
    notes: list[PlacedNote]
    perhaps_consequence: bool


class PlacedWarning(NamedTuple):
    """Something that is suspect, with the name of the warning and the tag as it is written."""

    name: str
    text: str
    mark: Mark
    tag: str
