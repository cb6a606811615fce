"""The kinds of warnings by their names and ranks, and those that are given."""

from __future__ import annotations

from collections.abc import Iterable
from typing import NamedTuple

MISTAKES = (
    "version-mark", "tag-as-text", "nested-tag", "misspelled-attribute", "unknown-attribute", "value-form", "free-date",
    "contradicting-word", "far-date", "two-creation-times", "date-with-points", "empty-tag", "self-link", "repeated-link",
    "opposed-instances",
)  # fmt: skip
"""The kinds of what is probably a mistake; `lint` says what each is."""

MISSING = ("part-of-day", "fiscal-value", "event-without-instance", "unlinked-instance", "no-creation-time")
"""The kinds of what is missing, as a link or a date."""

NAMES = MISTAKES + MISSING

ON_DEMAND = frozenset({"unknown-attribute"})
"""Those that are given only where they are asked for."""


class Lint(NamedTuple):
    """The kinds of warnings that are given."""

    names: frozenset[str]


def chosen(ignored: Iterable[str], demanded: Iterable[str]) -> Lint:
    """The kinds that are given, but for those that are ignored, and with those that are demanded."""
    return Lint((frozenset(NAMES) - ON_DEMAND | set(demanded)) - set(ignored))


def is_mistake(name: str) -> bool:
    """Whether a kind is one of what is probably a mistake."""
    return name in MISTAKES
