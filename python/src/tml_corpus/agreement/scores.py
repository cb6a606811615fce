"""Precision, recall and F1 of the links of documents and of keys: exact counts of `tml score`, their fractions, and what a corpus has."""

from __future__ import annotations

import math
from collections.abc import Iterable
from dataclasses import dataclass, field
from fractions import Fraction

from tml.results import Score

MEASURES = ("precision", "recall", "f1")


@dataclass(frozen=True)
class Mean:
    """The mean of a measure over those pairs of documents that have it, and how many these are."""

    value: float | None
    pairs: int


@dataclass
class Corpus:
    """The scores of many pairs of documents: their sum, and of each measure the values of the pairs that have it."""

    pairs: int = 0
    micro: Score = field(default_factory=Score)
    values: dict[str, list[float]] = field(default_factory=lambda: {measure: [] for measure in MEASURES})

    def add(self, scores: Score) -> None:
        """Counts a pair."""
        numbers, self.micro = {measure: as_numbers([getattr(scores, measure)]) for measure in MEASURES}, self.micro + scores
        self.pairs += 1
        for measure in MEASURES:
            self.values[measure] += numbers[measure]

    def macro(self, measure: str) -> Mean:
        """The mean of a measure."""
        values = self.values[measure]
        return Mean(math.fsum(values) / len(values) if values else None, len(values))


def as_numbers(fractions: Iterable[Fraction | None]) -> list[float]:
    """Those fractions that are there, as numbers."""
    return [float(one) for one in fractions if one is not None]
