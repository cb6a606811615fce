"""Where a bar is drawn on an axis whose places have been given a position each: what every picture has in common.

A bar stops a little short of the position of a strict bound, and touches that of another one. Between two positions nothing else is
said, so a bar fills all that lies between them.
"""

from __future__ import annotations

from collections.abc import Sequence
from dataclasses import dataclass
from itertools import pairwise

from .known import Bound, Known

SHORT = 1.5
"""How far a bar stops short of a strict bound, at most."""


@dataclass(frozen=True)
class Extent:
    """A bar: from where to where it may reach, whether it is open at each side, where it is solid, and what that leaves out."""

    outer: tuple[float, float]
    is_open: tuple[bool, bool]
    solid: tuple[float, float] | None
    begun: float | None = None
    """Where it has begun at the latest, if that is neither the end of the solid part nor clear from where the bar ends."""

    not_ended: float | None = None
    """Where it has not ended yet, if that is neither the end of the solid part nor clear from where the bar begins."""


@dataclass(frozen=True)
class Positions:
    """The positions of the places of an axis, and those to which open bars reach."""

    places: Sequence[float]
    left: float
    right: float

    def short(self) -> float:
        """How far bars stop short of strict bounds."""
        edges = sorted({self.left, *self.places, self.right})
        return min([SHORT, *((later - earlier) / 4 for earlier, later in pairwise(edges) if later - earlier > 0.1)])

    def at(self, bound: Bound, inward: float) -> float:
        """The position of a bound."""
        return self.places[bound.place] + (inward * self.short() if bound.strict else 0.0)

    def extent(self, known: Known, interval: int) -> Extent:
        """The bar of an interval."""
        start, end = 2 * interval, 2 * interval + 1
        earliest, begun, not_ended, latest = known.lower[start], known.upper[start], known.lower[end], known.upper[end]
        outer = (self.at(earliest, 1) if earliest else self.left, self.at(latest, -1) if latest else self.right)
        is_open = (earliest is None, latest is None)
        if begun and not_ended and begun.place <= not_ended.place:
            thin = self.short() / 4 if begun == not_ended and not begun.strict else 0.0
            return Extent(outer, is_open, (self.at(begun, -1) - thin, self.at(not_ended, 1) + thin))
        marks = begun if latest is None or begun and begun.place < latest.place else None
        others = not_ended if earliest is None or not_ended and not_ended.place > earliest.place else None
        return Extent(outer, is_open, None, self.at(marks, -1) if marks else None, self.at(others, 1) if others else None)
