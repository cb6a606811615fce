"""How many pairs of intervals one more link would settle: counted from what `tml matrix` has said of a document.

A pair is *open* where more than one base relation is possible between its intervals, and *decided* where exactly one is. A link of a
possible relation between the intervals of an open pair decides that pair, and perhaps others with it. How many is counted by the
orders of all points: those that the matrix says, and what follows from them and the orders of the relation. A pair is decided where
of each point of one interval and each of the other it is known which comes first, or that they are at one place.
"""

from __future__ import annotations

import operator
from dataclasses import dataclass

from tml.matrices import Matrix, Relations

from .orders import PointOrders, members


@dataclass(frozen=True)
class Settled:
    """An open pair: its intervals, and for each relation that is possible how many open pairs a link of it decides, itself among them."""

    left: int
    right: int
    counts: dict[str, int]

    def least(self) -> int:
        """How many pairs are decided whichever of the relations it is."""
        return min(self.counts.values())

    def rank(self) -> tuple[float, ...]:
        """Pairs come first of which the least count is greatest, then the mean one; then those that stand first in the document."""
        return -self.least(), -sum(self.counts.values()) / len(self.counts), self.left, self.right


class Settling:
    """Counts what links settle in a document of this matrix."""

    def __init__(self, matrix: Matrix) -> None:
        self.matrix = matrix
        self.orders = PointOrders.of(matrix)
        self.decided = [self.orders.decided(interval) for interval in range(len(matrix.intervals))]

    def open_pairs(self) -> list[tuple[int, int]]:
        """The open pairs: those first whose intervals stand nearest to each other in the document."""
        is_open = [len(relations) > 1 for relations in self.matrix.sets]
        pairs = [(left, right) for left, right, number in self.matrix.pairs() if is_open[number]]
        return sorted(pairs, key=lambda pair: (operator.sub(*pair[::-1]), pair))

    def settled(self, pair: tuple[int, int]) -> Settled:
        """What a link between the intervals of an open pair settles."""
        relations: Relations = self.matrix.between(*pair)
        return Settled(*pair, {relation: self.count(pair[0], relation, pair[1]) for relation in relations})

    def count(self, left: int, relation: str, right: int) -> int:
        """How many open pairs are decided by one more link."""
        orders = self.orders.copy()
        changed = orders.add_relation(left, relation, right)
        intervals = {point // 2 for point in members(changed)}
        # Each pair is counted at both of its intervals.
        return sum(orders.decided(one) - self.decided[one] for one in intervals) // 2
