"""Smallest hitting sets: of some sets of links, as few links as are needed to have one of each set."""

from __future__ import annotations

from collections import Counter
from collections.abc import Collection, Iterable

Links = frozenset[int]

LOOKS = 4_000_000
"""How many members of sets are looked at for one collection at most."""


class TooMuch(Exception):
    """A bound of the search is reached."""


class Collected:
    """Sets of links, none of which contains another one, and the search for the smallest sets that hit them all."""

    def __init__(self, first: Iterable[int]) -> None:
        self.sets: list[Links] = []
        self.looks = LOOKS
        self.add(first)

    def add(self, links: Iterable[int]) -> None:
        """Adds a set that contains none of those that are there. Those that contain it go, since what hits it hits them."""
        one = frozenset(links)
        self.sets = [other for other in self.sets if not one <= other]
        self.sets.append(one)

    def in_order(self, links: Collection[int]) -> list[int]:
        """Links in an order: those that are in more sets come first."""
        return in_order(self.sets, links)

    def common(self, rest: Links) -> Links:
        """The links that are in all sets in which none of the rest is."""
        left = [one for one in self.sets if not one & rest]
        return left[0].intersection(*left[1:]) if left else frozenset()

    def smallest(self) -> Links:
        """A smallest hitting set. Sets that share no link, not even through others, are looked at apart."""
        chosen: Links = frozenset()
        for part in parts_of(self.sets):
            size = len(apart(part))
            while (found := self.within(part, size)) is None:
                size += 1
            chosen |= found
        return chosen

    def within(self, sets: list[Links], size: int) -> Links | None:
        """A hitting set of at most so many links, or None: by each link of a shortest set."""
        if not sets:
            return frozenset()
        self.looks -= sum(map(len, sets))
        if self.looks < 0:
            raise TooMuch
        if len(apart(sets)) > size:
            return None
        barred: set[int] = set()
        for link in in_order(sets, min(sets, key=len)):
            # Hitting sets with a link that was tried before were all looked at with it.
            rest = [one - barred for one in sets if link not in one]
            found = self.within(rest, size - 1) if all(rest) else None
            if found is not None:
                return found | {link}
            barred.add(link)
        return None


def in_order(sets: Iterable[Links], links: Collection[int]) -> list[int]:
    """Links in an order: those that are in more of the sets come first."""
    counts = Counter(link for one in sets for link in one)
    return sorted(links, key=lambda link: (-counts[link], link))


def parts_of(sets: list[Links]) -> list[list[Links]]:
    """The sets in parts that share no link: connected components, by union and find."""
    parents: dict[int, int] = {}

    def root(link: int) -> int:
        while parents.setdefault(link, link) != link:
            parents[link] = parents[parents[link]]
            link = parents[link]
        return link

    for one in sets:
        first = root(min(one))
        for link in one:
            parents[root(link)] = first
    parts: dict[int, list[Links]] = {}
    for one in sets:
        parts.setdefault(root(min(one)), []).append(one)
    return list(parts.values())


def apart(sets: Iterable[Links]) -> list[Links]:
    """Sets that share no links, the short ones first. A hitting set has a link of its own for each of them."""
    chosen: list[Links] = []
    seen: set[int] = set()
    for one in sorted(sets, key=len):
        if not one & seen:
            chosen.append(one)
            seen |= one
    return chosen
