"""The smallest set of links without which a timeline fits a document.

Such a set has a link of each clash. So it is a smallest hitting set of the clashes found so far, once `tml` says that a
timeline fits without it: until then the answer is a further clash. The search is exact up to a bound on the questions.
In the literature: implicit hitting sets (Moreno-Centeno and Karp, The Implicit Hitting Set Approach, 2013).
"""

from __future__ import annotations

from dataclasses import dataclass, field

from .clashes import Clash
from .hitting import Collected, Links, TooMuch, apart
from .leftout import Copies


@dataclass
class Repair:
    """Links without which a timeline fits; none where none were found within the bound."""

    links: list[int] = field(default_factory=list)
    others: dict[int, list[int]] = field(default_factory=dict)
    """The links that do as well in the place of one of them."""
    smallest: bool = False
    all_others: bool = False
    at_least: int = 1
    """No fewer links than this will do."""

    def choices(self, link: int) -> list[int]:
        """A link and those that do in its place."""
        return [link, *self.others.get(link, [])]


def find_repair(copies: Copies, first: Clash) -> Repair:
    """A smallest set of links without which a timeline fits, or the best one that was found within the bound."""
    clashes = Collected(first.links)
    best: Links | None = None
    at_least = 1
    try:
        while True:
            candidate = clashes.smallest()
            at_least = len(candidate)
            clash = copies.verified_clash_without(candidate)
            if clash is None:
                return with_others(copies, clashes, candidate)
            enough = further_clashes(copies, clashes, clash, candidate)
            best = enough if best is None or len(enough) < len(best) else best
    except TooMuch:
        return within_bound(copies, clashes, best, max(at_least, len(apart(clashes.sets))))


def further_clashes(copies: Copies, clashes: Collected, clash: Clash | None, candidate: Links) -> Links:
    """Adds clashes that are apart from each other and from the candidate, and answers a set without which a timeline fits."""
    left_out = set(candidate)
    while clash is not None:
        clashes.add(clash.links)
        left_out.update(clash.links)
        clash = copies.verified_clash_without(left_out)
    return frozenset(left_out)


def with_others(copies: Copies, clashes: Collected, found: Links) -> Repair:
    """A smallest set, with the links that do in the place of one of its own: of each of them `tml` was asked.

    Only a link that is in all clashes which the rest of the set leaves can do so.
    """
    repair = Repair(clashes.in_order(found), smallest=True, all_others=True, at_least=len(found))
    try:
        for link in repair.links:
            rest, tried = found - {link}, {link}
            while candidates := clashes.common(rest) - tried:
                other = clashes.in_order(candidates)[0]
                tried.add(other)
                clash = copies.verified_clash_without(rest | {other})
                if clash is None:
                    repair.others.setdefault(link, []).append(other)
                else:
                    clashes.add(clash.links)
    except TooMuch:
        repair.all_others = False
    return repair


def within_bound(copies: Copies, clashes: Collected, best: Links | None, at_least: int) -> Repair:
    """The best set that was found, without links that it does not need, as far as the bound, once more, lets them be asked about."""
    if best is None:
        return Repair(at_least=at_least)
    copies.renew()
    needed = best
    try:
        for link in reversed(clashes.in_order(best)):
            if copies.clash_without(needed - {link}) is None:
                needed -= {link}
    except TooMuch:
        pass
    return Repair(clashes.in_order(needed), smallest=len(needed) == at_least, at_least=at_least)
