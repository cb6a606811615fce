"""Links without those that follow from the others, and how many of the links of one document hold in another one.

Nets of up to three intervals are looked at by the definitions alone: all timelines are tried. In greater nets an order always holds
where there is a walk (law `walks_say_all`), so walks are looked for that do not go over the link that is left out.
"""

from __future__ import annotations

from collections.abc import Collection, Iterator, Sequence
from dataclasses import dataclass

from .nets import Link, Net, Ranks, interval_at
from .references import Document
from .relations import Order, holds, orders_of
from .timelines import SMALL, all_links, by_first, closure, fitting, least_tried, orders_of_calendar, raised_with_marks

CALENDAR = -1
"""The number of the link that a step goes over, where it goes over none."""


@dataclass(frozen=True)
class Scores:
    """The counts of `score`: of the reduced links of a document and of a key, how many there are and how many hold in the other one."""

    matched: int
    document_links: int
    found: int
    key_links: int

    def lines(self) -> tuple[bytes, bytes]:
        """The lines that are printed."""
        return b"precision %d of %d" % (self.matched, self.document_links), b"recall %d of %d" % (self.found, self.key_links)


class Steps:
    """The orders of a net that some timeline fits, from each point and each mark of the calendar, with the links that give them.

    No walk leads to a lesser rank, so none goes past the rank of the point that it is to lead to.
    """

    def __init__(self, net: Net) -> None:
        spans = [(Order(2 * one, 2 * one + 1, True), CALENDAR) for one in range(net.intervals())]
        links = [(order, link) for link in all_links(net) for order in net.link_orders(link)]
        steps = [*spans, *links, *((order, CALENDAR) for order in orders_of_calendar(net))]
        orders_from = by_first(net.points(), [order for order, _ in steps])
        ranks = raised_with_marks(net.points(), orders_from)
        assert ranks is not None
        self.ranks = ranks
        self.steps_from: list[list[tuple[Order, int]]] = [[] for _ in orders_from]
        for order, link in steps:
            self.steps_from[order.first].append((order, link))

    def leads(self, wanted: Order, left_out: Collection[int]) -> bool:
        """Whether a walk shows an order without some links: it leads from its first point to the second, and is strict where that is."""
        weak, strict, most = {wanted.first}, set[int](), self.ranks[wanted.second]
        left = [(wanted.first, False)]
        while left:
            point, is_strict = left.pop()
            if point == wanted.second and (is_strict or not wanted.strict):
                return True
            for order, link in self.steps_from[point]:
                seen = strict if is_strict or order.strict else weak
                if self.ranks[order.second] <= most and link not in left_out and order.second not in seen:
                    seen.add(order.second)
                    left.append((order.second, is_strict or order.strict))
        return False


def follows_tried(net: Net, link: int, others: Collection[int]) -> bool:
    """Whether a link of a small net is true of all timelines that fit with some others."""
    return all(least_tried(net, others, [order.negation()]) is None for order in net.link_orders(link))


def reduced(net: Net) -> list[int]:
    """The numbers of the links of a net that some timeline fits without those that follow from the others.

    Each link is looked at once, from number 0 on, and left out where it follows from the others that were not left out so far.
    """
    return reduced_tried(net) if net.intervals() <= SMALL else reduced_by_walks(net)


def reduced_tried(net: Net) -> list[int]:
    """The same of a small net, by all timelines."""
    kept = list(all_links(net))
    for link in all_links(net):
        others = [other for other in kept if other != link]
        kept = others if follows_tried(net, link, others) else kept
    return kept


def reduced_by_walks(net: Net) -> list[int]:
    """The same of any net, by walks that do not go over a link."""
    steps, left_out = Steps(net), set[int]()
    for link in all_links(net):
        without = {link, *left_out}
        if all(steps.leads(order, without) for order in net.link_orders(link)):
            left_out = without
    return [link for link in all_links(net) if link not in left_out]


def links_between(document: Document, kept: Sequence[int], other: Document) -> Iterator[Link]:
    """Some links of a document as links of another one, those whose two names are both names of intervals there."""
    numbers = {one.name: number for number, one in enumerate(other.intervals)}
    for link in (document.links[number] for number in kept):
        left, right = (numbers.get(document.intervals[end].name) for end in (link.left, link.right))
        if left is not None and right is not None:
            yield Link(left, link.relation, right)


def is_true(link: Link, ranks: Ranks) -> bool:
    """Whether a link holds by some ranks."""
    return holds(interval_at(ranks, link.left), link.relation, interval_at(ranks, link.right))


def holding_in(net: Net, links: Sequence[Link]) -> int:
    """How many of some links are true of all timelines that fit a net."""
    if net.intervals() <= SMALL:
        found = fitting(net, all_links(net))
        return sum(all(is_true(link, ranks) for ranks in found) for link in links)
    table = closure(net)
    return sum(all(table.says(order) for order in orders_of(link.left, link.relation, link.right)) for link in links)


def scores_of(document: Document, key: Document) -> Scores:
    """*Scores* of a document and a key, each of which some timeline fits."""
    of_document, of_key = reduced(document.net()), reduced(key.net())
    matched = holding_in(key.net(), list(links_between(document, of_document, key)))
    found = holding_in(document.net(), list(links_between(key, of_key, document)))
    return Scores(matched, len(of_document), found, len(of_key))
