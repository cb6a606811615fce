"""Which evidence a net supports, and why other evidence is refused: the section *Checking evidence* of docs/DEFINITIONS.md."""

from __future__ import annotations

from collections.abc import Iterable, Sequence
from dataclasses import dataclass

from .evidence import Claims, Clash, Counterexample, Entailment, Evidence, Timeline
from .nets import (
    Net,
    Ranks,
    Step,
    fits,
    has_strict,
    interval_at,
    is_closed_walk,
    keeps_calendar,
    keeps_link,
    links_of,
    order_of_step,
    proves,
)
from .relations import Order, holds, orders_of
from .timelines import all_links


def are_intervals(net: Net, *numbers: int) -> bool:
    """Whether all numbers are those of intervals of a net."""
    return all(number < net.intervals() for number in numbers)


def is_supported(net: Net, evidence: Evidence) -> bool:
    """*Supported*: whether a net supports evidence, by its kind."""
    if isinstance(evidence, Timeline):
        return fits(net, evidence.ranks, all_links(net))
    if isinstance(evidence, Clash):
        if any(cite >= len(net.links) for cite in evidence.cites):
            return False
        closed = is_closed_walk(net, evidence.walk) and links_of(evidence.walk) == set(evidence.cites)
        return closed and all(
            fits(net, spare, [other for other in evidence.cites if other != cite])
            for cite, spare in zip(evidence.cites, evidence.spares, strict=True)
        )
    if not are_intervals(net, evidence.left, evidence.right):
        return False
    if isinstance(evidence, Entailment):
        orders = orders_of(evidence.left, evidence.relation, evidence.right)
        return all(proves(net, walk, order) for walk, order in zip(evidence.walks, orders, strict=True))
    return fits(net, evidence.ranks, all_links(net)) and not relation_holds(evidence)


def relation_holds(evidence: Counterexample) -> bool:
    """Whether the relation of a counterexample holds of its two intervals by its ranks."""
    return holds(interval_at(evidence.ranks, evidence.left), evidence.relation, interval_at(evidence.ranks, evidence.right))


@dataclass(frozen=True)
class Reason:
    """Why a part of evidence is refused: a word and its numbers."""

    word: str
    numbers: tuple[int, ...] = ()

    def text(self) -> bytes:
        """As it is printed."""
        return " ".join([self.word, *map(str, self.numbers)]).encode()


def why_no_numbers(net: Net, numbers: Iterable[int]) -> Reason | None:
    """The numbers of intervals: the first of them that is the number of none."""
    return next((Reason("Number", (number,)) for number in numbers if number >= net.intervals()), None)


def why_no_cites(net: Net, cites: Iterable[int]) -> Reason | None:
    """The cites: the first of them that is the number of no link."""
    return next((Reason("Number", (cite,)) for cite in cites if cite >= len(net.links)), None)


def why_no_timeline(net: Net, ranks: Ranks, links: Iterable[int]) -> Reason | None:
    """A timeline that is to fit with some links: its size, the order of each interval, the links, the calendar."""
    if len(ranks) != net.points():
        return Reason("Size", (len(ranks) // 2,))
    for one in range(net.intervals()):
        if ranks[2 * one] >= ranks[2 * one + 1]:
            return Reason("Order", (one,))
    for link in sorted(links):
        if not keeps_link(net, ranks, link):
            return Reason("Link", (link,))
    if keeps_calendar(net, ranks):
        return None
    order = next(order for order in net.calendar_orders() if not order.is_true(ranks))
    return Reason("Calendar", (order.first, order.second))


def first_unjoined(net: Net, steps: Sequence[Step], start: int | None) -> int | None:
    """The first step that goes by no order, or does not begin where the step before it ended.

    Step 0 is to begin at `start`; without one it may begin at any point.
    """
    point = start
    for number, step in enumerate(steps):
        order = order_of_step(net, step)
        if order is None or (point is not None and order.first != point):
            return number
        point = order.second
    return None


def end_of(net: Net, steps: Sequence[Step], start: int) -> int:
    """Where joined steps end that begin at a point."""
    last = order_of_step(net, steps[-1]) if steps else None
    return last.second if last else start


def why_no_walk(net: Net, steps: Sequence[Step], order: Order) -> Reason | None:
    """A walk that is to prove an order."""
    unjoined = first_unjoined(net, steps, order.first)
    if unjoined is not None:
        return Reason("Step", (unjoined,))
    if end_of(net, steps, order.first) != order.second:
        return Reason("End")
    return Reason("Weak") if order.strict and not has_strict(net, steps) else None


def why_no_closed_walk(net: Net, steps: Sequence[Step], cites: Sequence[int]) -> Reason | None:
    """A walk that is to be closed, over exactly the cited links."""
    unjoined = first_unjoined(net, steps, None)
    if unjoined is not None:
        return Reason("Step", (unjoined,))
    first = order_of_step(net, steps[0]) if steps else None
    if first is not None and end_of(net, steps, first.first) != first.first:
        return Reason("End")
    if not has_strict(net, steps):
        return Reason("Weak")
    differing = links_of(steps) ^ set(cites)
    return Reason("Cited", (min(differing),)) if differing else None


def parts_of(net: Net, evidence: Evidence) -> list[tuple[int, Reason | None]]:
    """The parts of evidence, each by its number, as far as they are asked, with the reason to refuse it if there is one."""
    if isinstance(evidence, Timeline):
        return [(1, why_no_timeline(net, evidence.ranks, all_links(net)))]
    if isinstance(evidence, Clash):
        bad = why_no_cites(net, evidence.cites)
        if bad:
            return [(0, bad)]
        spares = zip(evidence.cites, evidence.spares, strict=True)
        others = [(spare, [other for other in evidence.cites if other != cite]) for cite, spare in spares]
        timelines = [(part, why_no_timeline(net, spare, links)) for part, (spare, links) in enumerate(others, 2)]
        return [(1, why_no_closed_walk(net, evidence.walk, evidence.cites)), *timelines]
    bad = why_no_numbers(net, [evidence.left, evidence.right])
    if bad:
        return [(0, bad)]
    if isinstance(evidence, Entailment):
        orders = orders_of(evidence.left, evidence.relation, evidence.right)
        return [(part, why_no_walk(net, walk, order)) for part, (walk, order) in enumerate(zip(evidence.walks, orders, strict=True), 1)]
    misfit = why_no_timeline(net, evidence.ranks, all_links(net))
    if misfit:
        return [(1, misfit)]
    return [(2, Reason("Holds") if relation_holds(evidence) else None)]


def refusal(net: Net, evidence: Evidence) -> tuple[int, Reason] | None:
    """*Why evidence is refused*: the first part that has a reason, and the reason."""
    return next(((part, reason) for part, reason in parts_of(net, evidence) if reason), None)


def are_supported(net: Net, claims: Claims) -> bool:
    """*Several claims*: whether each of them is supported."""
    return all(is_supported(net, evidence) for evidence in claims)


def first_refusal(net: Net, claims: Claims) -> tuple[int, int, Reason] | None:
    """*Several claims*: the first one that is refused, counted from 0, with its part and the reason."""
    refusals = ((number, refusal(net, evidence)) for number, evidence in enumerate(claims))
    return next(((number, *refused) for number, refused in refusals if refused), None)
