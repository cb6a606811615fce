"""The constraints of a document: how many seconds one point is at most after another one, by its links, dates and lengths.

The start of interval I is point 2 I and its end is point 2 I + 1; after all of them comes the origin, which is second 0. What is
counted here is tested and not proved: it goes beside what `tml seconds` has said.
"""

from __future__ import annotations

import math
import re
from collections.abc import Iterator, Sequence
from dataclasses import dataclass

from tml.lines import Step
from tml.statuses import ORDERS

from ..asking.program import CannotRun
from ..document.words import Wording
from ..seconds.placing import Cycle

DURATION = re.compile(r"P(?:(\d{1,9})W)?(?:(\d{1,9})D)?(?:(T)(?:(\d{1,9})H)?(?:(\d{1,9})M)?(?:(\d{1,9})S)?)?", re.ASCII)
UNITS = (604_800, 86_400, 3_600, 60, 1)


@dataclass(frozen=True)
class Limits:
    """The least and the greatest number of seconds that an interval lasts, each where there is one."""

    least: int | None = None
    most: int | None = None


@dataclass(frozen=True)
class Constraint:
    """Point `end` is at most so many seconds after point `begin`; they may be below 0."""

    begin: int
    end: int
    weight: int


def length_of(value: str) -> int | None:
    """The seconds of a duration of weeks, days, hours, minutes and seconds; none where it has other parts or an X."""
    found = DURATION.fullmatch(value)
    if found is None:
        return None
    weeks, days, clock, *times = found.groups()
    counts = [weeks, days, *times]
    if not any(counts) or (clock and not any(times)):
        return None
    return sum(int(count) * unit for count, unit in zip(counts, UNITS, strict=True) if count)


def limits_of(kind: str, modifier: str, value: str) -> Limits:
    """The limits of a time."""
    length = length_of(value) if kind == "DURATION" else None
    if length is None:
        return Limits()
    by_modifier = {"": Limits(length, length), "LESS_THAN": Limits(most=length - 1), "EQUAL_OR_LESS": Limits(most=length)}
    by_modifier |= {"MORE_THAN": Limits(least=length + 1), "EQUAL_OR_MORE": Limits(least=length)}
    return by_modifier.get(modifier, Limits())


class Constraints:
    """The constraints of an accepted document."""

    def __init__(self, wording: Wording) -> None:
        self.wording = wording
        self.names = {name: number for number, name in enumerate(wording.intervals)}
        self.origin = 2 * len(wording.intervals)
        self.limits = [self.limits_at(name) for name in wording.intervals]

    def limits_at(self, name: str) -> Limits:
        """The limits of an interval."""
        tag = self.wording.tags["TIMEX3"].get(name)
        if tag is None:
            return Limits()
        return limits_of(*(self.wording.source.value(tag, attribute) for attribute in ("type", "mod", "value")))

    def bound(self, point: int, upper: bool) -> int | None:
        """The second that a point is not after, or not before, by the calendar."""
        kind, *numbers = self.wording.dates.get(self.wording.intervals[point // 2], ["free"])
        if kind == "exact":
            return int(numbers[point % 2])
        return int(numbers[point % 2]) if kind == "within" and upper == bool(point % 2) else None

    def constraint(self, step: Step) -> Constraint:
        """The constraint that a line of a cycle names."""
        if step.kind == "via":
            return self.of_link(step.first, step.second)
        start, end = 2 * step.first, 2 * step.first + 1
        number: int | None
        if step.kind in ("lower", "upper"):
            number = self.bound(step.first, step.kind == "upper") if step.first < self.origin else None
            begin, end = (step.first, self.origin) if step.kind == "lower" else (self.origin, step.first)
            weight = None if number is None else number if step.kind == "upper" else -number
        elif end >= self.origin:
            weight = None
        else:
            limits = self.limits[step.first]
            begin, end = (start, end) if step.kind == "most" else (end, start)
            number = limits.most if step.kind == "most" else limits.least
            weight = -1 if step.kind == "span" else None if number is None else number if step.kind == "most" else -number
        if weight is None:
            raise CannotRun("the answers of tml to `seconds` and `dates` do not belong together")
        return Constraint(begin, end, weight)

    def of_link(self, number: int, order: int) -> Constraint:
        """The constraint of an order of a link: its first point is no later than the second, or a second before it."""
        left, relation, right = self.wording.source.links[number]
        first, sign, second = ORDERS[relation][order][:2], ORDERS[relation][order][2], ORDERS[relation][order][3:]
        points = {name + str(end): 2 * self.names[one] + end for name, one in (("A", left), ("B", right)) for end in (0, 1)}
        return Constraint(points[second], points[first], -1 if sign == "<" else 0)

    def all(self) -> Iterator[Constraint]:
        """All constraints."""
        for interval, limits in enumerate(self.limits):
            yield self.constraint(Step("span", interval))
            yield from (self.constraint(Step(kind, interval)) for kind in ("least", "most") if getattr(limits, kind) is not None)
        for point in range(self.origin):
            yield from (self.constraint(Step(kind, point)) for kind in ("lower", "upper") if self.bound(point, kind == "upper") is not None)
        for number, (_, relation, _) in enumerate(self.wording.source.links):
            yield from (self.of_link(number, order) for order in range(len(ORDERS[relation])))

    def short_of(self, cycle: Cycle) -> int:
        """How many seconds are missing around a cycle."""
        constraints = [self.constraint(step) for step in cycle.steps]
        joined = all(one.end == constraints[(place + 1) % len(constraints)].begin for place, one in enumerate(constraints))
        total = sum(one.weight for one in constraints)
        if not joined or total >= 0:
            raise CannotRun("the answers of tml to `seconds` and `dates` do not belong together")
        return -total

    def in_time(self, cycle: Cycle) -> list[Step]:
        """The lines of a cycle from the origin on, or from its first point, as time goes: each goes back from a later point."""
        begins = [self.constraint(step).begin for step in cycle.steps]
        first = begins.index(self.origin if self.origin in begins else min(begins))
        return [*cycle.steps[first:], *cycle.steps[:first]][::-1]

    def ranges(self) -> list[tuple[float, float]]:
        """Of each point the earliest and the latest second that it can have, where some placing is there; perhaps without end."""
        constraints = list(self.all())
        latest = distances(self.origin, [(one.begin, one.end, one.weight) for one in constraints])
        earliest = distances(self.origin, [(one.end, one.begin, one.weight) for one in constraints])
        return [(-earliest[point], latest[point]) for point in range(self.origin)]


def distances(origin: int, steps: Sequence[tuple[int, int, int]]) -> list[float]:
    """Of each point the least sum of a walk to it from the origin, where no walk from a point to itself has a sum below 0."""
    found = [math.inf] * origin + [0.0]
    steps_from: list[list[tuple[int, int]]] = [[] for _ in found]
    for begin, end, weight in steps:
        steps_from[begin].append((end, weight))
    fallen = {origin}
    for _ in found:
        before, fallen = fallen, set()
        for point in before:
            for end, weight in steps_from[point]:
                if found[point] + weight < found[end]:
                    found[end] = found[point] + weight
                    fallen.add(end)
        if not fallen:
            return found
    raise CannotRun("tml seconds found a placing, and these constraints have none")
