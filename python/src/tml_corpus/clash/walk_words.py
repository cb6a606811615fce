"""The walk of a clash in words, step by step: each point is no later than the next one, and the last one is the first one again.

What a step says of two points is looked up in the table of docs/DEFINITIONS.md. That the walk is one is for `tml verify` to say.
"""

from __future__ import annotations

from collections.abc import Sequence
from dataclasses import dataclass, replace

from tml.lines import Step
from tml.statuses import ORDERS

from ..asking.program import CannotRun
from ..document.words import Wording
from .search import is_equal_end

SPAN = "since an interval starts before it ends"


@dataclass(frozen=True)
class WalkStep:
    """A step of a walk: the points from which and to which it leads, whether the one is before the other, and why."""

    first: int
    second: int
    strict: bool
    reason: str
    relation: str = ""
    """The relation of its link, or by what else it goes."""

    def is_span(self) -> bool:
        """Whether it leads from the start of an interval to its end, and goes by nothing else."""
        return self.reason == SPAN

    def with_next(self, other: WalkStep) -> WalkStep:
        """This step and the next one as one, of which one is strict."""
        said = other if self.is_span() else self
        return replace(said, first=self.first, second=other.second, strict=True)


def steps_in_words(wording: Wording, walk: Sequence[Step]) -> list[WalkStep]:
    """The steps of a walk, each of which begins where the one before it ends: first one by a link that comes after one by a link, if
    there is such a step. That an interval starts before it ends is no step of its own, but part of the next one, or at the end of the
    walk of the one before it.
    """
    steps = [step_in_words(wording, step) for step in walk]
    pairs = zip(steps, steps[1:] + steps[:1], strict=True)
    if not all(one.second == other.first for one, other in pairs) or not any(step.strict for step in steps):
        raise CannotRun("the walk that tml printed cannot be read")
    joined: list[WalkStep] = []
    for step in steps:
        if joined and (joined[-1].is_span() or step.is_span() and step is steps[-1]) and len(steps) > 2:
            step = joined.pop().with_next(step)
        joined.append(step)
    begin = next((place for place, step in enumerate(joined) if "calendar" not in (step.relation, joined[place - 1].relation)), 0)
    return joined[begin:] + joined[:begin]


def step_in_words(wording: Wording, step: Step) -> WalkStep:
    """One step, by a link, by the calendar, or from the start of an interval to its end."""
    if step.kind == "span":
        return WalkStep(2 * step.first, 2 * step.first + 1, True, SPAN)
    if step.kind == "calendar":
        _, text = wording.calendar(step.first, step.second)
        return WalkStep(step.first, step.second, not is_equal_end(wording, step.first, step.second), f"since {text}", "calendar")
    link = wording.link(step.first)
    orders = ORDERS.get(link.relation, ())
    if step.second >= len(orders):
        raise CannotRun("the walk that tml printed cannot be read")
    order = orders[step.second]
    numbers = {"A": wording.intervals.index(link.left), "B": wording.intervals.index(link.right)}
    first, second = (2 * numbers[point[0]] + int(point[1]) for point in (order[:2], order[3:]))
    return WalkStep(first, second, order[2] == "<", f"since {wording.in_words(link)}", link.relation)
