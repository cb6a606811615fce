"""Placings, and cycles that show that there is none: the section *Placings in whole seconds* of docs/DEFINITIONS.md.

A placing is looked for by rounds over the constraints, as any point is no later than a constraint says. What is found is held against
the definitions before it is given.
"""

from __future__ import annotations

from collections.abc import Iterator, Sequence
from dataclasses import dataclass

from .lengths import NO_LIMITS, Limits, limits_of
from .nets import Net, keeps_link
from .references import Document

Seconds = tuple[int, ...]
"""Two seconds for each interval: its start and its end."""


@dataclass(frozen=True)
class Timed:
    """A net, and the limits of how long each of its intervals lasts."""

    net: Net
    limits: tuple[Limits, ...]

    def origin(self) -> int:
        """The point of second 0, which no interval has."""
        return self.net.points()

    def limits_at(self, interval: int) -> Limits:
        """The limits of an interval; none where there is no such interval."""
        return self.limits[interval] if interval < len(self.limits) else NO_LIMITS

    def lower(self, point: int) -> int | None:
        """The second that a point is not before, where there is such a point and such a second."""
        return self.net.lower(point) if point < self.net.points() else None

    def upper(self, point: int) -> int | None:
        """The second that a point is not after, where there is such a point and such a second."""
        return self.net.upper(point) if point < self.net.points() else None


def timed_of(document: Document) -> Timed:
    """The net of a document with the limits of its intervals."""
    return Timed(document.net(), tuple(limits_of(one.time) for one in document.intervals))


@dataclass(frozen=True)
class Line:
    """A line of a cycle: the word of its kind, and one number or two."""

    word: bytes
    numbers: tuple[int, ...]

    def text(self) -> bytes:
        """As it is written, without its line feed."""
        return b" ".join([self.word, *(b"%d" % number for number in self.numbers)])


@dataclass(frozen=True)
class Constraint:
    """One point is at most so many seconds after another one; the seconds may be below 0."""

    begin: int
    end: int
    weight: int


def constraint_of(timed: Timed, line: Line) -> Constraint | None:
    """The constraint that a line names, if it names one."""
    if line.word == b"via":
        return link_constraint(timed, *line.numbers)
    [number] = line.numbers
    if line.word == b"span":
        return Constraint(2 * number + 1, 2 * number, -1) if number < timed.net.intervals() else None
    if line.word == b"lower":
        second = timed.lower(number)
        return None if second is None else Constraint(number, timed.origin(), -second)
    if line.word == b"upper":
        second = timed.upper(number)
        return None if second is None else Constraint(timed.origin(), number, second)
    if line.word == b"least":
        least = timed.limits_at(number).least
        return None if least is None else Constraint(2 * number + 1, 2 * number, -least)
    most = timed.limits_at(number).most
    return None if most is None else Constraint(2 * number, 2 * number + 1, most)


def link_constraint(timed: Timed, link: int, number: int) -> Constraint | None:
    """The constraint of an order of a link: its first point is no later than the second, and where it is strict a second before it."""
    orders = timed.net.link_orders(link) if link < len(timed.net.links) else ()
    if number >= len(orders):
        return None
    order = orders[number]
    return Constraint(order.second, order.first, -1 if order.strict else 0)


def lines_of(timed: Timed) -> Iterator[Line]:
    """All lines that name a constraint."""
    for interval in range(timed.net.intervals()):
        yield from (Line(word, (interval,)) for word in (b"span", b"least", b"most"))
    for point in range(timed.net.points()):
        yield from (Line(word, (point,)) for word in (b"lower", b"upper"))
    for link in range(len(timed.net.links)):
        yield from (Line(b"via", (link, number)) for number in range(len(timed.net.link_orders(link))))


def is_between(least: int | None, most: int | None, number: int) -> bool:
    """Whether a number is within a lower and an upper one, of those that are there."""
    return (least is None or least <= number) and (most is None or number <= most)


def keeps_bounds(timed: Timed, seconds: Seconds, point: int) -> bool:
    """Whether a point is where the calendar has it."""
    return is_between(timed.lower(point), timed.upper(point), seconds[point])


def keeps_limits(timed: Timed, seconds: Seconds, interval: int) -> bool:
    """Whether an interval lasts as long as its limits say."""
    limits = timed.limits_at(interval)
    return is_between(limits.least, limits.most, seconds[2 * interval + 1] - seconds[2 * interval])


def is_placed(timed: Timed, seconds: Seconds) -> bool:
    """*Placings*: whether seconds are a placing."""
    net = timed.net
    return (
        len(seconds) == net.points()
        and all(seconds[2 * one] < seconds[2 * one + 1] for one in range(net.intervals()))
        and all(keeps_link(net, seconds, link) for link in range(len(net.links)))
        and all(keeps_bounds(timed, seconds, point) for point in range(net.points()))
        and all(keeps_limits(timed, seconds, one) for one in range(net.intervals()))
    )


def is_negative(timed: Timed, lines: Sequence[Line]) -> bool:
    """*Negative cycles*: whether each line names a constraint and begins where the one before it ended, the first one where the last one
    did, and the sum of the weights is below 0.
    """
    constraints = [one for line in lines if (one := constraint_of(timed, line))]
    joined = all(one.end == constraints[(number + 1) % len(constraints)].begin for number, one in enumerate(constraints))
    return len(constraints) == len(lines) and joined and sum(one.weight for one in constraints) < 0


class Rounds:
    """How late each point is at most after any of them, by rounds, each over the constraints of the points that fell in the one before."""

    def __init__(self, timed: Timed) -> None:
        """Begins with all points at 0."""
        self.points = timed.origin() + 1
        self.seconds = [0] * self.points
        self.last: list[tuple[int, Line] | None] = [None] * self.points
        self.from_point: list[list[tuple[Constraint, Line]]] = [[] for _ in range(self.points)]
        for line in lines_of(timed):
            constraint = constraint_of(timed, line)
            if constraint is not None:
                self.from_point[constraint.begin].append((constraint, line))

    def fall(self, points: Sequence[int]) -> list[int]:
        """A round over the constraints of some points: the points that fall in it."""
        fallen = set()
        for point in points:
            for constraint, line in self.from_point[point]:
                second = self.seconds[point] + constraint.weight
                if second < self.seconds[constraint.end]:
                    self.seconds[constraint.end] = second
                    self.last[constraint.end] = (point, line)
                    fallen.add(constraint.end)
        return sorted(fallen)

    def cycle_before(self, point: int) -> tuple[Line, ...]:
        """The cycle that is met by going back from a point, which fell in as many rounds as there are points."""
        for _ in range(self.points):
            point, _ = self.step_to(point)
        end = point
        lines: list[Line] = []
        while not lines or point != end:
            point, line = self.step_to(point)
            lines.append(line)
        return tuple(reversed(lines))

    def step_to(self, point: int) -> tuple[int, Line]:
        """The point from which a point fell last, and the line by which it did."""
        step = self.last[point]
        assert step is not None
        return step


@dataclass(frozen=True)
class Placing:
    """Seconds that are to be a placing."""

    seconds: Seconds


@dataclass(frozen=True)
class Cycle:
    """Lines that are to be a negative cycle."""

    lines: tuple[Line, ...]


def place(timed: Timed) -> Placing | Cycle:
    """A placing, where there is one; or else a negative cycle."""
    rounds = Rounds(timed)
    fallen: list[int] = list(range(rounds.points))
    for _ in range(rounds.points):
        fallen = rounds.fall(fallen)
        if not fallen:
            zero = rounds.seconds[timed.origin()]
            placing = Placing(tuple(second - zero for second in rounds.seconds[: timed.origin()]))
            assert is_placed(timed, placing.seconds)
            return placing
    cycle = Cycle(rounds.cycle_before(fallen[0]))
    assert is_negative(timed, cycle.lines)
    return cycle
