"""Draws nets: intervals, some of them with dates, and links between them, which clash or not.

Each net has a hidden timeline, which is in the order of the calendar. The links of a net that is drawn to fit hold in it.
"""

from __future__ import annotations

from dataclasses import dataclass
from random import Random

from differential.chances import chance
from differential.dates import Time, draw_time
from differential.datetimes import bounds
from tml.statuses import INVERSES, RELATIONS

INVERSE = {
    relation: INVERSES[relation]
    for relation in ("BEFORE", "IBEFORE", "IS_INCLUDED", "DURING", "BEGINS", "ENDS", "SIMULTANEOUS", "IDENTITY", "OVERLAPS")
}
"""Of each two relations that are each other's inverses one, with the other."""

WAYS = ("fits", "fits", "drawn", "slip", "ring")


@dataclass(frozen=True)
class Net:
    """Times, which are None for an instance, in the order of the document; links; and the hidden timeline."""

    times: tuple[Time | None, ...]
    links: tuple[tuple[int, str, int], ...]
    hidden: tuple[tuple[int, int], ...]


def holding(a: tuple[int, int], b: tuple[int, int]) -> list[str]:
    """The relations that hold between two intervals of seconds."""
    (s, e), (t, f) = a, b
    holds = {
        "BEFORE": e < t, "IBEFORE": e == t, "IS_INCLUDED": t < s and e < f, "DURING": t <= s and e <= f, "BEGINS": s == t and e < f,
        "ENDS": e == f and t < s, "SIMULTANEOUS": (s, e) == (t, f), "IDENTITY": (s, e) == (t, f),
        "OVERLAPS": s < t < e < f,
    }  # fmt: skip
    inverse = {
        "AFTER": f < s, "IAFTER": f == s, "INCLUDES": s < t and f < e, "DURING_INV": s <= t and f <= e, "BEGUN_BY": s == t and f < e,
        "ENDED_BY": e == f and s < t, "OVERLAPPED_BY": t < s < f < e,
    }  # fmt: skip
    return [name for name, true in {**holds, **inverse}.items() if true]


def draw_size(random: Random) -> int:
    """A number of intervals: mostly two to eight, sometimes dozens, and sometimes one or none."""
    if chance(random, 0.05):
        return random.choice((random.randrange(2), random.randrange(9, 40)))
    return random.randrange(2, 9)


def draw_net(random: Random, size: int | None = None) -> Net:
    """A net of so many intervals."""
    count = draw_size(random) if size is None else size
    share = random.choice((0.0, 0.2, 0.5, 0.5, 0.9))
    times = tuple(draw_time(random, near=chance(random, 0.8)) if chance(random, share) else None for _ in range(count))
    return with_links(random, times, draw_hidden(random, times))


def with_links(random: Random, times: tuple[Time | None, ...], hidden: tuple[tuple[int, int], ...]) -> Net:
    """A net of these times with links that are drawn: mostly such as hold in the hidden timeline."""
    count = len(times)
    way = random.choice(WAYS)
    number = random.randrange(count * 2 + 1) if count else 0
    if way == "ring" and count > 1:
        links = ring(random, count)
    else:
        links = [link for link in (draw_link(random, hidden, way == "drawn" and chance(random, 0.5)) for _ in range(number)) if link]
    if way == "slip" and links:
        place = random.randrange(len(links))
        a, _, b = links[place]
        links[place] = (a, random.choice(RELATIONS), b)
    return Net(times, tuple(links), hidden)


def draw_hidden(random: Random, times: tuple[Time | None, ...]) -> tuple[tuple[int, int], ...]:
    """An interval for each time, as its dates say, and for each instance, near those of the times."""
    known = [bounds(time.kind, time.modifier, time.value) if time and time.value and is_plain(time.value) else None for time in times]
    places = sorted({number for bound in known if bound for number in (bound.low, bound.high)} or {0, 10})
    places = [number + random.choice((-2, -1, 0, 0, 0, 1, 2)) for number in places for _ in range(2)]
    hidden = []
    for bound in known:
        if bound is None:
            start = random.choice(places)
            later = [place for place in places if place > start]
            hidden.append((start, random.choice(later) if later and chance(random, 0.8) else start + random.choice((1, 2, 5))))
        elif bound.exact or bound.high - bound.low < 4:
            hidden.append((bound.low, bound.high))
        else:
            hidden.append((bound.low + random.randrange(2), bound.high - random.randrange(2)))
    return tuple(hidden)


def is_plain(value: str) -> bool:
    """Whether a value is not written with references."""
    return "&" not in value


def draw_link(random: Random, hidden: tuple[tuple[int, int], ...], at_random: bool) -> tuple[int, str, int] | None:
    """A link of a relation that holds, or of any; None where an interval is linked to itself and that was not drawn."""
    a, b = random.randrange(len(hidden)), random.randrange(len(hidden))
    if at_random:
        return a, random.choice(RELATIONS), b
    holds = holding(hidden[a], hidden[b]) if a != b or chance(random, 0.1) else []
    return (a, random.choice(holds), b) if holds else None


def draw_other_links(random: Random, net: Net) -> Net:
    """A net of the same intervals with some of the links, as they are or the other way round, and others that hold."""
    links = [link for link in net.links if chance(random, 0.7)]
    links = [(b, INVERSES[name], a) if chance(random, 0.4) else (a, name, b) for a, name, b in links]
    drawn = [draw_link(random, net.hidden, False) for _ in range(random.randrange(4))] if net.hidden else []
    links += [link for link in drawn if link]
    random.shuffle(links)
    return Net(net.times, tuple(links), net.hidden)


def ring(random: Random, count: int) -> list[tuple[int, str, int]]:
    """Links of which each goes on where the one before it ended, back to the first interval, in either direction."""
    order = random.sample(range(count), random.randint(2, count))
    name = random.choice(("BEFORE", "IBEFORE", "IS_INCLUDED", "BEGINS", "ENDS", "SIMULTANEOUS", "DURING", "OVERLAPS"))
    links = []
    for place, a in enumerate(order):
        b = order[(place + 1) % len(order)]
        relation = name if chance(random, 0.9) else random.choice(RELATIONS)
        turned = relation in INVERSE and chance(random, 0.3)
        links.append((b, INVERSE[relation], a) if turned else (a, relation, b))
    random.shuffle(links)
    return links
