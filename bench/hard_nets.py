"""Hard nets without dates: rings, chains, stars, hubs, classes, layers and ladders."""

from __future__ import annotations

import itertools
import random
from collections.abc import Callable, Sequence
from dataclasses import replace

from hard_shapes import NETS, Case, Link, Links, Shape, against, net

MOST_LINKS = 4096
NET_COMMANDS = ("solve", "ask", "relations", "matrix", "possible", "reduce", "score", "seconds")
CLASHING = ("solve", "ask", "score", "seconds", "verify")
INVERSE = {
    "BEFORE": "AFTER",
    "IBEFORE": "IAFTER",
    "ENDS": "ENDED_BY",
    "BEGINS": "BEGUN_BY",
    "DURING": "DURING_INV",
    "SIMULTANEOUS": "SIMULTANEOUS",
}


TIES: dict[str, Callable[[int, int, int, int], bool]] = {
    "IBEFORE": lambda start, end, other, other_end: end == other,
    "IAFTER": lambda start, end, other, other_end: other_end == start,
    "BEGINS": lambda start, end, other, other_end: start == other and end < other_end,
    "BEGUN_BY": lambda start, end, other, other_end: start == other and other_end < end,
    "ENDS": lambda start, end, other, other_end: end == other_end and other < start,
    "ENDED_BY": lambda start, end, other, other_end: end == other_end and start < other,
    "SIMULTANEOUS": lambda start, end, other, other_end: start == other and end == other_end,
}
"""The relations that put points together, and whether they hold of the starts and the ends of two intervals."""


def chain(name: str, order: Sequence[int]) -> Links:
    """A link from each interval of a sequence to the next one."""
    return [(first, name, second) for first, second in itertools.pairwise(order)]


def turned(links: Sequence[Link]) -> Links:
    """The same links, each from its other end."""
    return [(b, INVERSE[name], a) for a, name, b in links]


def in_a_ring(order: Sequence[int], *pattern: str) -> Links:
    """A link from each interval of a sequence to the next one, and from the last one to the first, by these relations in turn."""
    pairs = zip(order, [*order[1:], order[0]])
    return [(first, name, second) for (first, second), name in zip(pairs, itertools.cycle(pattern))]


def ring(*pattern: str) -> Callable[[int], Case]:
    """All intervals in a ring, by these relations in turn."""
    return lambda size: net(in_a_ring(range(size), *pattern), size)


def ring_four_times(*pattern: str) -> Callable[[int], Case]:
    """The same with each link four times."""
    return lambda size: net(in_a_ring(range(size), *pattern) * 4, size)


def key_in_a_ring(*pattern: str) -> Callable[[int], Case]:
    """Intervals without a link, whose key has them in a ring."""
    return lambda size: against(net([], size), ring(*pattern)(size))


def ring_and_short(first: bool) -> Callable[[int], Case]:
    """A ring of all intervals, and two links that turn each other round, before the ring or after it."""

    def make(size: int) -> Case:
        around = chain("BEFORE", [*range(size), 0])
        short: Links = [(size // 2, "BEFORE", 0), (0, "BEFORE", size // 2)]
        return net(short + around if first else around + short, size)

    return make


def random_ring(size: int) -> Case:
    """A ring of drawn relations: by each an interval begins no later than the next one."""
    draw = random.Random(71)
    names = ("BEFORE", "IBEFORE", "OVERLAPS", "INCLUDES", "ENDED_BY", "BEGUN_BY")
    return net(in_a_ring(range(size), *(draw.choice(names) for _ in range(size))), size)


def shuffled_ring(*pattern: str) -> Callable[[int], Case]:
    """A ring by these relations in turn, whose intervals and links are in no order."""

    def make(size: int) -> Case:
        draw = random.Random(72)
        links = in_a_ring(draw.sample(range(size), size), *pattern)
        return net(draw.sample(links, size), size)

    return make


def clash_at(first: bool) -> Callable[[int], Case]:
    """Links that can all be true, and two that turn each other round, before them or after them."""

    def make(size: int) -> Case:
        draw = random.Random(73)
        pairs = [sorted(draw.sample(range(size), 2)) for _ in range(4 * size - 2)]
        fitting: Links = [(a, "BEFORE", b) for a, b in pairs]
        short: Links = [(0, "BEFORE", size - 1), (size - 1, "BEFORE", 0)]
        return net(short + fitting if first else fitting + short, size)

    return make


def drawn_ties(size: int) -> Case:
    """Links that are true of drawn intervals, nearly all with shared ends, and then one that turns a long way round."""
    draw = random.Random(76)
    starts = [draw.randrange(1 + size // 16) for _ in range(size)]
    ends = [start + 1 + draw.randrange(8) for start in starts]
    links: Links = []
    while len(links) < 4 * size - 1:
        a, b = draw.sample(range(size), 2)
        holding = [name for name, meets in TIES.items() if meets(starts[a], ends[a], starts[b], ends[b])]
        links += [(a, draw.choice(holding), b)] if holding else []
    return net([*links, (starts.index(max(starts)), "BEFORE", ends.index(min(ends)))], size)


def then_a_clash(links: Callable[[int], Links]) -> Callable[[int], Case]:
    """Links, and after them two more that turn each other round."""

    def make(size: int) -> Case:
        return net([*links(size - 2), (size - 2, "BEFORE", size - 1), (size - 1, "BEFORE", size - 2)], size)

    return make


def forward(name: str) -> Callable[[int], Links]:
    """A chain in the order of the intervals."""
    return lambda size: chain(name, range(size))


def backward(name: str) -> Callable[[int], Links]:
    """A chain from the last interval to the first one, whose links come in that order."""
    return lambda size: chain(name, range(size)[::-1])


def star(name: str) -> Callable[[int], Links]:
    """A link from the first interval to each other one."""
    return lambda size: [(0, name, one) for one in range(1, size)]


def star_at_the_end(name: str) -> Callable[[int], Links]:
    """A link from each interval to the last one."""
    return lambda size: [(one, name, size - 1) for one in range(size - 1)]


def linked(links: Callable[[int], Links]) -> Callable[[int], Case]:
    """As many intervals, and these links; the key has the links in reverse, each from its other end where it can."""

    def make(size: int) -> Case:
        made = links(size)
        key = [(b, INVERSE[name], a) if name in INVERSE else (a, name, b) for a, name, b in reversed(made)]
        return against(net(made, size), net(key, size))

    return make


def repeated(links: Callable[[int], Links]) -> Callable[[int], Links]:
    """The same links four times."""
    return lambda size: links(size) * 4


def class_of_overlaps(size: int) -> Links:
    """A class of intervals that are one, and as many links as there may be from them to others, which they overlap."""
    members = size * 400 // 1024
    others = size - members
    links = chain("SIMULTANEOUS", range(members))
    room = size * MOST_LINKS // 1024 - len(links)
    links += [(one % members, "OVERLAPS", members + one % others) for one in range(room)]
    return links


def class_of_befores(size: int) -> Links:
    """A ring of intervals that are one by DURING, and links from each of its members to each of a few later intervals."""
    members = size // 2
    links = chain("DURING", [*range(members), 0])
    room = size * MOST_LINKS // 1024 - len(links)
    links += [(one % members, "BEFORE", members + one % (size - members)) for one in range(room)]
    return links


def class_of_random_ties(size: int) -> Links:
    """A class of all intervals: a ring by DURING, and links by DURING that are drawn."""
    draw = random.Random(74)
    drawn: Links = [(draw.randrange(size), "DURING", draw.randrange(size)) for _ in range(3 * size)]
    return chain("DURING", [*range(size), 0]) + drawn


def ladder(name: str, rung: str) -> Callable[[int], Links]:
    """Two chains, and a rung from each interval of one to that of the other."""

    def links(size: int) -> Links:
        half = size // 2
        sides = chain(name, range(half)) + chain(name, range(half, 2 * half))
        return sides + [(one, rung, half + one) for one in range(half)]

    return links


def layers(width: int, name: str) -> Callable[[int], Links]:
    """Layers of so many intervals, and links from each of one to four of the next."""

    def links(size: int) -> Links:
        draw = random.Random(75)
        last = size - size % width
        ahead = [(one, (one // width + 1) * width) for one in range(last - width) for _ in range(4)]
        return [(one, name, after + draw.randrange(width)) for one, after in ahead]

    return links


def two_sides(size: int) -> Links:
    """Each of some intervals before each of as many others."""
    half = size // 16
    return [(a, "BEFORE", half + b) for a in range(half) for b in range(half)]


def dense(name: str) -> Callable[[int], Links]:
    """Each two of as many intervals as the links allow."""
    return lambda size: [(a, name, b) for a, b in itertools.combinations(range(size * 91 // 1024), 2)]


def free_pair(size: int) -> Case:
    """A chain, and two intervals without a link, which the query is about."""
    case = net(chain("BEFORE", range(size - 2)), size)
    return replace(case, asked=(f"i{size - 2}", "BEFORE", f"i{size - 1}"))


def between_chains(size: int) -> Case:
    """Two intervals, each after one chain and before another one."""
    half = (size - 2) // 2
    x, y = 2 * half, 2 * half + 1
    links = chain("BEFORE", range(half)) + chain("BEFORE", range(half, 2 * half))
    links += [(half - 1, "BEFORE", x), (half - 1, "BEFORE", y), (x, "BEFORE", half), (y, "BEFORE", half)]
    case = net(links, 2 * half + 2)
    return replace(case, asked=(f"i{x}", "OVERLAPS", f"i{y}"))


def long_names(links: Callable[[int], Links]) -> Callable[[int], Case]:
    """The same with names of 64 bytes, which are as long as names may be."""
    return lambda size: net(links(size), size, length=64)


def no_links(_: int) -> Links:
    """No links."""
    return []


def first_points(size: int) -> Case:
    """A clash of more links than there are intervals: up along the starts, and down along the ends."""
    half = size // 2
    links = chain("BEGINS", range(half)) + chain("ENDS", range(half, 2 * half))
    links += [(half - 1, "DURING", half), (2 * half - 1, "BEFORE", 0)]
    return net(links, 2 * half)


LINKED: dict[str, tuple[Callable[[int], Links], tuple[str, ...]]] = {
    "a chain by BEFORE": (forward("BEFORE"), NET_COMMANDS),
    "a chain by BEFORE, backward": (backward("BEFORE"), NET_COMMANDS),
    "a chain by IBEFORE": (forward("IBEFORE"), NET_COMMANDS),
    "a chain by IBEFORE, backward": (backward("IBEFORE"), NET_COMMANDS),
    "a chain by SIMULTANEOUS": (forward("SIMULTANEOUS"), NET_COMMANDS),
    "a chain by SIMULTANEOUS, backward": (backward("SIMULTANEOUS"), NET_COMMANDS),
    "a chain by OVERLAPS": (forward("OVERLAPS"), NET_COMMANDS),
    "a star by SIMULTANEOUS": (star("SIMULTANEOUS"), NET_COMMANDS),
    "a star by SIMULTANEOUS to the last": (star_at_the_end("SIMULTANEOUS"), NET_COMMANDS),
    "a star by BEGINS": (star("BEGINS"), NET_COMMANDS),
    "a hub BEFORE all others": (star("BEFORE"), NET_COMMANDS),
    "a hub BEFORE all others, four times": (repeated(star("BEFORE")), ("reduce", "score", "solve")),
    "a hub AFTER all others, four times": (repeated(star("AFTER")), ("reduce", "score", "solve")),
    "a chain by SIMULTANEOUS, four times": (repeated(forward("SIMULTANEOUS")), ("reduce", "score", "solve")),
    "a class and OVERLAPS": (class_of_overlaps, ("solve", "relations", "reduce", "score")),
    "a class and BEFORE": (class_of_befores, ("solve", "relations", "reduce", "score")),
    "a class of drawn links": (class_of_random_ties, ("solve", "relations", "reduce", "score")),
    "a ladder by BEFORE": (ladder("BEFORE", "BEFORE"), ("solve", "relations", "reduce", "score")),
    "a ladder by IBEFORE and BEGINS": (ladder("IBEFORE", "BEGINS"), ("solve", "relations", "reduce", "seconds")),
    "layers of 32 by BEFORE": (layers(32, "BEFORE"), ("solve", "relations", "matrix", "reduce")),
    "layers of 4 by DURING": (layers(4, "DURING"), ("solve", "relations", "matrix", "reduce")),
    "two sides, each BEFORE each": (two_sides, ("solve", "matrix", "reduce", "score")),
    "each two by OVERLAPS": (dense("OVERLAPS"), ("solve", "matrix", "reduce", "score")),
}

CLASHES: dict[str, tuple[Callable[[int], Case], tuple[str, ...]]] = {
    "a ring by BEFORE": (ring("BEFORE"), CLASHING),
    "a ring by BEFORE, in no order": (shuffled_ring("BEFORE"), CLASHING),
    "a ring by BEFORE, ENDED_BY": (ring("BEFORE", "ENDED_BY"), CLASHING),
    "a ring by IBEFORE, ENDED_BY": (ring("IBEFORE", "ENDED_BY"), CLASHING),
    "a ring by IBEFORE, ENDED_BY, in no order": (shuffled_ring("IBEFORE", "ENDED_BY"), CLASHING),
    "a ring by ENDS, ENDS, IAFTER": (ring("ENDS", "ENDS", "IAFTER"), CLASHING),
    "a ring by IAFTER, BEGUN_BY": (ring("IAFTER", "BEGUN_BY"), CLASHING),
    "a ring by IAFTER, ENDS, SIMULTANEOUS": (ring("IAFTER", "ENDS", "SIMULTANEOUS"), CLASHING),
    "a ring by IBEFORE, ENDED_BY, four times": (ring_four_times("IBEFORE", "ENDED_BY"), CLASHING),
    "a key in a ring by IBEFORE, ENDED_BY": (key_in_a_ring("IBEFORE", "ENDED_BY"), ("score",)),
    "a ring of drawn relations": (random_ring, CLASHING),
    "a ring after a short clash": (ring_and_short(True), CLASHING),
    "a ring before a short clash": (ring_and_short(False), CLASHING),
    "a clash of the first links": (clash_at(True), CLASHING),
    "a clash of the last links": (clash_at(False), CLASHING),
    "a clash along starts and ends": (first_points, CLASHING),
    "drawn links with shared ends, then a clash": (drawn_ties, CLASHING),
    "a chain by IBEFORE, then a clash": (then_a_clash(forward("IBEFORE")), CLASHING),
    "a chain by IBEFORE backward, then a clash": (then_a_clash(backward("IBEFORE")), CLASHING),
    "a star by SIMULTANEOUS, then a clash": (then_a_clash(star("SIMULTANEOUS")), CLASHING),
    "a star to the last, then a clash": (then_a_clash(star_at_the_end("SIMULTANEOUS")), CLASHING),
}

SHAPES = [Shape(name, linked(links), commands, NETS) for name, (links, commands) in LINKED.items()]
SHAPES += [Shape(name, make, commands, NETS) for name, (make, commands) in CLASHES.items()]
SHAPES += [
    Shape("a chain and a free pair", free_pair, ("possible", "ask", "matrix"), NETS),
    Shape("two intervals between chains", between_chains, ("possible", "ask"), NETS),
    Shape("no links, names of 64 bytes", long_names(no_links), ("matrix", "relations"), NETS),
    Shape("SIMULTANEOUS, names of 64 bytes", long_names(forward("SIMULTANEOUS")), ("matrix", "relations", "reduce", "score"), NETS),
]
