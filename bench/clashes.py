#!/usr/bin/env python3
"""Compares how many links `tml` cites of a clash with the fewest of minimal clashes that are found from many starts.

Draws clashing nets, and prints the mean number of links that `tml solve` cites over all of them, and the mean of the best, net by
net, of walks that are thinned from 32 starts. Each start is a strict order in a cycle that is drawn, with a shortest way back over
orders that are taken in a drawn order. The links of this walk are left out one after another, in a drawn order, wherever the rest
still clashes. Each clash of `tml` has to clash, and to be minimal. Build `tml` first, as README.md says.

usage: bench/clashes.py [--tml TML] [--plain PLAIN] [--nets 1000] [--starts 32] [--seed 1]
"""

from __future__ import annotations

import argparse
import random
import re
import subprocess
import sys
import tempfile
from collections import deque
from collections.abc import Callable, Iterable, Sequence
from dataclasses import dataclass
from pathlib import Path
from statistics import mean

from hard_shapes import Link, Links, net

HERE = Path(__file__).resolve().parent
CLASH = 2

START, FINISH, OTHER_START, OTHER_FINISH = range(4)
LESS, NO_MORE = True, False
Atom = tuple[int, int, bool]
"""One of the four points of two intervals comes before another, or no later."""


def equal(first: int, second: int) -> list[Atom]:
    """Two points are at one place."""
    return [(first, second, NO_MORE), (second, first, NO_MORE)]


ATOMS: dict[str, list[Atom]] = {
    "BEFORE": [(FINISH, OTHER_START, LESS)],
    "AFTER": [(OTHER_FINISH, START, LESS)],
    "INCLUDES": [(START, OTHER_START, LESS), (OTHER_FINISH, FINISH, LESS)],
    "IS_INCLUDED": [(OTHER_START, START, LESS), (FINISH, OTHER_FINISH, LESS)],
    "DURING": [(OTHER_START, START, NO_MORE), (FINISH, OTHER_FINISH, NO_MORE)],
    "DURING_INV": [(START, OTHER_START, NO_MORE), (OTHER_FINISH, FINISH, NO_MORE)],
    "SIMULTANEOUS": equal(START, OTHER_START) + equal(FINISH, OTHER_FINISH),
    "IBEFORE": equal(FINISH, OTHER_START),
    "IAFTER": equal(OTHER_FINISH, START),
    "BEGINS": equal(START, OTHER_START) + [(FINISH, OTHER_FINISH, LESS)],
    "BEGUN_BY": equal(START, OTHER_START) + [(OTHER_FINISH, FINISH, LESS)],
    "ENDS": equal(FINISH, OTHER_FINISH) + [(OTHER_START, START, LESS)],
    "ENDED_BY": equal(FINISH, OTHER_FINISH) + [(START, OTHER_START, LESS)],
    "OVERLAPS": [(START, OTHER_START, LESS), (OTHER_START, FINISH, LESS), (FINISH, OTHER_FINISH, LESS)],
    "OVERLAPPED_BY": [(OTHER_START, START, LESS), (START, OTHER_FINISH, LESS), (OTHER_FINISH, FINISH, LESS)],
}


@dataclass(frozen=True)
class Order:
    """One point comes before another, or no later: by a link, or by the span of an interval."""

    first: int
    second: int
    strict: bool
    link: int | None


def orders_of(links: Sequence[Link], numbers: Iterable[int], intervals: Iterable[int]) -> list[Order]:
    """The orders of the links of these numbers, and of the spans of these intervals."""
    orders = [Order(2 * one, 2 * one + 1, LESS, None) for one in intervals]
    for number in numbers:
        a, name, b = links[number]
        points = (2 * a, 2 * a + 1, 2 * b, 2 * b + 1)
        orders += [Order(points[first], points[second], strict, number) for first, second, strict in ATOMS[name]]
    return orders


def intervals_of(links: Sequence[Link], numbers: Iterable[int]) -> set[int]:
    """The intervals of the links of these numbers."""
    return {end for number in numbers for end in (links[number][0], links[number][2])}


def leaving(orders: Iterable[Order]) -> dict[int, list[Order]]:
    """The orders that leave each point."""
    found: dict[int, list[Order]] = {}
    for order in orders:
        found.setdefault(order.first, []).append(order)
        found.setdefault(order.second, [])
    return found


def components(graph: dict[int, list[Order]]) -> dict[int, int]:
    """The strong component of each point: a point of each other one's future and past (Kosaraju and Sharir)."""
    left = []
    seen: set[int] = set()
    for root in graph:
        path = [(root, iter(graph[root]))] if root not in seen else []
        seen.add(root)
        while path:
            point, rest = path[-1]
            step = next((order.second for order in rest if order.second not in seen), None)
            if step is None:
                left.append(path.pop()[0])
            else:
                seen.add(step)
                path.append((step, iter(graph[step])))
    back = leaving(Order(order.second, order.first, order.strict, order.link) for orders in graph.values() for order in orders)
    found: dict[int, int] = {}
    for root in reversed(left):
        met = [root] if root not in found else []
        while met:
            point = met.pop()
            if point not in found:
                found[point] = root
                met += [order.second for order in back[point] if order.second not in found]
    return found


def strict_inside(orders: Sequence[Order]) -> list[Order]:
    """The strict orders whose second point leads back to the first one: there are none if all can be true."""
    component = components(leaving(orders))
    return [order for order in orders if order.strict and component[order.first] == component[order.second]]


def clash(links: Sequence[Link], numbers: Sequence[int]) -> bool:
    """Whether the links of these numbers clash."""
    return bool(strict_inside(orders_of(links, numbers, intervals_of(links, numbers))))


def closed_walk(graph: dict[int, list[Order]], strict: Order) -> list[Order]:
    """A strict order and a shortest way from its second point back to its first one."""
    came: dict[int, Order | None] = {strict.second: None}
    queue = deque([strict.second])
    while strict.first not in came:
        for order in graph[queue.popleft()]:
            if order.second not in came:
                came[order.second] = order
                queue.append(order.second)
    walk, last = [strict], came[strict.first]
    while last is not None:
        walk.append(last)
        last = came[last.first]
    return walk


def thinned(links: Sequence[Link], numbers: Sequence[int]) -> list[int]:
    """A minimal clash of links that clash: each in this sequence is left out if the others clash."""
    kept = list(numbers)
    for number in numbers:
        others = [other for other in kept if other != number]
        if clash(links, others):
            kept = others
    return kept


def fewest(links: Sequence[Link], intervals: int, starts: int, draw: random.Random) -> int:
    """How many links the least of the minimal clashes has that are found from so many starts."""
    orders = orders_of(links, range(len(links)), range(intervals))
    inside = strict_inside(orders)
    best = len(links)
    for _ in range(starts):
        graph = leaving(draw.sample(orders, len(orders)))
        cited = {order.link for order in closed_walk(graph, draw.choice(inside)) if order.link is not None}
        if len(cited) > 1 and best > 1:
            best = min(best, len(thinned(links, draw.sample(sorted(cited), len(cited)))))
        best = min(best, len(cited))
    return best


def any_links(count: int, draw: random.Random) -> Links:
    """Links by any relations between intervals that are drawn, one for each interval."""
    return [(a, draw.choice(list(ATOMS)), b) for a, b in (draw.sample(range(count), 2) for _ in range(count))]


def steps(count: int, reach: int, draw: random.Random) -> list[tuple[int, int]]:
    """Pairs of an interval and one that comes up to so many after it, no pair twice."""
    pairs = [(a, b) for a in range(count) for b in range(a + 1, min(count, a + 1 + reach))]
    return draw.sample(pairs, len(pairs) * 2 // 3)


def round_links(count: int, draw: random.Random) -> Links:
    """A ring of all intervals, and some links across it, all but one in the order of the intervals."""
    names = ("BEFORE", "IBEFORE", "OVERLAPS", "INCLUDES", "BEGUN_BY", "ENDED_BY")
    across = draw.sample(steps(count, 6, draw), count // 2)
    links = [(a, draw.choice(names), b) for a, b in [*((one, one + 1) for one in range(count - 1)), *across]]
    links.append((count - 1, draw.choice(("BEFORE", "IBEFORE", "OVERLAPS")), 0))
    return draw.sample(links, len(links))


def turned_links(count: int, draw: random.Random) -> Links:
    """Links that fit the order of the intervals, and two or three that lead back, from anywhere to anywhere before it."""
    names = ("BEFORE", "IBEFORE", "OVERLAPS", "ENDED_BY")
    links = [(a, draw.choice(names), b) for a, b in steps(count, 3, draw)]
    back = [(max(pair), "BEFORE", min(pair)) for pair in (draw.sample(range(count), 2) for _ in range(draw.randrange(2, 4)))]
    return draw.sample(links + back, len(links + back))


KINDS: tuple[Callable[[int, random.Random], Links], ...] = (any_links, round_links, turned_links)


def drawn(draw: random.Random) -> tuple[Links, int]:
    """A clashing net: its links, and how many intervals it has."""
    while True:
        count = draw.randrange(8, 41)
        links = draw.choice(KINDS)(count, draw)
        if len(links) > 1 and clash(links, range(len(links))):
            return links, count


def cited_by(program: str, path: Path) -> list[int]:
    """The links that a program cites of a document whose links clash."""
    run = subprocess.run([program, "solve", str(path)], stdin=subprocess.DEVNULL, stdout=subprocess.PIPE, text=True, check=False)
    if run.returncode != CLASH:
        sys.exit(f"{program} found no clash in {path.read_text()}")
    return [int(number) for number in re.findall(r"^cite (\d+)$", run.stdout, re.MULTILINE)]


def is_minimal(links: Sequence[Link], cited: Sequence[int]) -> bool:
    """Whether links clash, and any of them can be left out so that the others do not."""
    return clash(links, cited) and thinned(links, cited) == cited


def arguments() -> argparse.Namespace:
    """The arguments of the command line."""
    parser = argparse.ArgumentParser(description="Compares the clashes of tml with the least ones that are found from many starts.")
    parser.add_argument("--tml", default=str(HERE.parent / "crates" / "tml" / "out" / "tml"), help="the program to measure")
    parser.add_argument("--plain", help="the program by hand, if its clashes are to be counted too")
    parser.add_argument("--nets", type=int, default=1000, help="how many nets are drawn (1000)")
    parser.add_argument("--starts", type=int, default=32, help="from how many starts walks are thinned (32)")
    parser.add_argument("--seed", type=int, default=1, help="the seed of the nets (1)")
    return parser.parse_args()


def main() -> None:
    """Counts and prints the means."""
    chosen = arguments()
    draw = random.Random(chosen.seed)
    programs = {"tml": chosen.tml} | ({"by hand": chosen.plain} if chosen.plain else {})
    counts: dict[str, list[int]] = {name: [] for name in (*programs, "best")}
    with tempfile.TemporaryDirectory() as folder:
        path = Path(folder) / "document"
        for _ in range(chosen.nets):
            links, intervals = drawn(draw)
            path.write_bytes(net(links, intervals).document)
            for name, program in programs.items():
                cited = cited_by(program, path)
                if not is_minimal(links, cited):
                    sys.exit(f"{program} cites {cited} of {links}, which is no minimal clash")
                counts[name].append(len(cited))
            counts["best"].append(fewest(links, intervals, chosen.starts, draw))
    print(f"{'cited by':8} {'mean':>6} {'of best':>7} {'as best':>7} {'fewer':>6} {'most':>5}")
    for name, found in counts.items():
        pairs = list(zip(found, counts["best"]))
        same, fewer = sum(one == best for one, best in pairs), sum(one < best for one, best in pairs)
        print(f"{name:8} {mean(found):6.3f} {mean(found) / mean(counts['best']):7.3f} {same:7} {fewer:6} {max(found):5}")


if __name__ == "__main__":
    main()
