"""What `crates/library_rows/stdout` wants of orders, walks and links, computed once more: cell by cell, and by all steps of a net."""

from __future__ import annotations

import unittest
from collections import deque
from collections.abc import Iterator, Sequence
from dataclasses import dataclass, field
from itertools import product
from pathlib import Path
from typing import NamedTuple

from corpus import TOP
from test_small_nets import MEANINGS, ORDERS
from tml.lines import Ranks
from tml.statuses import BASE_RELATIONS

PROGRAM = Path(TOP, "crates", "library_rows")
SAID = ("text", "net", "exact", "within", "link", "without")
"""The words of the lines that are not answered."""
NONE, WEAK, STRICT = 0, 1, 2
SIGNS = ".ws"
WORD_OF_BITS = 64
ASKED = 5
Table = list[list[int]]


class Order(NamedTuple):
    """That one point is before another, or where it is weak not after it."""

    start: int
    end: int
    strength: int

    def __str__(self) -> str:
        return f"{self.start}{'<' if self.strength == STRICT else '<='}{self.end}"


def orders_of(first: int, relation: str, second: int) -> list[Order]:
    """The orders that a relation between two intervals is, by the numbers of the intervals."""
    points = {"a.start": 2 * first, "a.end": 2 * first + 1, "b.start": 2 * second, "b.end": 2 * second + 1}
    split = (order.split() for order in ORDERS[relation].split(", "))
    return [Order(points[left], points[right], STRICT if sign == "<" else WEAK) for left, sign, right in split]


def joined(first: int, second: int) -> int:
    """What two ways say one after the other."""
    return max(first, second) if first and second else NONE


def new_table(points: int) -> Table:
    """A table of which nothing is known but that each point is with itself."""
    return [[WEAK if i == j else NONE for j in range(points)] for i in range(points)]


def added(table: Table, order: Order) -> bool:
    """Adds an order with all that follows, unless it would clash."""
    if joined(table[order.end][order.start], order.strength) == STRICT:
        return False
    ways = [joined(row[order.start], order.strength) for row in table]
    after = list(table[order.end])
    for row, way in zip(table, ways, strict=True):
        row[:] = [max(cell, joined(way, further)) for cell, further in zip(row, after, strict=True)]
    return True


@dataclass
class Net:
    """The net that the lines above draw."""

    intervals: int
    lower: dict[int, int] = field(default_factory=dict)
    upper: dict[int, int] = field(default_factory=dict)
    links: list[tuple[int, str, int]] = field(default_factory=list)
    left_out: set[int] = field(default_factory=set)

    def bound(self, interval: int, low: int, high: int, is_exact: bool) -> None:
        start, end = 2 * interval, 2 * interval + 1
        self.lower[start], self.upper[end] = low, high
        if is_exact:
            self.upper[start], self.lower[end] = low, high

    def order(self, step: str) -> Order | None:
        """The order that a step goes by, if there is such a step."""
        word, *rest = step.split()
        a, b = [*map(int, rest), 0][:2]
        if word == "span":
            return Order(2 * a, 2 * a + 1, STRICT) if a < self.intervals else None
        if word == "via":
            orders = orders_of(*self.links[a]) if a < len(self.links) else []
            return orders[b] if b < len(orders) else None
        high, low = self.upper.get(a), self.lower.get(b)
        return None if high is None or low is None or high > low else Order(a, b, STRICT if high < low else WEAK)

    def steps(self, links: Sequence[int]) -> list[Order]:
        """The orders of all steps over these links."""
        named = [f"span {i}" for i in range(self.intervals)] + [f"via {k} {atom}" for k in links for atom in range(ASKED)]
        named += [f"calendar {p} {q}" for p, q in product(range(2 * self.intervals), repeat=2)]
        return [order for order in map(self.order, named) if order is not None]

    def kept(self) -> list[int]:
        return [k for k in range(len(self.links)) if k not in self.left_out]

    def closure(self, links: Sequence[int]) -> Table:
        """The closure of a net that fits, by these links alone."""
        table = new_table(2 * self.intervals)
        assert all([added(table, order) for order in self.steps(links)])
        return table

    def lengths(self, start: int) -> dict[tuple[int, int], int]:
        """Of each point the length of a shortest walk to it, and of one that has a strict step."""
        steps, found, to_do = self.steps(self.kept()), {(start, WEAK): 0}, deque([(start, WEAK)])
        while to_do:
            point, strength = state = to_do.popleft()
            for step in steps:
                reached = step.end, max(strength, step.strength)
                if step.start == point and reached not in found:
                    found[reached] = found[state] + 1
                    to_do.append(reached)
        return found


@dataclass
class Script:
    """What the lines above have said, for the answer to the next one."""

    net: Net = field(default_factory=lambda: Net(0))
    table: Table = field(default_factory=list)
    clashes: list[int] = field(default_factory=list)
    """Which of the orders of the last table were refused."""
    orders: int = 0

    def say(self, word: str, words: list[str]) -> None:
        match word, words:
            case "net", [count]:
                self.net = Net(int(count))
            case "exact" | "within", [interval, low, high]:
                self.net.bound(int(interval), int(low), int(high), word == "exact")
            case "link", [a, relation, b]:
                self.net.links.append((int(a), relation, int(b)))
            case "without", [link]:
                self.net.left_out.add(int(link))

    def wrong(self, word: str, words: list[str], answer: list[str]) -> bool | None:
        """Whether another answer is right; None where this is not said here."""
        numbers = [int(one) for one in words if one.lstrip("-").isdigit()]
        match word:
            case "table" | "close" | "copy" | "weak" | "strict" | "cells" | "rows" | "least":
                return answer != self.of_table(word, numbers)
            case "atoms":
                orders = [str(order) for order in orders_of(numbers[0], words[0], numbers[1])]
                return answer != [f"{len(orders)}: " + " ".join((orders + ["none"] * ASKED)[:ASKED])]
            case "holding":
                a, b = Ranks(*numbers[:2]), Ranks(*numbers[2:])
                return {*answer[0].split()} != {relation for relation in ORDERS if MEANINGS[relation](a, b)}
            case "step":
                return answer != [f" {self.net.order(' '.join(words)) or 'none'}"]
            case "walk":
                return self.wrong_walks(numbers[0], numbers[1], answer)
            case "walks":
                pairs = [*product(range(2 * self.net.intervals), repeat=2)]
                blocks = [answer[k : k + 3] for k in range(0, len(answer), 3)]
                named = zip(pairs, blocks, strict=True)
                return not all(block[0] == f"{i} {j}" and not self.wrong_walks(i, j, block[1:]) for (i, j), block in named)
            case "reduce":
                return self.wrong_links([int(one) for one in answer[0].split()[1:]])
            case "possible":
                return answer != ["they pass" if self.are_items(words[1:]) else "they do not pass"]
        return None

    def of_table(self, word: str, numbers: list[int]) -> list[str]:
        """The answer to a line about the table."""
        match word:
            case "table":
                self.table, self.clashes, self.orders = new_table(numbers[0]), [], 0
            case "close":
                self.table = self.net.closure(range(len(self.net.links)))
            case "weak" | "strict":
                self.orders += 1
                if not added(self.table, Order(numbers[0], numbers[1], STRICT if word == "strict" else WEAK)):
                    self.clashes.append(self.orders - 1)
                    return ["it would clash"]
            case "cells":
                return ["".join(SIGNS[cell] for cell in row) for row in self.table]
            case "rows":
                rows = [" ".join(map(str, self.row(numbers[0], least))) for least in (WEAK, STRICT)]
                return [f"before or with: {rows[0]}", f"before: {rows[1]}"]
            case "least":
                return ["ranks " + " ".join(map(str, self.ranks()))]
        return []

    def row(self, point: int, least: int) -> Iterator[int]:
        """The bits of a row, word by word."""
        row = self.table[point]
        for first in range(0, len(row), WORD_OF_BITS):
            yield sum(1 << j for j, cell in enumerate(row[first : first + WORD_OF_BITS]) if cell >= least)

    def ranks(self) -> list[int]:
        """The least ranks that keep the table: one more than those of the points before, as often as it takes."""
        points = range(len(self.table))
        ranks = [0 for _ in points]
        for _ in points:
            ranks = [max(ranks[q] + self.table[q][p] - 1 for q in points if self.table[q][p]) for p in points]
        return ranks

    def wrong_walks(self, start: int, end: int, answer: list[str]) -> bool:
        """Whether a walk is not one of the shortest, or is there and should not be, or the other way round."""
        lengths = self.net.lengths(start)
        strict = lengths.get((end, STRICT))
        shortest = min((length for length in (lengths.get((end, WEAK)), strict) if length is not None), default=None)
        wanted = (("walk:", shortest, WEAK), ("strict:", strict, STRICT))
        return len(answer) != 2 or any(self.wrong_walk(line, start, end, *one) for line, one in zip(answer, wanted, strict=True))

    def wrong_walk(self, line: str, start: int, end: int, name: str, length: int | None, strength: int) -> bool:
        text = line.removeprefix(name).replace(" via", ",via").replace(" span", ",span").replace(" calendar", ",calendar")
        if length is None or text == " none":
            return line != f"{name} none" or length is not None
        steps = text.split(",")[1:]
        orders = [self.net.order(step) for step in steps]
        links = [int(step.split()[1]) for step in steps if step.startswith("via")]
        ends = [start, *(order.end for order in orders if order)]
        joins = [order is not None and order.start == point for order, point in zip(orders, ends, strict=False)]
        strongest = max([WEAK, *(order.strength for order in orders if order)])
        return len(steps) != length or not all(joins) or ends[-1] != end or strongest < strength or bool(self.net.left_out & {*links})

    def wrong_links(self, kept: list[int]) -> bool:
        """Whether links that stay do not say what all say, or one of them follows from the others."""
        whole = self.net.closure(range(len(self.net.links)))
        return self.net.closure(kept) != whole or any(self.net.closure([k for k in kept if k != one]) == whole for one in kept)

    def are_items(self, words: list[str]) -> bool:
        """Whether these are base relations in their order, each with ranks that fit and have it."""
        starts = range(0, len(words), 5)
        items = [(words[k], Ranks(*map(int, words[k + 1 : k + 3])), Ranks(*map(int, words[k + 3 : k + 5]))) for k in starts]
        names = [name for name, _, _ in items]
        if [name for name in BASE_RELATIONS if name in names] != names:
            return False
        fit = [MEANINGS[relation](a, b) for _, a, b in items for _, relation, _ in self.net.links]
        return all(fit) and all(a.start < a.end and b.start < b.end and MEANINGS[name](a, b) for name, a, b in items)


def questions() -> Iterator[tuple[str, list[str]]]:
    """The lines of the script, each with its answer, which ends where the next question is printed."""
    lines = [line for line in (PROGRAM / "stdin").read_text(encoding="utf-8").splitlines() if line and line[0] not in "#|"]
    printed = deque((PROGRAM / "stdout").read_text(encoding="utf-8").splitlines())
    answered = [number for number, line in enumerate(lines) if line.split()[0] not in SAID]
    following = dict(zip(answered, answered[1:], strict=False))
    for number, line in enumerate(lines):
        answer: list[str] = []
        if number in answered:
            assert printed.popleft() == line
            while printed and (number not in following or printed[0] != lines[following[number]]):
                answer.append(printed.popleft())
        yield line, answer
    assert not printed


class Wanted(unittest.TestCase):
    def test_what_is_wanted_of_orders_is_so(self) -> None:
        script, compared, tables = Script(), 0, []
        for line, answer in questions():
            word, *words = line.split()
            script.say(word, words)
            wrong = script.wrong(word, words, answer)
            self.assertFalse(wrong, (line, answer))
            compared += wrong is not None
            if word == "cells":
                cells = "".join(answer)
                tables.append((script.orders, script.clashes[:1], len(script.clashes), *map(cells.count, SIGNS)))
        self.assertGreater(compared, 600)
        self.assertIn((400, [39], 65, 10581, 324, 5995), tables, "the drawn orders, as they were counted before")

    def test_slips_are_found(self) -> None:
        script = Script(Net(2, links=[(0, "BEFORE", 1), (1, "BEFORE", 0)], left_out={1}))
        self.assertFalse(script.wrong("walk", ["0", "2"], ["walk: span 0 via 0 0", "strict: span 0 via 0 0"]))
        for steps in (" none", " via 0 0", " span 1 via 0 0", " span 0 via 1 0", " span 0 via 0 0 span 1 via 1 0 span 0 via 0 0"):
            self.assertTrue(script.wrong("walk", ["0", "2"], [f"walk:{steps}", "strict: span 0 via 0 0"]), steps)
        self.assertTrue(script.wrong("walk", ["2", "0"], ["walk: via 1 0", "strict: via 1 0"]))
        script.net.links = [(0, "BEFORE", 1), (0, "BEFORE", 1)]
        kept: list[list[int]] = [[0], [1], [], [0, 1]]
        self.assertEqual([script.wrong_links(links) for links in kept], [False, False, True, True])


if __name__ == "__main__":
    unittest.main()
