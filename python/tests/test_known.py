"""What is known of a document, by `tml_corpus.timeline.known`, against all timelines of small nets of the reference."""

import itertools
import random
import unittest
from collections.abc import Iterator

from reference.nets import Net, Ranks, fits, interval_at
from reference.possible import possible_rows
from reference.relations import holds
from reference.timelines import all_timelines
from test_reference import random_net
from tml.matrices import Matrix, read_matrix, turned
from tml.running import CannotRun
from tml.statuses import BASE_RELATIONS, INVERSES
from tml_corpus.matrix.orders import SIGNS, PointOrders, base_relation
from tml_corpus.timeline.known import Known


def lines_of(net: Net) -> list[bytes]:
    """The lines of the matrix of a net."""
    return [b"i%d i%d %s\n" % (left, right, b" ".join(relations)) for left, right, relations in possible_rows(net)]


def fitting_nets(numbers: int = 400) -> Iterator[tuple[Net, list[Ranks], Matrix]]:
    """Nets that have a timeline, with all of theirs and their matrix."""
    for number in range(numbers):
        net = random_net(random.Random(f"known {number}"), random.Random(number).randint(1, 3))
        timelines = [ranks for ranks in all_timelines(net.intervals()) if fits(net, ranks, range(len(net.links)))]
        if timelines:
            yield net, timelines, read_matrix(lines_of(net), [f"i{place}" for place in range(net.intervals())])


def known_of(net: Net, matrix: Matrix) -> tuple[Known, list[int]]:
    """What is known of a net, and the points of its exact dates."""
    exact = [place for place, bounds in enumerate(net.bounds) if bounds is not None and bounds.exact]
    known = Known.of(PointOrders.of(matrix), exact, range(net.intervals()))
    return known, [point for place in exact for point in (2 * place, 2 * place + 1)]


def signs(timelines: list[Ranks], first: int, second: int) -> set[str]:
    """How one point is to another one in some timeline."""
    return {"<" if ranks[first] < ranks[second] else "=" if ranks[first] == ranks[second] else ">" for ranks in timelines}


def is_tied(net: Net, timelines: list[Ranks], exact: list[int]) -> bool:
    """Whether a point of an exact date is ordered with one of another interval."""
    others = set(range(net.points())) - set(exact)
    return any(not {"<", ">"} <= signs(timelines, first, second) for first in exact for second in others)


def longest(net: Net, timelines: list[Ranks], exact: list[int]) -> int:
    """How many points can be in a row in which each is before the next one in every timeline, and that has some points or their equals."""
    points = range(net.points())
    rows = itertools.chain.from_iterable(itertools.combinations(points, count) for count in range(net.points() + 1))
    found = 0
    for row in rows:
        if all(signs(timelines, *pair) in ({"<"}, {">"}) for pair in itertools.combinations(row, 2)):
            if all(any(signs(timelines, point, one) == {"="} for one in row) for point in exact):
                found = max(found, len(row))
    return found


class Nets(unittest.TestCase):
    """What is known of each of the nets that some timeline fits."""

    def test_the_axis(self) -> None:
        for net, timelines, matrix in fitting_nets():
            known, exact = known_of(net, matrix)
            for ranks in timelines:
                for place in known.axis:
                    self.assertEqual(len({ranks[point] for point in place}), 1, net)
                self.assertEqual([ranks[place[0]] for place in known.axis], sorted({ranks[place[0]] for place in known.axis}), net)
            places = longest(net, timelines, exact if is_tied(net, timelines, exact) else [])
            pairs = [pair for pair in itertools.combinations(range(net.points()), 2) if pair[0] // 2 != pair[1] // 2]
            is_free = all({"<", ">"} <= signs(timelines, *pair) for pair in pairs)
            self.assertEqual(len(known.axis), len(exact) if is_free else places, net)

    def test_bounds(self) -> None:
        count = 0
        for net, timelines, matrix in fitting_nets():
            known, _ = known_of(net, matrix)
            for point in range(net.points()):
                before = [n for n, place in enumerate(known.axis) if all(ranks[place[0]] <= ranks[point] for ranks in timelines)]
                after = [n for n, place in enumerate(known.axis) if all(ranks[place[0]] >= ranks[point] for ranks in timelines)]
                for found, places, wanted in ((known.lower[point], before, max), (known.upper[point], after, min)):
                    self.assertEqual(found is None, not places, net)
                    if found is not None:
                        self.assertEqual(found.place, wanted(places), net)
                        together = any(ranks[known.axis[found.place][0]] == ranks[point] for ranks in timelines)
                        self.assertEqual(found.strict, not together, net)
                        count += 1
        self.assertGreater(count, 500)

    def test_both_ways_round(self) -> None:
        for net, timelines, matrix in fitting_nets(100):
            for first in range(net.intervals()):
                for second in range(net.intervals()):
                    relations = matrix.between(first, second)
                    self.assertEqual(matrix.between(second, first), turned(relations))
                    self.assertTrue(relations, timelines)


class Relations(unittest.TestCase):
    def test_inverses_and_signs(self) -> None:
        self.assertEqual(list(SIGNS), list(BASE_RELATIONS))
        for ranks in all_timelines(2):
            first, second = interval_at(ranks, 0), interval_at(ranks, 1)
            self.assertTrue(holds(first, base_relation(first, second).encode(), second), ranks)
        for relation in BASE_RELATIONS:
            self.assertEqual(INVERSES[INVERSES[relation]], relation)
            a, b, c, d = list(SIGNS[relation])
            self.assertEqual(SIGNS[INVERSES[relation]], "".join({"<": ">", ">": "<", "=": "="}[one] for one in (a, c, b, d)))

    def test_lines(self) -> None:
        names = ["a", "b", "c"]
        lines = [b"a b BEFORE\n", b"a c BEFORE AFTER\n", b"b c BEFORE\n"]
        matrix = read_matrix(lines, names)
        self.assertEqual((matrix.sets, list(matrix.cells)), ([("BEFORE",), ("BEFORE", "AFTER")], [0, 1, 0]))
        self.assertEqual([list(matrix.row(place)) for place in range(3)], [[0, 1], [0], []])
        self.assertEqual((read_matrix([], ["a"]).sets, read_matrix([], []).sets), ([], []))
        for wrong in (lines[:2], [*lines, b"\n"], lines[::-1], [b"a b \n", *lines[1:]], [b"a b AFTER BEFORE\n", *lines[1:]]):
            with self.assertRaises(CannotRun):
                read_matrix(wrong, names)
        for text in (b"DURING\n", b"BEFORE BEFORE\n", b"BEFORE", b"before\n", b"BEFORE \n"):
            with self.assertRaises(CannotRun):
                read_matrix([b"a b " + text], ["a", "b"])
        self.assertIsInstance(read_matrix([], ["a"]), Matrix)


if __name__ == "__main__":
    unittest.main()
