"""What the commands say of small nets, against an enumeration of all timelines of these nets.

The library is asked about every net of each kind. The program, which is a process for each question, is asked about a seeded sample.
"""

import os
import random
import unittest
from collections.abc import Callable, Collection, Iterable, Sequence
from functools import cache, lru_cache, reduce
from itertools import chain, combinations, product
from typing import NamedTuple

from corpus import TML, of_type
from tml import questions
from tml.asking import Answerer
from tml.finding import BUILT_LIBRARY
from tml.library import Library
from tml.lines import Ranks, Step
from tml.matrices import Matrix
from tml.process import Process
from tml.results import Clash, Counterexample, Possible, Proof, Reduced, Relation, Timeline
from tml.statuses import BASE_RELATIONS, RELATIONS

MEANINGS: dict[str, Callable[[Ranks, Ranks], bool]] = {
    "BEFORE": lambda a, b: a.end < b.start,
    "IBEFORE": lambda a, b: a.end == b.start,
    "IS_INCLUDED": lambda a, b: b.start < a.start and a.end < b.end,
    "DURING": lambda a, b: b.start <= a.start and a.end <= b.end,
    "BEGINS": lambda a, b: a.start == b.start and a.end < b.end,
    "ENDS": lambda a, b: a.end == b.end and b.start < a.start,
    "SIMULTANEOUS": lambda a, b: a == b,
    "IDENTITY": lambda a, b: a == b,
    "OVERLAPS": lambda a, b: a.start < b.start < a.end < b.end,
    "AFTER": lambda a, b: MEANINGS["BEFORE"](b, a),
    "IAFTER": lambda a, b: MEANINGS["IBEFORE"](b, a),
    "INCLUDES": lambda a, b: MEANINGS["IS_INCLUDED"](b, a),
    "DURING_INV": lambda a, b: MEANINGS["DURING"](b, a),
    "BEGUN_BY": lambda a, b: MEANINGS["BEGINS"](b, a),
    "ENDED_BY": lambda a, b: MEANINGS["ENDS"](b, a),
    "OVERLAPPED_BY": lambda a, b: MEANINGS["OVERLAPS"](b, a),
}
"""Where a relation holds of two intervals of a timeline."""

EQUAL = "a.start <= b.start, b.start <= a.start, a.end <= b.end, b.end <= a.end"
ORDERS = {
    "BEFORE": "a.end < b.start",
    "AFTER": "b.end < a.start",
    "INCLUDES": "a.start < b.start, b.end < a.end",
    "IS_INCLUDED": "b.start < a.start, a.end < b.end",
    "DURING": "b.start <= a.start, a.end <= b.end",
    "DURING_INV": "a.start <= b.start, b.end <= a.end",
    "SIMULTANEOUS": EQUAL,
    "IDENTITY": EQUAL,
    "IBEFORE": "a.end <= b.start, b.start <= a.end",
    "IAFTER": "b.end <= a.start, a.start <= b.end",
    "BEGINS": "a.start <= b.start, b.start <= a.start, a.end < b.end",
    "BEGUN_BY": "a.start <= b.start, b.start <= a.start, b.end < a.end",
    "ENDS": "a.end <= b.end, b.end <= a.end, b.start < a.start",
    "ENDED_BY": "a.end <= b.end, b.end <= a.end, a.start < b.start",
    "OVERLAPS": "a.start < b.start, b.start < a.end, a.end < b.end",
    "OVERLAPPED_BY": "b.start < a.start, a.start < b.end, b.end < a.end",
}
"""The orders of points that a relation is, as steps of walks count them."""


Link = tuple[int, str, int]
"""An interval, a relation and another interval."""

Ends = tuple[Ranks, ...]
"""A timeline: the ranks of the ends of each interval."""


class Order(NamedTuple):
    """That one point is before another, or not after it. Point 2 I is the start of interval I, and point 2 I + 1 its end."""

    left: int
    right: int
    is_strict: bool

    def is_true(self, timeline: Ends) -> bool:
        """Whether the points of a timeline are in this order."""
        points = [*chain(*timeline)]
        left, right = points[self.left], points[self.right]
        return left < right or (left == right and not self.is_strict)


def orders_of(first: int, relation: str, second: int) -> list[Order]:
    """The orders that a relation between two intervals is, by the numbers of the intervals."""
    points = {"a.start": 2 * first, "a.end": 2 * first + 1, "b.start": 2 * second, "b.end": 2 * second + 1}
    orders = (order.split() for order in ORDERS[relation].split(", "))
    return [Order(points[left], points[right], sign == "<") for left, sign, right in orders]


class Date(NamedTuple):
    """The attributes of a time, and the moments at which it starts and ends, or between which it lies; they are compared as texts."""

    attributes: str
    begin: str
    past: str
    is_exact: bool = True


DECEMBER = Date("type='DATE' value='1969-12'", "1969-12-01", "1970-01-01")
JANUARY = Date("type='DATE' value='1970-01'", "1970-01-01", "1970-02-01")
FEBRUARY = Date("type='DATE' value='1970-02'", "1970-02-01", "1970-03-01")
MARCH = Date("type='DATE' value='1970-03'", "1970-03-01", "1970-04-01")
QUARTER = Date("type='DATE' value='1970-Q1'", "1970-01-01", "1970-04-01")
NEW_YEAR = Date("type='DATE' value='1970-01-01'", "1970-01-01", "1970-01-02")
IN_DECEMBER = Date("type='DATE' value='1969-12-XX'", "1969-12-01", "1970-01-01", False)
IN_JANUARY = Date("type='DATE' value='1970-01' mod='MID'", "1970-01-01", "1970-02-01", False)
IN_FEBRUARY = Date("type='DATE' value='1970-02' mod='START'", "1970-02-01", "1970-03-01", False)
IN_MARCH = Date("type='DATE' value='1970-03' mod='END'", "1970-03-01", "1970-04-01", False)
IN_QUARTER = Date("type='DATE' value='1970-Q1' mod='MID'", "1970-01-01", "1970-04-01", False)
ON_NEW_YEAR = Date("type='DATE' value='1970-01-01' mod='START'", "1970-01-01", "1970-01-02", False)
LATE_IN_JANUARY = Date("type='TIME' value='1970-01-31T23:XX'", "1970-01-31T23", "1970-02-01", False)
LATE_IN_MARCH = Date("type='DATE' value='1970-03-31' mod='END'", "1970-03-31", "1970-04-01", False)
INSTANCE = None

SORTS = (INSTANCE, JANUARY, FEBRUARY, IN_JANUARY, LATE_IN_JANUARY)
"""Intervals of which two can be at one place, touch, follow one another, or lie in one another."""

UNLINKED = (
    (INSTANCE, INSTANCE, INSTANCE),
    (JANUARY, INSTANCE, FEBRUARY),
    (JANUARY, JANUARY, FEBRUARY),
    (FEBRUARY, FEBRUARY, FEBRUARY),
    (JANUARY, FEBRUARY, MARCH),
    (FEBRUARY, MARCH, JANUARY),
    (QUARTER, JANUARY, MARCH),
    (QUARTER, NEW_YEAR, FEBRUARY),
    (QUARTER, FEBRUARY, IN_QUARTER),
    (IN_JANUARY, FEBRUARY, IN_MARCH),
    (ON_NEW_YEAR, FEBRUARY, LATE_IN_MARCH),
    (IN_JANUARY, IN_FEBRUARY, FEBRUARY),
    (IN_JANUARY, IN_FEBRUARY, IN_MARCH),
    (IN_JANUARY, IN_JANUARY, JANUARY),
    (IN_QUARTER, MARCH, FEBRUARY),
    (JANUARY, IN_DECEMBER, DECEMBER),
)
"""Three intervals each: instances, and dates that are the same, touch, follow, overlap, lie in one another, or on either side of 1970."""


class Net(NamedTuple):
    """Intervals, each an instance or a date, and links between them by their numbers."""

    intervals: tuple[Date | None, ...]
    links: tuple[Link, ...]

    @property
    def names(self) -> list[str]:
        """The names of the intervals."""
        return [f"{'i' if date is INSTANCE else 't'}{number}" for number, date in enumerate(self.intervals)]

    def document(self) -> bytes:
        """A document of this net."""
        tags = ["<EVENT eid='e' class='STATE'/>"]
        for name, date in zip(self.names, self.intervals, strict=True):
            tags.append(f"<MAKEINSTANCE eiid='{name}' eventID='e'/>" if date is INSTANCE else f"<TIMEX3 tid='{name}' {date.attributes}/>")
        tags += [self.tag(*link) for link in self.links]
        return f"<TimeML>{''.join(tags)}</TimeML>".encode()

    def tag(self, first: int, relation: str, second: int) -> str:
        """The tag of a link."""
        one = "eventInstanceID" if self.intervals[first] is INSTANCE else "timeID"
        other = "relatedToEventInstance" if self.intervals[second] is INSTANCE else "relatedToTime"
        return f"<TLINK {one}='{self.names[first]}' {other}='{self.names[second]}' relType='{relation}'/>"

    def timelines(self, kept: Sequence[int] | None = None) -> frozenset[Ends]:
        """All timelines that fit with some of the links, by their numbers, or with all of them."""
        links = self.links if kept is None else [self.links[number] for number in kept]
        return reduce(frozenset.__and__, [having(len(self.intervals), *link) for link in links], in_calendar(self.intervals))

    def order_of(self, step: Step) -> Order:
        """The order that a step of a walk goes by."""
        if step.kind == "via":
            return orders_of(*self.links[step.first])[step.second]
        if step.kind == "span":
            return Order(2 * step.first, 2 * step.first + 1, True)
        [order] = [order for order in calendar_orders(self.intervals) if order[:2] == (step.first, step.second)]
        return order

    def staying(self) -> list[int]:
        """The numbers of the links that do not follow from those before them that stay and those after them."""
        staying = [*range(len(self.links))]
        for number, link in enumerate(self.links):
            beside = [other for other in staying if other != number]
            if self.timelines(beside) <= having(len(self.intervals), *link):
                staying = beside
        return staying


@cache
def every(count: int) -> frozenset[Ends]:
    """All timelines of so many intervals, each of which starts before it ends: their points have every order with these ranks."""
    return frozenset(product([Ranks(*ends) for ends in combinations(range(2 * count), 2)], repeat=count))


@cache
def having(count: int, first: int, relation: str, second: int) -> frozenset[Ends]:
    """All timelines of so many intervals in which a relation holds between two of them."""
    return frozenset(timeline for timeline in every(count) if MEANINGS[relation](timeline[first], timeline[second]))


@cache
def in_calendar(intervals: tuple[Date | None, ...]) -> frozenset[Ends]:
    """All timelines in which the points are as their dates say."""
    orders = calendar_orders(intervals)
    return frozenset(timeline for timeline in every(len(intervals)) if all(order.is_true(timeline) for order in orders))


@cache
def calendar_orders(intervals: tuple[Date | None, ...]) -> list[Order]:
    """The orders of points by their dates: what is at an earlier moment at the latest is before what is at a later one at the earliest."""
    latest: dict[int, str] = {}
    earliest: dict[int, str] = {}
    for number, date in enumerate(intervals):
        if date is not INSTANCE:
            earliest[2 * number], latest[2 * number + 1] = date.begin, date.past
            if date.is_exact:
                latest[2 * number], earliest[2 * number + 1] = date.begin, date.past
    ordered = [(left, right) for left, right in product(latest, earliest) if latest[left] <= earliest[right]]
    return [Order(left, right, latest[left] < earliest[right]) for left, right in ordered]


def least(timelines: Collection[Ends]) -> Ends:
    """The least rank of each point in some timelines: of those that fit this is one too."""
    found = tuple(Ranks(min(ends.start for ends in places), min(ends.end for ends in places)) for places in zip(*timelines, strict=True))
    assert found in timelines
    return found


def links_between(count: int) -> list[Link]:
    """All links between one of so many intervals and one of them, itself too."""
    return [*product(range(count), RELATIONS, range(count))]


def drawn_net(draw: random.Random) -> Net:
    """A net of three intervals, with dates or without, and three or four links."""
    intervals = draw.choice([(INSTANCE,) * 3, tuple(draw.choices(SORTS, k=3))])
    links = [link for link in links_between(3) if link[0] != link[2]]
    return Net(intervals, tuple(draw.choices(links, k=draw.choice((3, 4)))))


class Once:
    """Asks the same question once: what `check` says of a document is asked for with each answer about it."""

    def __init__(self, asked: Answerer) -> None:
        self.known = lru_cache(8)(asked.answer)

    def answer(self, command: str, files: Sequence[bytes], arguments: Sequence[str] = ()) -> tuple[int, bytes]:
        """What is answered to a command; a question has tuples, since it is remembered."""
        return self.known(command, tuple(files), tuple(arguments))


class AllNetsByTheLibrary(unittest.TestCase):
    """The answers about nets of two and three intervals."""

    most: int | None = None
    """How many nets of a kind are tried, or all of them."""

    def setUp(self) -> None:
        if not os.path.exists(BUILT_LIBRARY):
            self.skipTest(f"no library {BUILT_LIBRARY}: not all small nets are tried")
        self.asked: Answerer = Once(Library(BUILT_LIBRARY))

    def try_all(self, nets: Sequence[Net]) -> None:
        """Asks about each of these nets, or about a sample of them."""
        draw = random.Random(0)
        for net in nets if self.most is None or len(nets) <= self.most else draw.sample(nets, self.most):
            with self.subTest(net.document().decode()):
                asked = [draw.choice(links_between(len(net.intervals))) for _ in range(4)]
                if net.timelines():
                    self.answers_are_those_of_all_timelines(net, asked)
                else:
                    self.each_answer_is_a_minimal_clash(net, asked[0])

    def answers_are_those_of_all_timelines(self, net: Net, asked: Iterable[Link]) -> None:
        """What each command answers of a net that has timelines is what an enumeration of them says."""
        document, fitting, names = net.document(), net.timelines(), net.names
        count = len(names)
        solved = of_type(Timeline, questions.solve(document, self.asked))
        self.assertEqual(tuple(solved.ranks.values()), least(fitting))
        following = [(a, r, b) for a, b in combinations(range(count), 2) for r in RELATIONS if fitting <= having(count, a, r, b)]
        self.assertEqual(questions.relations(document, self.asked), [Relation(names[a], r, names[b]) for a, r, b in following])
        matrix = of_type(Matrix, questions.matrix(document, self.asked))
        for a, b in product(range(count), repeat=2):
            found = {relation: fitting & having(count, a, relation, b) for relation in BASE_RELATIONS}
            timelines = {relation: least(having_it) for relation, having_it in found.items() if having_it}
            possible = of_type(Possible, questions.possible(document, names[a], names[b], self.asked)).timelines
            self.assertEqual([(relation, tuple(ranks.values())) for relation, ranks in possible.items()], [*timelines.items()])
            if a < b:
                self.assertEqual(matrix.between(a, b), tuple(timelines))
        reduced = of_type(Reduced, questions.reduce(document, self.asked))
        self.assertEqual(([link.number for link in reduced.links], reduced.total), (net.staying(), len(net.links)))
        for question in asked:
            self.question_is_decided(net, fitting, *question)

    def question_is_decided(self, net: Net, fitting: frozenset[Ends], first: int, relation: str, second: int) -> None:
        """What holds in all timelines is proved. For anything else there is the least one in which its first open order is false."""
        answer = questions.ask(net.document(), net.names[first], relation, net.names[second], self.asked)
        orders = orders_of(first, relation, second)
        if fitting <= having(len(net.intervals), first, relation, second):
            for order, walk in zip(orders, of_type(Proof, answer).walks, strict=True):
                self.walk_leads(net, walk, order)
            return
        ranks = tuple(of_type(Counterexample, answer).ranks.values())
        self.assertIn(ranks, fitting - having(len(net.intervals), first, relation, second))
        false = (frozenset(timeline for timeline in fitting if not order.is_true(timeline)) for order in orders)
        self.assertEqual(ranks, least(next(filter(None, false))))

    def walk_leads(self, net: Net, walk: Sequence[Step], order: Order) -> None:
        """The steps are joined from one point to another, one of them strictly where that is asked for."""
        orders = [net.order_of(step) for step in walk]
        self.assertEqual([order.left, *(step.right for step in orders)], [*(step.left for step in orders), order.right])
        self.assertTrue(any(step.is_strict for step in orders) or not order.is_strict)
        self.assertLessEqual(len(walk), 4 * len(net.intervals))

    def each_answer_is_a_minimal_clash(self, net: Net, question: Link) -> None:
        """What each command answers of a net that has no timeline is a minimal clash."""
        document, names = net.document(), net.names
        first, relation, second = question
        answers: tuple[object, ...] = (
            questions.solve(document, self.asked),
            questions.relations(document, self.asked),
            questions.matrix(document, self.asked),
            questions.reduce(document, self.asked),
            questions.possible(document, names[first], names[second], self.asked),
            questions.ask(document, names[first], relation, names[second], self.asked),
        )
        for clash in {answer.evidence: answer for answer in (of_type(Clash, one) for one in answers)}.values():
            self.clash_is_minimal(net, clash)

    def clash_is_minimal(self, net: Net, clash: Clash) -> None:
        """The cited links rise and clash, as a closed walk over exactly these shows, and the least timeline fits that does without each."""
        cited = [link.number for link in clash.links]
        self.assertEqual(cited, sorted(set(cited)))
        self.assertFalse(net.timelines(cited))
        point = net.order_of(clash.walk[0]).left
        self.walk_leads(net, clash.walk, Order(point, point, True))
        self.assertEqual({step.first for step in clash.walk if step.kind == "via"}, set(cited))
        for left_out, spare in zip(cited, clash.spares, strict=True):
            others = net.timelines([number for number in cited if number != left_out])
            self.assertEqual(tuple(spare.values()), least(others))

    def test_two_links_between_two_instances(self) -> None:
        self.try_all([Net((INSTANCE, INSTANCE), links) for links in product(links_between(2), repeat=2)])

    def test_two_links_between_a_date_and_an_instance(self) -> None:
        links = [(0, relation, 1) for relation in RELATIONS]
        self.try_all([Net((JANUARY, INSTANCE), two) for two in product(links, repeat=2)])

    def test_a_link_between_dates_that_overlap_touch_and_follow(self) -> None:
        self.try_all([Net(dates, (link,)) for dates in product(SORTS, repeat=2) for link in links_between(2)])

    def test_a_link_and_one_to_a_third_instance(self) -> None:
        self.try_all([Net((INSTANCE,) * 3, ((0, one, 1), (1, other, 2))) for one, other in product(RELATIONS, repeat=2)])

    def test_three_intervals_without_links(self) -> None:
        self.try_all([Net(intervals, ()) for intervals in UNLINKED])

    def test_a_drawn_sample_of_three_or_four_links_over_three_intervals(self) -> None:
        draw = random.Random(1)
        nets = [drawn_net(draw) for _ in range(2000)]
        self.assertGreater(sum(not net.timelines() for net in nets), 1000)
        self.try_all(nets)


class ASampleOfNetsByTheProgram(AllNetsByTheLibrary):
    """The answers of the program, which is a process for each question, about some of these nets."""

    most = 12

    def setUp(self) -> None:
        if not os.access(TML, os.X_OK):
            self.skipTest(f"no program {TML}")
        self.asked = Once(Process(TML))


if __name__ == "__main__":
    unittest.main()
