"""The reference for `reduce` and `score`: against tables of points that are made here, against itself, and against worked examples."""

import itertools
import random
import unittest
from collections import Counter
from collections.abc import Iterable, Iterator

from corpus import EVENT, TOO_LONG, document
from reference import Outcome, expected
from reference.dates import Bounds
from reference.nets import Link, Net
from reference.reduced import holding_in, reduced, reduced_by_walks, reduced_tried
from reference.relations import RELATIONS, Order, holds, orders_of
from test_reference import outcome


class Points:
    """What always holds of two points, by a table of all of them that is made anew for some links.

    It asks the reference for the orders of links and of the calendar, and for nothing else.
    """

    def __init__(self, net: Net, links: Iterable[int]) -> None:
        spans = [Order(2 * one, 2 * one + 1, True) for one in range(net.intervals())]
        orders = [*spans, *net.calendar_orders(), *(order for link in links for order in net.link_orders(link))]
        self.known = {(point, point): False for point in range(net.points())}
        for order in orders:
            self.learn((order.first, order.second), order.strict)
        for middle, first, second in itertools.product(range(net.points()), repeat=3):
            if (first, middle) in self.known and (middle, second) in self.known:
                self.learn((first, second), self.known[first, middle] or self.known[middle, second])

    def learn(self, pair: tuple[int, int], strict: bool) -> None:
        """Takes that the first of two points is never after the second, or that it is before it."""
        self.known[pair] = strict or self.known.get(pair, False)

    def follows(self, left: int, relation: bytes, right: int) -> bool:
        """Whether a relation always holds between two intervals."""
        return all(self.says(order) for order in orders_of(left, relation, right))

    def says(self, order: Order) -> bool:
        """Whether an order always holds."""
        pair = (order.first, order.second)
        return pair in self.known and (self.known[pair] or not order.strict)


class ReducedLinks(unittest.TestCase):
    """Links without those that follow from the others, and scores."""

    def reduced_by_tables(self, net: Net) -> list[int]:
        """The same by a table of all points for each link."""
        kept = list(range(len(net.links)))
        for number, link in enumerate(net.links):
            others = [other for other in kept if other != number]
            kept = others if Points(net, others).follows(link.left, link.relation, link.right) else kept
        return kept

    def nets(self, count: int, name: str) -> Iterator[Net]:
        """Nets of up to five intervals, with some dates and links, all of which hold in a timeline that is drawn first."""
        for number in range(count):
            draw = random.Random(f"{name} {number}")
            pairs = (draw.sample(range(7), 2) for _ in range(draw.randint(1, 5)))
            ranks = [(min(pair), max(pair)) for pair in pairs]
            bounds = tuple(draw.choice([None, None, Bounds(True, *ends), Bounds(False, ends[0] - 1, ends[1])]) for ends in ranks)
            links = []
            for left, right in (draw.choices(range(len(ranks)), k=2) for _ in range(draw.randrange(9))):
                links.append(Link(left, draw.choice([one for one in RELATIONS if holds(ranks[left], one, ranks[right])]), right))
            yield Net(bounds, tuple(links))

    def test_links_that_are_kept(self) -> None:
        nets, left_out = 0, 0
        for net in self.nets(250, "reduced"):
            kept = self.reduced_by_tables(net)
            self.assertEqual((reduced(net), reduced_by_walks(net)), (kept, kept), net)
            if net.intervals() <= 3:
                self.assertEqual(reduced_tried(net), kept, net)
            nets, left_out = nets + 1, left_out + len(net.links) - len(kept)
        self.assertGreater(left_out, nets)

    def test_what_is_kept_says_the_same_and_no_link_of_it_can_go(self) -> None:
        for net in self.nets(80, "law"):
            kept = reduced(net)
            whole, less = Points(net, range(len(net.links))), Points(net, kept)
            self.assertEqual(whole.known, less.known, net)
            for number in kept:
                link = net.links[number]
                self.assertFalse(Points(net, [other for other in kept if other != number]).follows(link.left, link.relation, link.right))

    def test_links_that_hold_in_another_net(self) -> None:
        holding: Counter[bool] = Counter()
        for net in self.nets(150, "score"):
            draw, ends = random.Random(len(net.links)), range(net.intervals())
            links = [Link(draw.choice(ends), draw.choice(RELATIONS), draw.choice(ends)) for _ in range(5)] + list(net.links)
            table = Points(net, range(len(net.links)))
            for some in (links[:5], links):
                wanted = sum(table.follows(one.left, one.relation, one.right) for one in some)
                self.assertEqual(holding_in(net, some), wanted, (net, some))
                holding[0 < wanted < len(some)] += 1
        self.assertGreater(holding[True], 50)

    HEAD = document(EVENT + "".join(f'<MAKEINSTANCE eiid="{name}" eventID="e1"/>' for name in "abc")).replace("</TimeML>", "%s</TimeML>")

    def with_links(self, *links: str) -> bytes:
        """A document with three instances and some links, each of which is three words."""
        tag = '<TLINK eventInstanceID="%s" relatedToEventInstance="%s" relType="%s"/>'
        return (self.HEAD % "".join(tag % (first, second, relation) for first, relation, second in map(str.split, links))).encode()

    def test_answers(self) -> None:
        chain = self.with_links("a BEFORE b", "b BEFORE c", "a BEFORE c")
        ring, key = self.with_links("a BEFORE b", "b BEFORE a"), self.with_links("a BEFORE c")
        other = key.replace(b'"c"', b'"d"')
        rows: list[tuple[str, dict[str, bytes], int, str]] = [
            ("reduce d", {"d": chain}, 0, "reduced 2 of 3\ntlink 0 a BEFORE b\ntlink 1 b BEFORE c\n"),
            ("reduce d", {"d": self.with_links("a BEFORE b", "a BEFORE b")}, 0, "reduced 1 of 2\ntlink 1 a BEFORE b\n"),
            ("reduce d", {"d": self.with_links("a DURING a")}, 0, "reduced 0 of 1\n"),
            ("reduce d", {"d": b"<TimeML/>"}, 0, "reduced 0 of 0\n"),
            ("reduce d", {"d": b"<TimeML>"}, 1, "fault 6 Unclosed 8\n"),
            ("reduce d", {}, 4, "read fault\n"),
            ("score d k", {"d": chain, "k": key}, 0, "precision 0 of 2\nrecall 1 of 1\n"),
            ("score d k", {"d": key, "k": chain}, 0, "precision 1 of 1\nrecall 0 of 2\n"),
            ("score d k", {"d": chain, "k": other}, 0, "precision 0 of 2\nrecall 0 of 1\n"),
            ("score d d", {"d": chain}, 0, "precision 2 of 2\nrecall 2 of 2\n"),
            ("score d k", {"d": chain, "k": self.with_links("c AFTER b", "b AFTER a")}, 0, "precision 2 of 2\nrecall 2 of 2\n"),
            ("score d k", {"d": chain, "k": b"<TimeML>"}, 1, "key fault 6 Unclosed 8\n"),
            ("score d k", {"d": b"<TimeML/>", "k": b"<TimeML/>"}, 0, "precision 0 of 0\nrecall 0 of 0\n"),
            ("score d k", {"d": chain, "k": ring}, 2, "key clash\n"),
            ("score d k", {"d": ring}, 4, "read fault\n"),
            ("score d k", {"d": b"<TimeML>"}, 1, "fault 6 Unclosed 8\n"),
            ("score d k", {"d": ring, "k": b"<TimeML>"}, 1, "key fault 6 Unclosed 8\n"),
            ("score d k", {"d": ring, "k": TOO_LONG}, 9, "too long KEY\n"),
            ("score d k", {"d": TOO_LONG}, 9, "too long DOC\n"),
            ("score - -", {"-": chain}, 1, "key fault 6 Unclosed 0\n"),
        ]
        for line, files, status, printed in rows:
            words = [word.encode() for word in line.split()]
            found = expected(words, {name.encode(): content for name, content in files.items()})
            self.assertEqual(found, Outcome(status, printed.encode()), line)
        for line in ("reduce d", "score d d"):
            self.assertEqual(expected([word.encode() for word in line.split()], {b"d": ring}).status, 2)

    def test_names_are_compared_whatever_has_them(self) -> None:
        times = "".join(f'<TIMEX3 tid="{name}" type="SET"/>' for name in "ab")
        link = '<TLINK timeID="a" relatedToTime="b" relType="BEFORE"/>'
        files = {b"d": document(times + link).encode(), b"k": self.with_links("a BEFORE b")}
        self.assertEqual(expected([b"score", b"d", b"k"], files), Outcome(0, b"precision 1 of 1\nrecall 1 of 1\n"))

    def test_words(self) -> None:
        for line in ("reduce", "reduce d d", "Reduce d", "score", "score d", "score d d d", "scores d d"):
            found = outcome(line, d=b"<TimeML/>")
            self.assertEqual(found.status, 3, line)
            self.assertLessEqual({b"tml reduce DOC", b"tml score DOC KEY"}, set(found.text.splitlines()), line)


if __name__ == "__main__":
    unittest.main()
