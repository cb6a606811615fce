"""How long replies of `tml` may be: the bounds by which its process is read, against the largest answers.

For small limits the program is asked for them; for those of the product their size is computed from the forms of the lines, since to make
them all would take minutes. Only the longest one is made.
"""

import os
import unittest
from collections.abc import Sequence
from itertools import combinations

from corpus import TML, CorpusTest
from reference import answers, evidence
from reference.relations import ORDERS
from tml.longest import LONGEST, Limits, longest
from tml.process import Process
from tml.statuses import BASE_RELATIONS, DOCUMENT_LIMIT, EVIDENCE_LIMIT, INTERVAL_LIMIT, LINK_LIMIT, RELATIONS

HEAD = '<TimeML><EVENT eid="e" class="STATE"/>'
POINTS = 2 * INTERVAL_LIMIT
NAMES = ("a", "b", "c", "d")


def named(letter: str, size: int) -> str:
    """A name of so many letters."""
    return letter * size


def document(names: Sequence[str], *tags: str) -> bytes:
    """A document of these instances, and of some tags."""
    return (HEAD + "".join(f'<MAKEINSTANCE eiid="{name}" eventID="e"/>' for name in names) + "".join(tags) + "</TimeML>").encode()


def link(left: str, relation: str, right: str) -> str:
    """A link between two instances."""
    return f'<TLINK eventInstanceID="{left}" relatedToEventInstance="{right}" relType="{relation}"/>'


def filled(before: bytes, part: bytes, after: bytes, size: int) -> bytes:
    """As much of a part as so many bytes have room for between what stands before and after it."""
    return before + part * ((size - len(before) - len(after)) // len(part)) + after


def same(names: Sequence[str]) -> bytes:
    """Instances that are all the same, of which most relations follow."""
    return document(names, *(link(names[0], "SIMULTANEOUS", name) for name in names[1:]))


def circle(names: Sequence[str]) -> bytes:
    """Instances each of which is before the next one, in a circle: each link has a timeline without it."""
    return document(names, *(link(name, "BEFORE", other) for name, other in zip(names, [*names[1:], names[0]], strict=True)))


def chain(names: Sequence[str]) -> bytes:
    """Instances each of which is before the next one: no link follows from others."""
    return document(names, *(link(*pair) for pair in ((name, "BEFORE", other) for name, other in zip(names, names[1:], strict=False))))


def times(size: int, value: str) -> bytes:
    """Times of one value, with names of so many letters."""
    return (
        "<TimeML>" + "".join(f'<TIMEX3 tid="{named(letter, size)}" type="DATE" value="{value}"/>' for letter in NAMES) + "</TimeML>"
    ).encode()


@unittest.skipUnless(os.access(TML, os.X_OK), f"no program {TML}")
class Asked(CorpusTest):
    """The largest answers of small documents. Of all that may be as long as the bound there is one that is about as long."""

    def ask(self, command: str, *files: bytes, words: Sequence[str] = ()) -> int:
        """How long the answer to a command is."""
        return len(Process(TML).answer(command, files, words)[1])

    def near(self, command: str, limits: Limits, size: int, least: float) -> None:
        """An answer is within the bound, and the bound is not much greater."""
        self.assertLessEqual(size, longest(command, limits))
        self.assertGreaterEqual(size / LONGEST[command](limits), least, (command, size, LONGEST[command](limits)))

    def test_of_documents(self) -> None:
        for size in (1, 64):
            names = [named(letter, size) for letter in NAMES]
            rows = (
                ("relations", same(names), 0, 0.98),
                ("matrix", document(names), 0, 1.0),
                ("check", circle(names), 4, 0.7),
                ("solve", circle(names), 4, 0.5),
                ("reduce", circle(names), 4, 0.1),
                ("reduce", chain(names), 3, 0.1),
                ("dates", times(size, "9999-12-31"), 0, 0.4),
                ("seconds", times(size, "9999-12-31"), 0, 0.4),
            )
            for command, content, links, least in rows:
                with self.subTest(command=command, size=size):
                    self.near(command, Limits(len(content), 0, len(names), links, size), self.ask(command, content), least)

    def test_of_two_intervals(self) -> None:
        names = [named(letter, 64) for letter in NAMES]
        rows: tuple[tuple[str, bytes, tuple[str, ...], float], ...] = (
            ("possible", document(names), (names[0], names[3]), 0.5),
            ("ask", document(names), (names[0], "SIMULTANEOUS", names[3]), 0.1),
            ("ask", same(names), (names[0], "SIMULTANEOUS", names[3]), 0.1),
        )
        for command, content, words, least in rows:
            with self.subTest(command=command):
                self.near(command, Limits(len(content), 0, len(names), 3, 64), self.ask(command, content, words=words), least)

    def test_of_the_source(self) -> None:
        size = 4000
        for part in (b"<p>x", b"<p>", b"</p>x", b"<p/>x", b"<!---->", b"<!---->x", b"<?xml ?>x", b"<!DOCTYPE >x"):
            self.assertLessEqual(self.ask("spans", filled(b"", part, b"", size)), longest("spans", Limits(size)), part)
        attributes = filled(b"<p", b" a=''", b">", size)
        self.assertLessEqual(self.ask("spans", attributes), longest("spans", Limits(size)))
        self.near("spans", Limits(size), self.ask("spans", filled(b"", b"<p>x", b"", size)), 0.85)
        self.near("canon", Limits(size), self.ask("canon", filled(b"<TimeML><P a='", b'"', b"'/></TimeML>", size)), 0.98)

    def test_of_evidence(self) -> None:
        content = document([named("a", 64)])
        claims = filled(b"tml-evidence 2\nclaims 0000\n", b"entails 0 DURING 0\nwalk 0\nwalk 0\n", b"end\n", 40_000)
        claims = claims.replace(b"claims 0000", b"claims %d" % claims.count(b"entails"))
        self.near("verify", Limits(len(content), len(claims), 1, 0, 64), self.ask("verify", content, claims), 0.6)
        one = b"tml-evidence 1\ntimeline 1\nat 0 1\nend\n"
        self.near("renew", Limits(evidence=len(one)), self.ask("renew", one), 0.5)
        self.near("join", Limits(evidence=len(one)), self.ask("join", one, one), 0.5)
        self.near("join", Limits(evidence=len(claims)), self.ask("join", claims, claims), 0.9)


class Computed(unittest.TestCase):
    """The largest answers within the limits of the product, by the forms of the reference."""

    name = b"n" * 64

    def timeline(self) -> bytes:
        """The lines of a timeline of as many intervals as there may be, of great ranks."""
        return answers.lines(*evidence.timeline_lines((POINTS - 1,) * POINTS))

    def test_relations(self) -> None:
        """Between simultaneous intervals all these hold."""
        held = [relation for relation in ORDERS if set(ORDERS[relation]) <= set(ORDERS[b"SIMULTANEOUS"])]
        self.assertEqual(set(RELATIONS) - set(BASE_RELATIONS), {relation.decode() for relation in held} - {"SIMULTANEOUS"})
        line = sum(len(answers.lines(b"%s %s %s" % (self.name, relation, self.name))) for relation in held)
        self.assertEqual(line * len(list(combinations(range(INTERVAL_LIMIT), 2))), 293_314_560)
        self.within("relations", 293_314_560, 0.99)

    def within(self, command: str, size: int, least: float) -> None:
        """A size is within the bound, and the bound is not much greater."""
        self.assertTrue(least <= size / longest(command) <= 1, (command, size, longest(command)))

    def test_evidence(self) -> None:
        head = b"tml-evidence 2\nclaims 1\n"
        cites = (b"cite %d" % number for number in range(LINK_LIMIT))
        clash = answers.lines(b"clash %d" % LINK_LIMIT, *cites, b"walk %d" % LINK_LIMIT, *[b"via %d 0" % (LINK_LIMIT - 1)] * LINK_LIMIT)
        size = len(head) + len(clash) + LINK_LIMIT * len(self.timeline()) + len(b"end\n")
        self.assertLessEqual(longest("solve"), answers.LONGEST_PRINTED)
        for command in ("solve", "ask", "possible", "reduce", "score", "matrix", "relations"):
            self.assertGreaterEqual(longest(command), size)
        self.within("solve", size, 0.99)

    def test_lines(self) -> None:
        pairs = INTERVAL_LIMIT * (INTERVAL_LIMIT - 1) // 2
        relations = b" ".join(relation.encode() for relation in BASE_RELATIONS)
        self.within("matrix", pairs * len(answers.lines(b"%s %s %s" % (self.name, self.name, relations))), 1)
        links = [b"tlink %d %s OVERLAPPED_BY %s" % (number, self.name, self.name) for number in range(LINK_LIMIT)]
        intervals = [b"interval %d %s" % (number, self.name) for number in range(INTERVAL_LIMIT)]
        counts = (b"tlinks %d" % LINK_LIMIT, b"instances %d" % INTERVAL_LIMIT)
        self.within("check", len(answers.lines(b"accepted", *counts, *intervals, *links)), 0.99)
        self.within("canon", 6 * (DOCUMENT_LIMIT - 100), 0.99)
        self.within("verify", len(b"verified entails %s DURING %s\n" % (self.name, self.name)) * (EVIDENCE_LIMIT // 33 - 1), 0.6)

    @unittest.skipUnless(os.access(TML, os.X_OK), f"no program {TML}")
    def test_the_longest_answer_is_believed(self) -> None:
        names = [f"{'n' * 60}{number:04}" for number in range(INTERVAL_LIMIT)]
        self.assertEqual(len(Process(TML).answer("relations", [same(names)])[1]), 293_314_560)


if __name__ == "__main__":
    unittest.main()
