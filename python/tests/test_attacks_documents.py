"""Documents made to cost much: 26 of them."""

import unittest
from collections.abc import Callable

from attacks import AttackTest, Ended
from tml.statuses import DOCUMENT_LIMIT, INTERVAL_LIMIT, LINK_LIMIT

LINK = b'<TLINK eventInstanceID="i%d" relatedToEventInstance="i%d" relType="%s"/>'
TOUCHING = (
    b'<TimeML><TIMEX3 tid="a" type="DATE" value="1998"/><TIMEX3 tid="b" type="DATE" value="1999"/><TLINK timeID="a" relatedToTime="b" '
    b'relType="BEFORE"/>'
)
FREE_DATES = b"".join(b'<TIMEX3 tid="t%d" type="DATE" value="XXXX-12-25"/>' % number for number in range(INTERVAL_LIMIT))
NESTED = b"".join(b'<EVENT eid="e%d" class="STATE">' % number for number in range(30))


def filled(size: int, before: bytes, part: bytes, after: bytes) -> bytes:
    """As much of a part as so many bytes have room for between what stands before and after it."""
    return before + part * ((size - len(before) - len(after)) // len(part)) + after


def intervals(size: int) -> int:
    """How many intervals a document of so many bytes gets: a whole one as many as there may be."""
    return INTERVAL_LIMIT * size // DOCUMENT_LIMIT


def instances(size: int, events: int) -> bytes:
    """Instances of so many events in turn."""
    return b"".join(b'<MAKEINSTANCE eiid="i%d" eventID="e%d"/>' % (number, number % events) for number in range(intervals(size)))


def same(size: int) -> bytes:
    """Links by which many instances are the same: in a whole document as many as there may be."""
    count = intervals(size)
    return b"".join(LINK % (number % count, number * 7 % count, b"SIMULTANEOUS") for number in range(LINK_LIMIT // INTERVAL_LIMIT * count))


def circle(size: int, relation: bytes) -> bytes:
    """Links from each instance to the next one, and from the last one to the first."""
    count = intervals(size)
    return b"".join(LINK % (number, (number + 1) % count, relation) for number in range(count))


def one_event(size: int, links: bytes) -> bytes:
    """One event with many instances and a text that is as long as there is room for."""
    return filled(size, b'<TimeML><EVENT eid="e0" class="STATE">', b"word ", b"</EVENT>" + instances(size, 1) + links + b"</TimeML>\n")


def nested(size: int, part: bytes) -> bytes:
    """Thirty events in each other, with instances, and something very often within."""
    after = b"</EVENT>" * 30 + instances(size, 30) + circle(size, b"IDENTITY") + b"</TimeML>\n"
    return filled(size, b"<TimeML>" + NESTED, part, after)


def numbered(size: int, before: bytes, part: bytes, after: bytes) -> bytes:
    """The same where each part has its number."""
    parts: list[bytes] = []
    room = size - len(before) - len(after)
    while room >= len(part) + 8:
        parts.append(part % len(parts))
        room -= len(parts[-1])
    return before + b"".join(parts) + after


CHECK, LINT, FIX = "tml-corpus check --tml TML d.xml", "tml-corpus check --lint --clashes --tml TML d.xml", "tml-corpus fix --tml TML d.xml"
TIMELINE, TAGS = "tml-corpus timeline --tml TML d.xml -o d.svg", "tml-corpus tags --tml TML d.xml"
REPORT = "tml-corpus report --tml TML d.xml -o pages"
DOCUMENTS: dict[str, tuple[str, int, Callable[[int], bytes]]] = {
    "one long text of many instances": (TIMELINE, 0, lambda size: one_event(size, same(size))),
    "one long text in a clash": ("tml-corpus clashes --tml TML d.xml", 1, lambda size: one_event(size, circle(size, b"BEFORE"))),
    "nested events with tags": (TIMELINE, 0, lambda size: nested(size, b"<P/>")),
    "nested events with spaces": (TIMELINE, 0, lambda size: nested(size, b"&#32;<P/>")),
    "very many units": (TAGS, 0, lambda size: filled(size, b"<TimeML>", b"<p/>x", b"</TimeML>\n")),
    "very many marks in a report": (REPORT, 0, lambda size: numbered(size, b"<TimeML>", b'<SIGNAL sid="s%d"/>', b"</TimeML>\n")),
    "very many units in a report": (REPORT, 0, lambda size: filled(size, b"<TimeML>", b"<p/>x", b"</TimeML>\n")),
    "one long text of many instances in a report": (REPORT, 0, lambda size: one_event(size, same(size))),
    "nested events in a report": (REPORT, 0, lambda size: nested(size, b"&#32;<P/>")),
    "very many lines in a report": (REPORT, 0, lambda size: filled(size, b"<TimeML>\n", b" \n", b"</TimeML>\n")),
    "very many attributes": (TAGS, 0, lambda size: filled(size, b"<TimeML><P", b' a=""', b"/></TimeML>\n")),
    "very many bad tags": (TAGS, 0, lambda size: filled(size, b"<TimeML>", b"x", b"< " * 300 + b"</TimeML>\n")),
    "very many tags to take out": (
        "tml-edit --tml TML --unwrap p d.xml",
        0,
        lambda size: filled(size, b"<TimeML>", b"<p/>", b"</TimeML>\n"),
    ),
    "very many links to drop": (
        "tml-edit --tml TML --drop-links VAGUE d.xml",
        0,
        lambda size: filled(size, b"<TimeML>", b'<TLINK relType="VAGUE"></TLINK>', b"</TimeML>\n"),
    ),
    "one long line with a fault": (
        "tml-corpus check --format json --tml TML d.xml",
        1,
        lambda size: filled(size, b"<TimeML>", "é".encode(), b"<EVENT/></TimeML>\n"),
    ),
    "very many suspect events": (LINT, 0, lambda size: numbered(size, b"<TimeML>", b'<EVENT eid="e%d" class="STATE"/>', b"</TimeML>\n")),
    "very many attributes of a tag that lacks one": (
        CHECK,
        1,
        lambda size: numbered(size, b'<TimeML><EVENT eid="e"', b' a%d=""', b">x</EVENT></TimeML>\n"),
    ),
    "a tag with a very long name": (CHECK, 1, lambda size: filled(size, b"<TimeML><", b"a", b"/></TimeML>\n")),
    "very many names in other letters": (FIX, 1, lambda size: filled(size, b"<TimeML>", b"<Event/>", b"</TimeML>\n")),
    "very many attributes of one name": (
        "tml-corpus check --more 100 --tml TML d.xml",
        1,
        lambda size: filled(size, b"<TimeML><EVENT", b' a=""', b"/></TimeML>\n"),
    ),
    "very many unknown attributes": (
        "tml-corpus check --lint --warn unknown-attribute --tml TML d.xml",
        0,
        lambda size: numbered(size, b"<TimeML", b" a%d=''", b"></TimeML>\n"),
    ),
    "dates that touch among very many units": (
        "tml-edit --touching-dates --tml TML d.xml",
        0,
        lambda size: filled(size, TOUCHING, b"<p/>\n", b"</TimeML> \n"),
    ),
    "a tag with a very long name that is counted": (TAGS, 1, lambda size: filled(size, b"<TimeML><", b"a", b"/></TimeML>\n")),
    "very many tags with another name": (
        "tml-edit --tml TML --rename p=s d.xml",
        0,
        lambda size: filled(size, b"<TimeML>", b"<p/>\n", b"</TimeML>\n"),
    ),
    "very many lines": ("tml-corpus check --tml TML d.xml", 1, lambda size: filled(size, b"<TimeML>", b"\n", b"<EVENT/></TimeML>\n")),
}
"""Documents made to cost much: a command, its status, and the document with so many bytes. Of each command the first one is tried whole."""

PARTS = (8, 4)
"""How many times as many bytes as two smaller documents the whole one has; the second has twice as many as the first."""
SECONDS, MEBIBYTES = 75, 400
"""What a command may take. The aim is 5 seconds of processor time. A busy machine, whose processors share their units, takes up to three
times as long, and this leaves five times as much as that."""


def is_shown_by(less: Ended, more: Ended) -> bool:
    """Whether runs over the two smaller documents show that one over the whole takes no more than it may.

    With twice the bytes the time has grown by a factor, and to the whole they are doubled twice more. Where time goes in part with the
    bytes and in part with their square, it comes to up to half as much again. Memory goes with the bytes.
    """
    growth = max(2.0, more.seconds / less.seconds)
    return more.seconds * growth**2 < SECONDS * 2 / 3 and more.mebibytes < MEBIBYTES / PARTS[1]


class Documents(AttackTest):
    def test_work_and_memory_are_in_proportion(self) -> None:
        tried: set[str] = set()
        for name, (command, status, make) in DOCUMENTS.items():
            with self.subTest(name):
                asked, _, _ = command.partition(" --")
                if asked in tried and is_shown_by(*(self.judged(command, status, make(DOCUMENT_LIMIT // part)) for part in PARTS)):
                    continue
                tried.add(asked)
                self.within(self.judged(command, status, make(DOCUMENT_LIMIT)))

    def test_as_many_free_dates_as_there_may_be(self) -> None:
        content = b"<TimeML>" + FREE_DATES + b"</TimeML>\n"
        self.within(self.judged("tml-corpus open --limit 1 --jobs 1 --tml TML d.xml", 0, content))

    def judged(self, command: str, status: int, content: bytes) -> Ended:
        """A run over a document, which has to end with a status and print no long line."""
        self.write("d.xml", content)
        ended = self.ended(command)
        self.assertEqual(ended.status, status, ended.out[:200] + ended.error)
        self.assertLess(max(map(len, ended.out.splitlines())), 2000)
        return ended

    def within(self, ended: Ended) -> None:
        """A run has to take no more than it may."""
        self.assertLess(ended.seconds, SECONDS)
        self.assertLess(ended.mebibytes, MEBIBYTES)


if __name__ == "__main__":
    unittest.main()
