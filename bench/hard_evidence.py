"""Hard evidence for `verify`, `renew`, `join` and `confirm`: many tiny claims, and few huge ones."""

from __future__ import annotations

import random
from collections.abc import Callable

from bundles import TEXTS as BUNDLES
from bundles import repeated, text, timeline
from hard_dates import exact_days, mixed
from hard_nets import ring
from hard_shapes import EVIDENCE, Case, Shape, net

COMMANDS = ("verify", "renew", "join")


def bundle(document: bytes, make: Callable[[int], bytes]) -> Callable[[int], Case]:
    """Evidence of a document; `join` reads it twice at half its size."""
    return lambda size: Case(document, other=make(size), second=make(size // 2))


def days_apart(size: int) -> Case:
    """Timelines of 1,024 days."""
    document = net([], 0, exact_days(1024)).document
    body = timeline([(one, one + 1) for one in range(1024)])
    return Case(document, other=repeated(body, size))


def overlapping_dates(size: int) -> Case:
    """Timelines of 1,024 times that lie within years, months, days and hours."""
    document = net([], 0, mixed(1024)).document
    body = timeline([(2 * one, 2 * one + 1) for one in range(1024)])
    return Case(document, other=repeated(body, size))


def entailments(size: int) -> Case:
    """Proofs, by one step of the calendar each, that a day is before another."""
    document = net([], 0, exact_days(1024)).document
    return Case(document, other=repeated(b"entails 0 BEFORE 2\nwalk 1\ncalendar 1 4\n", size))


def long_names(size: int) -> Case:
    """Proofs without a step, each with two names of 64 bytes."""
    return Case(net([], 1, length=64).document, other=repeated(b"entails 0 DURING 0\nwalk 0\nwalk 0\n", size))


def long_walks(size: int) -> Case:
    """Proofs over a chain of intervals, each by a walk through all of them."""
    count = 1024
    document = net([(one, "BEFORE", one + 1) for one in range(count - 1)], count).document
    steps = b"".join(b"via %d 0\n" % one if part == 0 else b"span %d\n" % (one + 1) for one in range(count - 1) for part in (0, 1))
    body = b"entails 0 BEFORE 1023\nwalk %d\n" % (2 * count - 3) + steps.removesuffix(b"span 1023\n")
    return Case(document, other=repeated(body, size))


def clashes_of_a_ring(size: int) -> Case:
    """Clashes of a ring of 32 links, each with a timeline for each of its links."""
    count = 32
    document = ring("BEFORE")(count).document
    cites = b"".join(b"cite %d\n" % one for one in range(count))
    steps = b"".join(b"span %d\nvia %d 0\n" % (one, one) for one in range(count))
    spares = [timeline([(2 * ((k - 1 - own) % count), 2 * ((k - 1 - own) % count) + 1) for k in range(count)]) for own in range(count)]
    return Case(document, other=repeated(b"clash %d\n" % count + cites + b"walk %d\n" % (2 * count) + steps + b"".join(spares), size))


def bad_last_line(size: int) -> Case:
    """Claims of one interval. The last one is cut off."""
    document = net([], 1).document
    return Case(document, other=repeated(b"timeline 1\nat 0 1\n", size).removesuffix(b"end\n"))


def refused_first(size: int) -> Case:
    """Claims. The checker refuses the first one."""
    return Case(net([], 2).document, other=repeated(b"timeline 1\nat 0 1\n", size))


def refused_last(size: int) -> Case:
    """Claims. The checker refuses the last one, since it breaks the calendar of 1,024 times."""
    case = days_apart(size)
    right = timeline([(one, one + 1) for one in range(1024)])
    wrong = timeline([(one, one + 1) for one in range(1023)] + [(1022, 1024)])
    assert case.other is not None
    return Case(case.document, other=wrong.join(case.other.rsplit(right, 1)))


def seconds(body: bytes) -> bytes:
    """The text of a placing or a cycle."""
    return b"tml-seconds 1\n" + body + b"end\n"


def cycle(size: int) -> Case:
    """A cycle that goes round one duration, which says that it is negative, again and again."""
    document = net([(0, "BEFORE", 0)], 0, ['type="DURATION" value="P1D"']).document
    count = (size - 60) // 16
    return Case(document, other=seconds(b"cycle %d\n" % (2 * count) + b"span 0\nvia 0 0\n" * count))


def loose_lines(size: int) -> Case:
    """Lines that do not join."""
    document = net([], 0, ['type="DURATION" value="P1D"']).document
    count = (size - 60) // 8
    return Case(document, other=seconds(b"cycle %d\n" % count + b"least 0\n" * count))


def placing(line: bytes) -> Callable[[int], Case]:
    """A placing of far too many intervals."""

    def make(size: int) -> Case:
        count = (size - 60) // len(line)
        return Case(net([], 2).document, other=seconds(b"placing %d\n" % count + line * count))

    return make


def drawn_numbers(size: int) -> Case:
    """A placing of numbers of all lengths."""
    draw, lines, left = random.Random(91), [], size - 60
    while left > 48:
        lines.append(b"at %d %d\n" % (-draw.randrange(10 ** draw.randrange(1, 19)), draw.randrange(10 ** draw.randrange(1, 19))))
        left -= len(lines[-1])
    return Case(net([], 2).document, other=seconds(b"placing %d\n" % len(lines) + b"".join(lines)))


def empty_text(size: int) -> Case:
    """Claims of no interval, in a text of one claim fewer than it says."""
    return Case(b"<TimeML/>", other=text([b"timeline 0\n"] * (size // 11 - 5)).replace(b"claims ", b"claims 1", 1))


SHAPES = [Shape(f"evidence: {name}", bundle(document, make), COMMANDS, EVIDENCE) for name, document, make in BUNDLES]
SHAPES += [
    Shape("evidence: timelines of 1,024 days", days_apart, ("verify",), EVIDENCE),
    Shape("evidence: timelines of mixed XX", overlapping_dates, ("verify",), EVIDENCE),
    Shape("evidence: walks of one step", entailments, ("verify", "renew"), EVIDENCE),
    Shape("evidence: empty walks, names of 64 bytes", long_names, ("verify",), EVIDENCE),
    Shape("evidence: walks of 2,045 steps", long_walks, ("verify", "renew"), EVIDENCE),
    Shape("evidence: clashes of a ring of 32", clashes_of_a_ring, ("verify", "renew"), EVIDENCE),
    Shape("evidence: cut off at the end", bad_last_line, ("verify", "renew"), EVIDENCE),
    Shape("evidence: refused at the first claim", refused_first, ("verify",), EVIDENCE),
    Shape("evidence: refused at the last claim", refused_last, ("verify",), EVIDENCE),
    Shape("evidence: too few claims", empty_text, ("verify", "renew"), EVIDENCE),
    Shape("seconds: a cycle of a pair of lines", cycle, ("confirm",), EVIDENCE),
    Shape("seconds: lines that do not join", loose_lines, ("confirm",), EVIDENCE),
    Shape("seconds: a placing, shortest lines", placing(b"at 0 1\n"), ("confirm",), EVIDENCE),
    Shape("seconds: a placing, longest lines", placing(b"at -9223372036854775808 9223372036854775807\n"), ("confirm",), EVIDENCE),
    Shape("seconds: a placing, drawn numbers", drawn_numbers, ("confirm",), EVIDENCE),
]
