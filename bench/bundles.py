#!/usr/bin/env python3
"""Measures `tml renew`, `tml join` and `tml verify` over evidence of up to 64 MiB.

`renew` reads each text whole and prints it again, `join` does so with two texts of half the length, and `verify` judges
each over a document with which it is read to its end. A byte is to take at most 10 ns in all, `verify` at most a second,
and reading at most 3 bytes of memory a byte. Build the program first, as README.md says.

usage: bench/bundles.py [PROGRAM]       (PROGRAM is crates/tml/out/tml if left out)
"""

import os
import random
import sys
import tempfile

from measure import MIB, least, peak_memory

EVIDENCE = 64 * MIB
ONE_EVENT = b'<EVENT eid="e" class="STATE">x</EVENT><MAKEINSTANCE eiid="i" eventID="e"/>'
SELF = b'<TLINK eventInstanceID="i" relatedToEventInstance="i" relType="BEFORE"/>'
NONE, ONE, SELVES = b"<TimeML/>", b"<TimeML>" + ONE_EVENT + b"</TimeML>", b"<TimeML>" + ONE_EVENT + 4096 * SELF + b"</TimeML>"


def related(intervals, links):
    """A document of so many intervals with these links."""
    tags = ['<EVENT eid="e" class="STATE">x</EVENT>']
    tags += [f'<MAKEINSTANCE eiid="i{number}" eventID="e"/>' for number in range(intervals)]
    tags += [f'<TLINK eventInstanceID="i{a}" relatedToEventInstance="i{b}" relType="{rel}"/>' for a, rel, b in links]
    return f"<TimeML>{''.join(tags)}</TimeML>".encode()


def timeline(ranks):
    """The body of a timeline with these ranks."""
    return b"timeline %d\n" % len(ranks) + b"".join(b"at %d %d\n" % pair for pair in ranks)


# Documents of as many links as there can be, all of which hold in one timeline: four of each two of 32 intervals; three of
# each two of 52; one that is two orders of points of each two of 64; one that is three of each two of 91; such links from
# each of 64 intervals to each of 64 others; and such links between 101 intervals in five rows, from each of a lower row to
# each of a higher one.
WITHIN = ("SIMULTANEOUS", "IDENTITY", "DURING", "DURING_INV")
EQUAL = related(32, [(a, rel, b) for a in range(32) for b in range(32) for rel in WITHIN])
THREE = related(52, [(a, rel, b) for rel in WITHIN[2:] + WITHIN[:1] for a in range(52) for b in range(a)])
WITHINS = related(64, [(a, "DURING", b) for a in range(64) for b in range(64)])
CHAIN = related(91, [(a, "OVERLAPS", b) for b in range(91) for a in range(b)])
CROWD = related(128, [(a, "OVERLAPS", b) for a in range(64) for b in range(64, 128)])
ROWS = related(101, [(a, "OVERLAPS", b) for a in range(101) for b in range(101) if a % 5 < b % 5])


def text(bodies):
    """The text of version 2 of these bodies."""
    return b"tml-evidence 2\nclaims %d\n" % len(bodies) + b"".join(bodies) + b"end\n"


def repeated(body, size):
    """As many claims as fit, each with this body."""
    return text([body] * ((size - 40) // len(body)))


def one_timeline(size):
    return text([b"timeline %d\n" % ((size - 64) // 7) + b"at 0 1\n" * ((size - 64) // 7)])


def long_numbers(size):
    line = b"at 4294967294 4294967295\n"
    return text([b"timeline %d\n" % ((size - 64) // len(line)) + line * ((size - 64) // len(line))])


def one_walk(size):
    count = (size - 90) // 7
    return text([b"entails 0 BEFORE 0\nwalk %d\n" % count + b"span 0\n" * count])


def cites(size):
    draw, lines, spares, left, number = random.Random(3), [], 0, size - 64, 0
    while left > 40:
        number += draw.randrange(1, 90)
        line = b"cite %d\n" % number
        lines.append(line)
        left -= len(line) + 11
    return text([b"clash %d\n" % len(lines) + b"".join(lines) + b"walk 0\n" + b"timeline 0\n" * len(lines)])


def spares(intervals):
    """A clash of as many cites as fit, with spares of so many intervals."""

    def clash(size):
        spare, lines, left = timeline([(0, 1)] * intervals), [], size - 64
        while left > len(spare) + 20:
            lines.append(b"cite %d\n" % len(lines))
            left -= len(lines[-1]) + len(spare)
        return text([b"clash %d\n" % len(lines) + b"".join(lines) + b"walk 0\n" + spare * len(lines)])

    return clash


TEXTS = [
    ("one timeline, shortest lines", NONE, one_timeline),
    ("one timeline, longest lines", NONE, long_numbers),
    ("one walk", NONE, one_walk),
    ("a clash of cites", NONE, cites),
    ("a clash, spares of 1 interval", NONE, spares(1)),
    ("a clash, spares of 5", NONE, spares(5)),
    ("a clash, spares of 33", NONE, spares(33)),
    ("timelines of no interval", NONE, lambda size: repeated(b"timeline 0\n", size)),
    ("clashes of nothing", NONE, lambda size: repeated(b"clash 0\nwalk 0\n", size)),
    ("relations by empty walks", ONE, lambda size: repeated(b"entails 0 DURING 0\nwalk 0\nwalk 0\n", size)),
    ("timelines of one interval", ONE, lambda size: repeated(b"timeline 1\nat 0 1\n", size)),
    ("the same over 4,096 links", SELVES, lambda size: repeated(b"timeline 1\nat 0 1\n", size)),
    ("of 32 equal intervals", EQUAL, lambda size: repeated(timeline([(0, 1)] * 32), size)),
    ("of 52 equal intervals", THREE, lambda size: repeated(timeline([(0, 1)] * 52), size)),
    ("of 64 by DURING", WITHINS, lambda size: repeated(timeline([(0, 1)] * 64), size)),
    ("of 91 intervals that overlap", CHAIN, lambda size: repeated(timeline([(k, 91 + k) for k in range(91)]), size)),
    ("of 128 intervals that overlap", CROWD, lambda size: repeated(timeline([(0, 2)] * 64 + [(1, 3)] * 64), size)),
    ("of 101 intervals in five rows", ROWS, lambda size: repeated(timeline([(k % 5, 5 + k % 5) for k in range(101)]), size)),
    ("clashes of one link", SELVES, lambda size: repeated(b"clash 1\ncite 0\nwalk 2\nvia 0 0\nspan 0\ntimeline 1\nat 0 1\n", size)),
]


def main():
    here = os.path.dirname(os.path.abspath(__file__))
    program = sys.argv[1] if len(sys.argv) > 1 else os.path.join(here, "..", "crates", "tml", "out", "tml")
    columns = " ".join(f"{name + ' ms':>9} {'ns/byte':>7} {'B/byte':>6}" for name in ("renew", "join", "verify"))
    print(f"{'evidence of 64 MiB':30} {columns}")
    with tempfile.TemporaryDirectory() as folder:
        document, whole, half = (os.path.join(folder, name) for name in ("document", "whole", "half"))

        def write(path, content):
            with open(path, "wb") as file:
                file.write(content)

        for name, doc, make in TEXTS:
            write(document, doc)
            write(whole, make(EVIDENCE))
            write(half, make(EVIDENCE // 2))
            told = []
            for words in (["renew", whole], ["join", half, half], ["verify", document, whole]):
                taken, memory = least([program, *words]), peak_memory([program, *words])
                used = "" if memory is None else f"{memory * 1024 / EVIDENCE:6.2f}"
                told.append(f"{taken * 1e3:9.1f} {taken / EVIDENCE * 1e9:7.2f} {used:>6}")
            print(f"{name:30} {' '.join(told)}", flush=True)


if __name__ == "__main__":
    main()
