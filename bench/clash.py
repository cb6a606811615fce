#!/usr/bin/env python3
"""Measures `tml solve` over documents of 1,024 intervals whose links clash beside `tml check` of the same document, and
`tml verify` of the clash that it printed.

Prints, for each document, how many links the clash cites, how many steps its walk has, how many bytes were printed, and
the least time of five runs. Each `solve` is to take at most 20 ms more than `check`, and each clash is to be verified.
Build the program first, as README.md says.

usage: bench/clash.py [PROGRAM]       (PROGRAM is crates/tml/out/tml if left out)
"""

import datetime
import os
import random
import re
import subprocess
import sys
import tempfile

from measure import least, peak_memory
from solve import EVENT, INSTANCES, chain, clash_at_the_last, document, link
from verify import INTERVALS, LINKS

INVERSE = {"BEFORE": "AFTER", "IS_INCLUDED": "INCLUDES", "SIMULTANEOUS": "SIMULTANEOUS", "BEGINS": "BEGUN_BY", "ENDS": "ENDED_BY"}


def ring(name, seed, last="BEFORE"):
    """A ring of all intervals in a drawn order, each link of it there many times, in either direction."""
    draw = random.Random(seed)
    order = list(range(INTERVALS))
    draw.shuffle(order)
    closing = link(order[-1], last, order[0])
    links = []
    while len(links) < LINKS - 1:
        for k in draw.sample(range(INTERVALS - 1), min(INTERVALS - 1, LINKS - 1 - len(links))):
            a, b = order[k], order[k + 1]
            links.append(link(a, name, b) if draw.random() < 0.5 else link(b, INVERSE[name], a))
    draw.shuffle(links)
    return document(INSTANCES + "".join(links) + closing)


def ring_of_before():
    return ring("BEFORE", 1)


def ring_of_is_included():
    return ring("IS_INCLUDED", 2, "IS_INCLUDED")


def ring_of_simultaneous():
    return ring("SIMULTANEOUS", 3)


def ring_of_begins():
    return ring("BEGINS", 4, "BEGINS")


def ring_in_order():
    return chain(range(INTERVALS - 1)).replace(b"</TimeML>", link(INTERVALS - 1, "BEFORE", 0).encode() + b"</TimeML>")


def against_the_calendar():
    """An event after the last of many days and before the first of them."""
    day = datetime.date(1998, 1, 1)
    days = "".join(
        f'<TIMEX3 tid="t{k}" type="DATE" value="{(day + datetime.timedelta(days=k)).isoformat()}"/>' for k in range(INTERVALS - 1)
    )
    event = '<EVENT eid="e" class="STATE">x</EVENT><MAKEINSTANCE eiid="i" eventID="e"/>'
    links = f'<TLINK eventInstanceID="i" relatedToTime="t{INTERVALS - 2}" relType="AFTER"/><TLINK eventInstanceID="i" relatedToTime="t0" relType="BEFORE"/>'
    return f"<TimeML>{days}{event}{links}</TimeML>".encode()


def dates_and_a_ring():
    """A ring of half of the intervals, and as many days that it says nothing of."""
    draw = random.Random(5)
    half = INTERVALS // 2
    day = datetime.date(1998, 1, 1)
    days = "".join(f'<TIMEX3 tid="t{k}" type="DATE" value="{(day + datetime.timedelta(days=3 * k)).isoformat()}"/>' for k in range(half))
    instances = "".join(f'<MAKEINSTANCE eiid="i{k}" eventID="e"/>' for k in range(half))
    order = list(range(half))
    draw.shuffle(order)
    links = [link(order[k], "BEFORE", order[(k + 1) % half]) for k in range(half)]
    draw.shuffle(links)
    return f"<TimeML>{days}{EVENT}{instances}{''.join(links)}</TimeML>".encode()


def pairs_that_clash():
    """Two links that turn each other round, for each of 2,048 pairs of intervals."""
    draw = random.Random(6)
    pairs = draw.sample([(a, b) for a in range(INTERVALS) for b in range(a + 1, INTERVALS)], LINKS // 2)
    links = [link(a, "BEFORE", b) + link(b, "BEFORE", a) for a, b in pairs]
    return document(INSTANCES + "".join(links))


DOCUMENTS = [
    ring_in_order,
    ring_of_before,
    ring_of_is_included,
    ring_of_simultaneous,
    ring_of_begins,
    clash_at_the_last,
    against_the_calendar,
    dates_and_a_ring,
    pairs_that_clash,
]


def main():
    here = os.path.dirname(os.path.abspath(__file__))
    program = sys.argv[1] if len(sys.argv) > 1 else os.path.join(here, "..", "crates", "tml", "out", "tml")
    print(f"{'document':22} {'cites':>5} {'steps':>5} {'bytes':>9} {'check ms':>8} {'solve ms':>8} {'verify ms':>9} {'more KiB':>8}")
    with tempfile.TemporaryDirectory() as folder:
        path, evidence = os.path.join(folder, "document"), os.path.join(folder, "evidence")
        for make in DOCUMENTS:
            with open(path, "wb") as file:
                file.write(make())
            told = subprocess.run([program, "solve", path], stdout=subprocess.PIPE)
            with open(evidence, "wb") as file:
                file.write(told.stdout)
            judged = subprocess.run([program, "verify", path, evidence], stdout=subprocess.PIPE)
            if told.returncode != 2 or judged.returncode != 0 or not judged.stdout.startswith(b"verified clash "):
                sys.exit(f"{make.__name__}: status {told.returncode}, then {judged.returncode}: {judged.stdout[:100]!r}")
            cites = len(judged.stdout.split()) - 2
            steps = int(re.search(rb"^walk (\d+)$", told.stdout, re.M).group(1))
            check, solve = least([program, "check", path]), least([program, "solve", path])
            verify = least([program, "verify", path, evidence])
            before, after = peak_memory([program, "check", path]), peak_memory([program, "solve", path])
            more = "" if before is None else f"{after - before:8}"
            print(
                f"{make.__name__:22} {cites:5} {steps:5} {len(told.stdout):9} {check * 1e3:8.2f} {solve * 1e3:8.2f} {verify * 1e3:9.2f} {more}",
                flush=True,
            )


if __name__ == "__main__":
    main()
