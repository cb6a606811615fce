#!/usr/bin/env python3
"""Measures `tml solve` over documents of 1,024 intervals beside `tml check` of the same document.

Prints, for each document, the least time of five runs of both, their difference, and how much more memory `solve` takes.
The difference is to be at most 10 ms. Build the program first, as README.md says.

usage: bench/solve.py [PROGRAM]       (PROGRAM is crates/tml/out/tml if left out)
"""

import datetime
import os
import random
import sys
import tempfile

from measure import least, peak_memory
from verify import INTERVALS, LINKS, annotated

INSTANCES = "".join(f'<MAKEINSTANCE eiid="i{k}" eventID="e"/>' for k in range(INTERVALS))
EVENT = '<EVENT eid="e" class="STATE">x</EVENT>'


def document(tags):
    return f"<TimeML>{EVENT}{tags}</TimeML>".encode()


def link(a, name, b):
    return f'<TLINK eventInstanceID="i{a}" relatedToEventInstance="i{b}" relType="{name}"/>'


def random_links():
    return annotated(0, 11)[0]


def links_and_dates():
    return annotated(256, 12)[0]


def chain(order):
    """Each interval before the next, with the links in an order."""
    return document(INSTANCES + "".join(link(k, "BEFORE", k + 1) for k in order))


def chain_in_order():
    return chain(range(INTERVALS - 1))


def chain_in_reverse():
    return chain(reversed(range(INTERVALS - 1)))


def chain_shuffled():
    order = list(range(INTERVALS - 1))
    random.Random(5).shuffle(order)
    return chain(order)


def dates(order):
    day = datetime.date(1998, 1, 1)
    values = ((day + datetime.timedelta(days=k)).isoformat() for k in order)
    return document("".join(f'<TIMEX3 tid="t{k}" type="DATE" value="{value}"/>' for k, value in enumerate(values)))


def dates_in_order():
    return dates(range(INTERVALS))


def dates_in_reverse():
    return dates(reversed(range(INTERVALS)))


def dates_shuffled():
    order = list(range(INTERVALS))
    random.Random(6).shuffle(order)
    return dates(order)


def all_simultaneous():
    return document(INSTANCES + "".join(link(k, "SIMULTANEOUS", k + 1) for k in range(INTERVALS - 1)))


def clash_at_the_last():
    """Links that fit, and at the end one that turns a BEFORE round."""
    whole = random_links()
    at = whole.rindex(b"<TLINK")
    first = whole.index(b'relType="BEFORE"')
    start = whole.rindex(b"<TLINK", 0, first)
    turned = whole[start : whole.index(b"/>", start) + 2].replace(b"BEFORE", b"AFTER").replace(b' lid="', b' lid="x')
    return whole[:at] + turned + b"</TimeML>"


DOCUMENTS = [
    random_links,
    links_and_dates,
    chain_in_order,
    chain_in_reverse,
    chain_shuffled,
    dates_in_order,
    dates_in_reverse,
    dates_shuffled,
    all_simultaneous,
    clash_at_the_last,
]


def main():
    here = os.path.dirname(os.path.abspath(__file__))
    program = sys.argv[1] if len(sys.argv) > 1 else os.path.join(here, "..", "crates", "tml", "out", "tml")
    print(f"{'document':20} {'check ms':>8} {'solve ms':>8} {'more':>7} {'more KiB':>8}")
    with tempfile.TemporaryDirectory() as folder:
        path = os.path.join(folder, "document")
        for make in DOCUMENTS:
            with open(path, "wb") as file:
                file.write(make())
            check, solve = least([program, "check", path]), least([program, "solve", path])
            before, after = peak_memory([program, "check", path]), peak_memory([program, "solve", path])
            more = "" if before is None else f"{after - before:8}"
            print(f"{make.__name__:20} {check * 1e3:8.2f} {solve * 1e3:8.2f} {(solve - check) * 1e3:7.2f} {more}", flush=True)


if __name__ == "__main__":
    main()
