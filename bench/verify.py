#!/usr/bin/env python3
"""Measures `tml verify` beside `tml check` of the same document.

The first table has documents of 1,024 intervals and 4,096 links with a timeline that fits: `verify` is to take at most
twice the time of `check`. The second one has evidence of 64 MiB over a small document, refused at its last line or at its
first: a byte of it is to take no longer than a byte of `check` over the shortest tags, and memory at most three times
the evidence. Build the program first, as README.md says.

usage: bench/verify.py [PROGRAM]       (PROGRAM is crates/tml/out/tml if left out)
"""

import datetime
import os
import random
import sys
import tempfile

from measure import MIB, least, peak_memory, shortest_tags

INTERVALS, LINKS = 1024, 4096
EVIDENCE = 64 * MIB


def relation(a, b):
    """The first relation, in the order of TimeML's table, that holds of two intervals, or None where they overlap."""
    (s, e), (t, f) = a, b
    table = [
        ("BEFORE", e < t),
        ("AFTER", f < s),
        ("INCLUDES", s < t and f < e),
        ("IS_INCLUDED", t < s and e < f),
        ("DURING", t <= s and e <= f),
        ("DURING_INV", s <= t and f <= e),
        ("IBEFORE", e == t),
        ("IAFTER", f == s),
    ]
    return next((name for name, holds in table if holds), None)


def annotated(dates, seed):
    """A document with so many days among its intervals, in scattered order, and a timeline that fits it."""
    draw = random.Random(seed)
    day = datetime.date(1998, 1, 1)
    kinds = ["t"] * dates + ["i"] * (INTERVALS - dates)
    draw.shuffle(kinds)
    days = draw.sample(range(dates), dates)
    tags, names, hidden = [b'<EVENT eid="e" class="STATE">x</EVENT>'], [], []
    for number, kind in enumerate(kinds):
        name = f"{kind}{draw.randrange(10 ** draw.randrange(1, 9))}_{number}"
        if kind == "t":
            k = days.pop()
            hidden.append((100 * k, 100 * k + 100))
            value = (day + datetime.timedelta(days=k)).isoformat()
            tags.append(f'<TIMEX3 tid="{name}" type="DATE" value="{value}">x</TIMEX3>'.encode())
        else:
            start = draw.randrange(100 * max(dates, 200))
            hidden.append((start, start + 1 + draw.randrange(300)))
            tags.append(f'<MAKEINSTANCE eiid="{name}" eventID="e"/>'.encode())
        names.append(name)
    end = {"t": ("timeID", "relatedToTime"), "i": ("eventInstanceID", "relatedToEventInstance")}
    links = 0
    while links < LINKS:
        a, b = draw.randrange(INTERVALS), draw.randrange(INTERVALS)
        name = relation(hidden[a], hidden[b])
        if name:
            left, right = end[kinds[a]][0], end[kinds[b]][1]
            tags.append(f'<TLINK lid="l{links}" {left}="{names[a]}" {right}="{names[b]}" relType="{name}"/>'.encode())
            links += 1
    document = b"<TimeML>" + b"\n".join(tags) + b"</TimeML>"
    ranks = "".join(f"at {start} {finish}\n" for start, finish in hidden)
    return document, f"tml-evidence 1\ntimeline {INTERVALS}\n{ranks}end\n".encode()


def lines(line, last):
    """As many lines as fit, and a last one."""
    head = b"tml-evidence 1\ntimeline %d\n"
    count = (EVIDENCE - len(head) - 16 - len(last)) // len(line)
    return head % count + line * count + last


def mixed_lines(last):
    """The same with numbers of every length."""
    draw = random.Random(7)
    parts, size = [], 64 + len(last)
    while True:
        part = b"at %d %d\n" % (draw.randrange(10 ** draw.randrange(1, 10)), draw.randrange(10 ** draw.randrange(1, 10)))
        if size + len(part) > EVIDENCE:
            return b"tml-evidence 1\ntimeline %d\n" % len(parts) + b"".join(parts) + last
        parts.append(part)
        size += len(part)


REFUSED = [
    ("shortest lines, end without LF", lambda: lines(b"at 0 1\n", b"end")),
    ("longest lines, end without LF", lambda: lines(b"at 4294967294 4294967295\n", b"end")),
    ("mixed lines, end misspelled", lambda: mixed_lines(b"END\n")),
    ("shortest lines, the last one bad", lambda: lines(b"at 0 1\n", b"at 00 1\nend\n")),
    ("one line", lambda: b"tml-evidence 1" + b" " * (EVIDENCE - 14)),
    ("NUL bytes", lambda: bytes(EVIDENCE)),
    ("line feeds", lambda: b"\n" * EVIDENCE),
]


def main():
    here = os.path.dirname(os.path.abspath(__file__))
    program = sys.argv[1] if len(sys.argv) > 1 else os.path.join(here, "..", "crates", "tml", "out", "tml")
    with tempfile.TemporaryDirectory() as folder:
        document, evidence = os.path.join(folder, "document"), os.path.join(folder, "evidence")

        def write(path, content):
            with open(path, "wb") as file:
                file.write(content)

        print(f"{'dates':>5} {'check ms':>8} {'verify ms':>9} {'ratio':>5}")
        for dates in (0, 512, 1024):
            doc, timeline = annotated(dates, dates + 1)
            write(document, doc)
            write(evidence, timeline)
            check = least([program, "check", document])
            verify = least([program, "verify", document, evidence])
            print(f"{dates:5} {check * 1e3:8.2f} {verify * 1e3:9.2f} {verify / check:5.2f}", flush=True)

        write(document, shortest_tags(4 * MIB))
        check = least([program, "check", document]) / (4 * MIB)
        print(f"\ncheck over the shortest tags: {check * 1e9:.1f} ns a byte")
        print(f"{'evidence':33} {'ms':>7} {'ns/byte':>7} {'B/byte':>6}")
        write(document, b"<TimeML/>")
        for name, make in REFUSED:
            write(evidence, make())
            words = [program, "verify", document, evidence]
            taken, memory = least(words), peak_memory(words)
            told = "" if memory is None else f"{memory * 1024 / EVIDENCE:6.2f}"
            print(f"{name:33} {taken * 1e3:7.1f} {taken / EVIDENCE * 1e9:7.2f} {told}", flush=True)


if __name__ == "__main__":
    main()
