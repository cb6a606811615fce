#!/usr/bin/env python3
"""Measures the commands of `tml` beside `xmllint --noout --huge` on documents of one, two and four MiB.

Prints, for each command, document and size, the least wall time of five runs of `tml` and its peak memory, the
least wall time of xmllint on the same file, and the ratio of the two times. Where xmllint (Debian's
libxml2-utils) or GNU time (Debian's time) is missing, its columns stay empty. A run of xmllint that takes
longer than LIMIT seconds is stopped. Build the program first, as README.md says.

usage: bench/measure.py [PROGRAM]       (PROGRAM is crates/tml/out/tml if left out)
"""

import itertools
import os
import shutil
import string
import subprocess
import sys
import tempfile
import threading
import time

MIB = 1 << 20
RUNS = 5
LIMIT = 10.0
NULL = subprocess.DEVNULL

PREFIX, SUFFIX = b"<TimeML>", b"</TimeML>"
DEPTH = 32


def filled(piece, size):
    """A root element that holds the piece as often as it fits."""
    count = (size - len(PREFIX) - len(SUFFIX)) // len(piece)
    return PREFIX + piece * count + SUFFIX


def one_text(size):
    body = b"The bank said on Wednesday that rates fell before the meeting. "
    room = size - len(PREFIX) - len(SUFFIX)
    return PREFIX + (body * (room // len(body) + 1))[:room] + SUFFIX


def shortest_tags(size):
    return filled(b"<s></s>", size)


def one_tag(size):
    """One start tag with as many attributes as fit, each with a name of its own."""
    letters = string.ascii_letters + "_"
    names = ("".join(t) for n in itertools.count(1) for t in itertools.product(letters, repeat=n))
    parts, room = [PREFIX[:-1]], size - len(PREFIX) - len(SUFFIX)
    for name in names:
        part = b' %s=""' % name.encode()
        if len(part) > room:
            break
        parts.append(part)
        room -= len(part)
    return b"".join(parts) + b">" + SUFFIX


def comments_and_references(size):
    return filled(b"<!---->&lt;", size)


def nested(name, size):
    return filled((b"<%s>" % name) * (DEPTH - 1) + (b"</%s>" % name) * (DEPTH - 1), size)


def deepest_nesting(size):
    return nested(b"s", size)


def deepest_of_long_names(size):
    """The same with the longest known name, of which `tml` takes the most time beside xmllint."""
    return nested(b"TIMEX3INTERVAL", size)


def numbered(prefix, part_of, size):
    """A root element that holds a prefix, and then the parts of the numbers from 0 on, as many as fit."""
    parts, room = [PREFIX, prefix], size - len(PREFIX) - len(prefix) - len(SUFFIX)
    for number in itertools.count():
        part = part_of(number)
        if len(part) > room:
            return b"".join(parts) + SUFFIX
        parts.append(part)
        room -= len(part)


def events(size):
    """EVENTs, each with an identifier of its own."""
    return numbered(b"", lambda n: b'<EVENT eid="e%d" class="STATE"/>' % n, size)


def events_in_no_order(size):
    """The same with identifiers whose order in the document is not that of their bytes."""
    return numbered(b"", lambda n: b'<EVENT eid="%08x" class="STATE"/>' % (n * 2654435761 % (1 << 32)), size)


def annotated_text(size):
    """Sentences of a few words, every other one of them an EVENT."""
    words = b"The board said on Wednesday that rates would fall before the meeting and rise after it".split()

    def sentence(number):
        marked = (
            b'<EVENT eid="e%d" class="OCCURRENCE">%s</EVENT>' % (number * 8 + k, word) if k % 2 else word
            for k, word in enumerate(words[number % 5 : number % 5 + 8])
        )
        return b"<s>%s.</s>\n" % b" ".join(marked)

    return numbered(b"", sentence, size)


def times(size):
    """TIMEX3s, each with an identifier of its own: too many to be accepted."""
    return numbered(b"", lambda n: b'<TIMEX3 tid="t%d" type="DATE" value="1998-W53-7"/>' % n, size)


def signals_and_links(size):
    """SIGNALs, each referred to by a link of its own."""
    prefix = b'<EVENT eid="e" class="STATE"/><MAKEINSTANCE eiid="i" eventID="e"/>'
    link = b'<SIGNAL sid="s%d"/><SLINK signalID="s%d" subordinatedEventInstance="i" relType="MODAL"/>'
    return numbered(prefix, lambda n: link % (n, n), size)


def text_with_times(size):
    """As many TIMEX3s as a document may have, and a text after them."""
    shapes = (b"1998", b"199X-02-29", b"1998-01-08", b"1998-Q3", b"1998-W53-7", b"XXXX-12-25", b"1998-01-08T18:30:00", b"P3D")
    marks = b"".join(b'<TIMEX3 tid="t%d" type="DATE" value="%s"/>' % (k, shapes[k % len(shapes)]) for k in range(512))
    text = one_text(size - len(marks))
    return text[: len(PREFIX)] + marks + text[len(PREFIX) :]


ROWS = [("spans", make) for make in (one_text, shortest_tags, one_tag, comments_and_references)]
ROWS += [
    ("check", make)
    for make in (
        one_text,
        deepest_nesting,
        deepest_of_long_names,
        shortest_tags,
        one_tag,
        comments_and_references,
        annotated_text,
        events,
        events_in_no_order,
        signals_and_links,
        times,
    )
]
ROWS += [("dates", text_with_times)]


def run(words):
    """The wall time of one run in seconds, or None where it took longer than LIMIT."""
    begin = time.perf_counter()
    child = subprocess.Popen(words, stdin=NULL, stdout=NULL, stderr=NULL)
    # A wait with a limit would look at the child only now and then, so a timer ends it instead.
    end = threading.Timer(LIMIT, child.kill)
    end.start()
    child.wait()
    taken = time.perf_counter() - begin
    end.cancel()
    return taken if taken < LIMIT else None


def least(words, runs=RUNS):
    """The least time of some runs, or None where one took too long."""
    times = []
    for _ in range(runs):
        times.append(run(words))
        if times[-1] is None:
            return None
    return min(times)


def peak_memory(words):
    """The peak memory in KiB by GNU time, or None where that is missing."""
    gnu_time = shutil.which("time")
    if gnu_time is None:
        return None
    told = subprocess.run([gnu_time, "-f", "%M"] + words, stdin=NULL, stdout=NULL, stderr=subprocess.PIPE, check=False)
    return int(told.stderr.split()[-1])


def shown(number, form):
    return "" if number is None else format(number, form)


def main():
    here = os.path.dirname(os.path.abspath(__file__))
    program = sys.argv[1] if len(sys.argv) > 1 else os.path.join(here, "..", "crates", "tml", "out", "tml")
    xmllint = shutil.which("xmllint")
    print(f"{'words':6} {'document':24} {'MiB':>3} {'tml ms':>8} {'KiB':>7} {'B/byte':>6} {'xmllint ms':>10} {'ratio':>5}")
    with tempfile.TemporaryDirectory() as folder:
        path = os.path.join(folder, "document")
        for command, make in ROWS:
            for size in (1, 2, 4):
                with open(path, "wb") as file:
                    file.write(make(size * MIB))
                words = [program, command, path]
                ours, memory, theirs, ratio = least(words), peak_memory(words), None, None
                if ours is None:
                    sys.exit(f"{program} took longer than {LIMIT} s")
                told = ""
                if xmllint:
                    theirs = least([xmllint, "--noout", "--huge", path])
                    told = f">{LIMIT * 1e3:.0f}" if theirs is None else f"{theirs * 1e3:.1f}"
                    ratio = None if theirs is None else ours / theirs
                per_byte = None if memory is None else memory / (size * 1024)
                print(
                    f"{command:6} {make.__name__:24} {size:3} {ours * 1e3:8.1f} {shown(memory, '7')} "
                    f"{shown(per_byte, '6.1f')} {told:>10} {shown(ratio, '5.2f')}",
                    flush=True,
                )


if __name__ == "__main__":
    main()
