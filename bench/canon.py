#!/usr/bin/env python3
"""Measures `tml canon` beside `xmllint --c14n --huge` and `tml check` on documents of one, two and four MiB.

Prints, for each document and size, the least wall time of five runs of each, the ratio of the first two, the peak memory of
`canon`, and how much of it there is for each byte of the document and of the canonical text. Each document is accepted.
Where xmllint (Debian's libxml2-utils) or GNU time (Debian's time) is missing, its columns stay empty. Build the program
first, as README.md says.

usage: bench/canon.py [PROGRAM]       (PROGRAM is crates/tml/out/tml if left out)
"""

import os
import shutil
import subprocess
import sys
import tempfile

import measure
from measure import MIB, NULL, least, numbered, peak_memory, shown


def many_attributes(size):
    """EVENTs, each with attributes in no order, in either quote, and with a quote in a value."""
    part = b"""<EVENT stem='a "b"' eid="e%d" pos="VERB" class='STATE' a=""   B="1">x</EVENT >\n"""
    return numbered(b"", lambda n: part % n, size)


DOCUMENTS = [make for command, make in measure.ROWS if command == "check" and make is not measure.times]
DOCUMENTS += [measure.text_with_times, many_attributes]


def main():
    here = os.path.dirname(os.path.abspath(__file__))
    program = sys.argv[1] if len(sys.argv) > 1 else os.path.join(here, "..", "crates", "tml", "out", "tml")
    xmllint = shutil.which("xmllint")
    print(f"{'document':24} {'MiB':>3} {'check ms':>8} {'canon ms':>8} {'xmllint ms':>10} {'ratio':>5} {'KiB':>7} {'B/byte':>6}")
    with tempfile.TemporaryDirectory() as folder:
        path = os.path.join(folder, "document")
        for make in DOCUMENTS:
            for size in (1, 2, 4):
                with open(path, "wb") as file:
                    file.write(make(size * MIB))
                words = [program, "canon", path]
                written = len(subprocess.run(words, stdin=NULL, stdout=subprocess.PIPE, check=True).stdout)
                check, canon, memory = least([program, "check", path]), least(words), peak_memory(words)
                theirs = least([xmllint, "--c14n", "--huge", path]) if xmllint else None
                ratio = canon / theirs if theirs else None
                each = memory * 1024 / (os.path.getsize(path) + written) if memory else None
                print(
                    f"{make.__name__:24} {size:3} {check * 1e3:8.2f} {canon * 1e3:8.2f}"
                    f" {shown(theirs * 1e3 if theirs else None, '10.2f'):>10} {shown(ratio, '5.2f'):>5}"
                    f" {shown(memory, '7'):>7} {shown(each, '6.1f'):>6}",
                    flush=True,
                )


if __name__ == "__main__":
    main()
