#!/usr/bin/env python3
"""Measures `tml relations` over documents of 1,024 intervals beside `tml solve` of the same document, and `tml drill`.

Prints, for each document, the least time of five runs of both, of `cat` of what `relations` printed, how much was printed,
and how many times as long as `solve` it took without that of `cat`. Build the program first, as README.md says.

usage: bench/relations.py [PROGRAM]       (PROGRAM is crates/tml/out/tml if left out)
"""

import os
import subprocess
import sys
import tempfile

from measure import least
from solve import DOCUMENTS, clash_at_the_last

DRILLS = ["1", "64", "1024"]


def measure(program, make, folder):
    path, printed = os.path.join(folder, "document"), os.path.join(folder, "printed")
    with open(path, "wb") as file:
        file.write(make())
    with open(printed, "wb") as file:
        subprocess.run([program, "relations", path], stdout=file, check=True)
    size = os.path.getsize(printed)
    solve, relations, cat = least([program, "solve", path]), least([program, "relations", path]), least(["cat", printed])
    print(
        f"{make.__name__:20} {solve * 1e3:8.2f} {relations * 1e3:12.2f} {cat * 1e3:7.2f} {size:9} {(relations - cat) / solve:6.2f}",
        flush=True,
    )


def main():
    here = os.path.dirname(os.path.abspath(__file__))
    program = sys.argv[1] if len(sys.argv) > 1 else os.path.join(here, "..", "crates", "tml", "out", "tml")
    print(f"{'document':20} {'solve ms':>8} {'relations ms':>12} {'cat ms':>7} {'bytes':>9} {'times':>6}")
    with tempfile.TemporaryDirectory() as folder:
        for make in DOCUMENTS:
            if make is not clash_at_the_last:
                measure(program, make, folder)
    for number in DRILLS:
        print(f"{'drill ' + number:20} {least([program, 'drill', number]) * 1e3:8.2f}", flush=True)


if __name__ == "__main__":
    main()
