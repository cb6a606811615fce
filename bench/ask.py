#!/usr/bin/env python3
"""Measures `tml ask` over documents of 1,024 intervals beside `tml solve` of the same document, and `tml verify` of what
`ask` printed beside `tml check`.

The documents are those of solve.py, with dates in several orders and kinds of links. Each is asked for a relation that
holds by the longest chain where there is one, for one that fails, and for SIMULTANEOUS of the first and last interval.
`ask` closes a table of all orders, which `solve` does without where a timeline fits, so it takes some milliseconds more.
`verify` is to take at most `check` and the reading. Build the program first, as README.md says.

usage: bench/ask.py [PROGRAM]       (PROGRAM is crates/tml/out/tml if left out)
"""

import os
import re
import subprocess
import sys
import tempfile

from measure import least, peak_memory
from solve import DOCUMENTS, clash_at_the_last

RELATIONS = ["BEFORE", "AFTER", "SIMULTANEOUS"]


def ends(source):
    """The first and the last interval of a document."""
    names = re.findall(rb'<(?:TIMEX3 tid|MAKEINSTANCE eiid)="([^"]*)"', source)
    return names[0].decode(), names[-1].decode()


def answer(command):
    return subprocess.run(command, stdout=subprocess.PIPE).stdout


def main():
    here = os.path.dirname(os.path.abspath(__file__))
    program = sys.argv[1] if len(sys.argv) > 1 else os.path.join(here, "..", "crates", "tml", "out", "tml")
    print(
        f"{'document':20} {'relation':12} {'answer':7} {'steps':>5} {'solve ms':>8} {'ask ms':>7} {'ratio':>5} {'check ms':>8} {'verify ms':>9} {'more KiB':>8}"
    )
    with tempfile.TemporaryDirectory() as folder:
        path, evidence = os.path.join(folder, "document"), os.path.join(folder, "evidence")
        for make in DOCUMENTS:
            if make is clash_at_the_last:
                continue
            source = make()
            with open(path, "wb") as file:
                file.write(source)
            first, last = ends(source)
            solve, check = least([program, "solve", path]), least([program, "check", path])
            before = peak_memory([program, "check", path])
            for relation in RELATIONS:
                command = [program, "ask", path, first, relation, last]
                text = answer(command)
                with open(evidence, "wb") as file:
                    file.write(text)
                kind = text.split(b"\n")[1].split(b" ")[0].decode()
                steps = max([int(n) for n in re.findall(rb"^walk (\d+)$", text, re.M)], default=0)
                ask, verify = least(command), least([program, "verify", path, evidence])
                after = peak_memory(command)
                more = "" if before is None else f"{after - before:8}"
                print(
                    f"{make.__name__:20} {relation:12} {kind:7} {steps:5} {solve * 1e3:8.2f} {ask * 1e3:7.2f} {ask / solve:5.2f} "
                    f"{check * 1e3:8.2f} {verify * 1e3:9.2f} {more}",
                    flush=True,
                )


if __name__ == "__main__":
    main()
