#!/usr/bin/env python3
"""Measures `tml matrix` and `tml possible` over documents of 1,024 intervals beside bench/plain/plain.rs, which is written by hand.

Prints, for each document and command, the least time of five runs of `tml`, of the plain program and of `cat` of what was
printed, how much that is, and how many times as long as the plain program `tml` took; first without, and then with the
time of `cat` taken off both. Both programs have to print the same bytes; the columns of the plain one stay empty where rustc
is not in the PATH. `possible` is asked of the first and the last interval. Build `tml` first, as README.md says.

usage: bench/matrix.py [PROGRAM]       (PROGRAM is crates/tml/out/tml if left out)
"""

from __future__ import annotations

import re
import shutil
import subprocess
import sys
import tempfile
from pathlib import Path

from by_hand import built
from measure import least, shown
from solve import INSTANCES, all_simultaneous, chain_in_order, chain_shuffled, document, random_links

HERE = Path(__file__).resolve().parent


def no_links() -> bytes:
    """Intervals of which nothing is known."""
    return document(INSTANCES)


DOCUMENTS = (no_links, chain_in_order, chain_shuffled, random_links, all_simultaneous)
NAME = re.compile(rb' eiid="([^"]*)"')


def printed(words: list[str]) -> bytes:
    """What a program prints, where its status is 0."""
    run = subprocess.run(words, stdin=subprocess.DEVNULL, stdout=subprocess.PIPE, check=False)
    if run.returncode:
        sys.exit(f"{' '.join(words[:2])} ended with status {run.returncode}")
    return run.stdout


def row(program: str, plain: str | None, words: list[str], kept: Path) -> str:
    """The columns of a command over a document."""
    text = printed([program, *words])
    kept.write_bytes(text)
    tml, cat = least([program, *words]), least(["cat", str(kept)])
    if plain is None:
        return f"{tml * 1e3:9.2f} {'':9} {cat * 1e3:8.2f} {len(text):9}"
    if printed([plain, *words]) != text:
        sys.exit(f"{' '.join(words)}: the two programs do not print the same")
    by_hand = least([plain, *words])
    ratios = (tml / by_hand, (tml - cat) / (by_hand - cat) if by_hand > cat else None)
    columns = " ".join(f"{shown(ratio, '.2f'):>6}" for ratio in ratios)
    return f"{tml * 1e3:9.2f} {by_hand * 1e3:9.2f} {cat * 1e3:8.2f} {len(text):9} {columns}"


def main() -> None:
    """Measures and prints the table."""
    program = sys.argv[1] if len(sys.argv) > 1 else str(HERE.parent / "crates" / "tml" / "out" / "tml")
    print(f"{'document':20} {'command':8} {'tml ms':>9} {'plain ms':>9} {'cat ms':>8} {'bytes':>9} {'ratio':>6} {'no cat':>6}")
    with tempfile.TemporaryDirectory() as folder:
        plain = built(Path(folder)) if shutil.which("rustc") else None
        path = Path(folder) / "document"
        for make in DOCUMENTS:
            content = make()
            path.write_bytes(content)
            first, *_, last = (name.decode() for name in NAME.findall(content))
            for command, names in (("matrix", []), ("possible", [first, last])):
                columns = row(program, plain, [command, str(path), *names], Path(folder) / "printed")
                print(f"{make.__name__:20} {command:8} {columns}", flush=True)


if __name__ == "__main__":
    main()
