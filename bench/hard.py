#!/usr/bin/env python3
"""Measures `tml` over hard documents, by shape and command, each at three sizes, beside bench/plain/plain.rs.

Prints a table in Markdown with a row for each shape, command and size: the millions of instructions of `tml` and of the plain
program by callgrind (Debian's valgrind), their ratio, those of `tml` for each unit of

    (bytes + answer + cited links x (points + orders) + points x orders / 64) x log

and the exponent by which they grow with the size, next to the greatest exponent of a part of this sum. No run over an accepted
document may take both more than 350 million instructions and more than three times those of the plain program, and none may grow
faster than that sum. The last column says what is not kept: `count`, `growth` or `time`, or `alone` if there are more instructions
than that and the plain program has no answer. If the programs disagree, it says `differs`, and the status is 1. Of a run that would
take too long under callgrind the seconds of processor time are shown, and with `--seconds` of all. Needs rustc in the PATH. Build
`tml` first, as README.md says.

usage: bench/hard.py [OPTIONS] [SHAPE ..]       SHAPE is a name or a pattern such as 'a ring*' (all shapes if left out)
"""

from __future__ import annotations

import argparse
import math
import sys
import tempfile
from collections.abc import Iterator
from concurrent.futures import ThreadPoolExecutor
from dataclasses import dataclass
from fnmatch import fnmatchcase
from pathlib import Path

import hard_dates
import hard_evidence
import hard_nets
import hard_texts
from by_hand import built
from hard_runs import BY_HAND, FAULT, NOT_DONE, Files, Run, Terms, instructions, run, says_the_same, terms
from hard_shapes import KIB, MIB, Case, Shape
from measure import peak_memory, shown

HERE = Path(__file__).resolve().parent
MOST_MILLIONS, MOST_RATIO = 350, 3
MILLIONS_A_SECOND = 4000
"""About how many millions of instructions a second has, if they are not counted."""
LEEWAY = 0.15
"""By how much the exponent may be above what is allowed, since all that is measured has a part that does not grow."""
SLOWER = 40
"""About how many times as long a run takes under callgrind."""
DRILL = Shape("drill", lambda _: Case(b""), ("drill",), (256, 512, 1024))
SHAPES = [*hard_nets.SHAPES, *hard_dates.SHAPES, *hard_texts.SHAPES, *hard_evidence.SHAPES, DRILL]


@dataclass(frozen=True)
class Measured:
    """What a run takes: its seconds of processor time, if it came to its end, and its millions of instructions, if these were counted."""

    seconds: float | None = None
    millions: float | None = None

    def times(self, other: Measured) -> float | None:
        """How many times as much as another run it takes: by instructions, or else by seconds."""
        if self.millions and other.millions:
            return self.millions / other.millions
        return self.seconds / other.seconds if self.seconds and other.seconds else None


@dataclass(frozen=True)
class Row:
    """What was measured of a shape, a command and a size."""

    shape: Shape
    command: str
    size: int
    ours: Measured
    by_hand: Measured
    terms: Terms | None
    memory: int | None
    """Peak memory in KiB."""
    differs: bool


class Measuring:
    """Measures the commands of shapes at their sizes."""

    def __init__(self, chosen: argparse.Namespace, plain: str) -> None:
        self.chosen, self.plain = chosen, plain

    def rows(self, shape: Shape) -> list[Row]:
        """The rows of a shape: of each command up to the first size at which it did not end in time."""
        rows: list[Row] = []
        commands = [command for command in shape.commands if command in (self.chosen.commands or shape.commands)]
        for size in sizes(shape, self.chosen.divide) if commands else ():
            with tempfile.TemporaryDirectory() as folder:
                files = Files(Path(folder), shape.make(size))
                endless = {row.command for row in rows if row.ours.seconds is None}
                rows += [self.row(shape, command, size, files) for command in commands if command not in endless]
        return sorted(rows, key=lambda row: (commands.index(row.command), row.size))

    def row(self, shape: Shape, command: str, size: int, files: Files) -> Row:
        """The row of a command over the files of a case."""
        words = files.words((self.plain, self.chosen.tml), command, size, self.chosen.timeout)
        ours = run([self.chosen.tml, *words], self.chosen.timeout)
        if ours is None:
            return Row(shape, command, size, Measured(), Measured(), None, None, False)
        by_hand = run([self.plain, *words], self.chosen.timeout) if command in BY_HAND else None
        if by_hand is not None and by_hand.status == NOT_DONE:
            by_hand = None
        differs = by_hand is not None and not says_the_same(self.chosen.tml, words, ours, by_hand, files.folder)
        measured = [self.measured([program, *words], ended) for program, ended in ((self.chosen.tml, ours), (self.plain, by_hand))]
        memory = peak_memory([self.chosen.tml, *words]) if self.chosen.memory else None
        return Row(shape, command, size, measured[0], measured[1], terms(self.plain, words, ours), memory, differs)

    def measured(self, words: list[str], ended: Run | None) -> Measured:
        """What a run takes. Its instructions are counted only if there is enough time for that."""
        if ended is None:
            return Measured()
        if self.chosen.seconds or ended.seconds * SLOWER > self.chosen.timeout:
            return Measured(ended.seconds)
        return Measured(ended.seconds, instructions(words, self.chosen.timeout))


def sizes(shape: Shape, divide: int) -> list[int]:
    """The sizes of a shape, each of this part."""
    return [size // divide for size in shape.sizes]


def growth(row: Row, before: Row | None) -> tuple[float | None, float | None]:
    """The exponent by which a row has grown from the one before it, and the one by which it may."""
    if before is None or row.terms is None or before.terms is None:
        return None, None
    times, factor = row.ours.times(before.ours), row.size / before.size
    return times and math.log(times) / math.log(factor), row.terms.growth(before.terms, factor)


def breaches(row: Row, before: Row | None) -> str:
    """What a row does not keep."""
    if row.ours.seconds is None:
        return "time"
    found = ["differs"] if row.differs else []
    ratio = row.ours.times(row.by_hand)
    if (row.ours.millions or row.ours.seconds * MILLIONS_A_SECOND) > MOST_MILLIONS and not row.shape.faulty:
        if ratio is None:
            found.append("alone")
        elif ratio > MOST_RATIO:
            found.append("count")
    grown, allowed = growth(row, before)
    if grown is not None and allowed is not None and grown > allowed + LEEWAY:
        found.append("growth")
    return ", ".join(found)


def size_text(shape: Shape, size: int) -> str:
    """A size as it is shown: of texts in bytes."""
    if shape.sizes[-1] < MIB:
        return f"{size:,}"
    return f"{size // MIB} MiB" if size % MIB == 0 else f"{size // KIB} KiB"


def taken(measured: Measured, limit: float) -> str:
    """What a run takes, as it is shown: in millions of instructions, or else in seconds."""
    if measured.millions is not None:
        return f"{measured.millions:.1f}"
    return f"> {limit:.0f} s" if measured.seconds is None else f"{measured.seconds:.3f} s"


def line(row: Row, before: Row | None, limit: float) -> str:
    """The line of a row."""
    grown, allowed = growth(row, before)
    per_unit = row.ours.millions * 1e6 / row.terms.units() if row.ours.millions and row.terms else None
    columns = [row.shape.name, f"`{row.command}`", size_text(row.shape, row.size), taken(row.ours, limit)]
    columns += ["" if row.by_hand == Measured() else taken(row.by_hand, limit), shown(row.ours.times(row.by_hand), ".2f")]
    columns += [shown(per_unit, ".2f"), shown(grown, ".2f"), shown(allowed, ".2f"), breaches(row, before)]
    columns += [] if row.memory is None else [f"{row.memory / KIB:.1f}"]
    return f"| {' | '.join(columns)} |"


def lines(rows: list[Row], chosen: argparse.Namespace) -> Iterator[str]:
    """The lines of the rows of a shape."""
    before: Row | None = None
    for row in rows:
        before = before if before is not None and before.command == row.command else None
        if not chosen.breaches or breaches(row, before):
            yield line(row, before, chosen.timeout)
        before = row


def heads(memory: bool) -> list[str]:
    """The first lines of the table."""
    names = ["shape", "command", "size", "`tml`, millions", "by hand", "ratio", "a unit", "growth", "allowed", "over"]
    rules = ["---"] * 2 + ["--:"] * 7 + ["---"]
    if memory:
        names.append("MiB")
        rules.append("--:")
    return [f"| {' | '.join(names)} |", f"|{'|'.join(rules)}|"]


def accepted(tml: str, shapes: list[Shape], divide: int) -> bool:
    """Whether `tml check` says of each shape, at its least size, what it should."""
    right = True
    with tempfile.TemporaryDirectory() as folder:
        for shape in shapes:
            (Path(folder) / "document").write_bytes(shape.make(sizes(shape, divide)[0]).document or b"<TimeML/>")
            checked = run([tml, "check", str(Path(folder) / "document")], 60)
            if checked is None or checked.status != (FAULT if shape.faulty else 0):
                print(f"{shape.name}: {checked.text[:80]!r}" if checked else f"{shape.name}: no answer")
                right = False
    print(f"{len(shapes)} shapes")
    return right


def arguments() -> argparse.Namespace:
    """The arguments of the command line."""
    parser = argparse.ArgumentParser(description="Measures tml over hard documents beside a program that is written by hand.")
    parser.add_argument("--tml", default=str(HERE.parent / "crates" / "tml" / "out" / "tml"), help="the program to measure")
    parser.add_argument("--plain", help="the program by hand, if it is built already")
    parser.add_argument("--commands", type=lambda text: text.split(","), help="commands to measure, with commas between them")
    parser.add_argument("--divide", type=int, default=1, metavar="N", help="make each size the N-th part")
    parser.add_argument("--seconds", action="store_true", help="measure seconds of processor time, and count no instructions")
    parser.add_argument("--timeout", type=float, default=60, metavar="S", help="the seconds that a run may take, also under callgrind (60)")
    parser.add_argument("--jobs", type=int, default=1, metavar="N", help="how many shapes are measured at once")
    parser.add_argument("--memory", action="store_true", help="add the peak memory of tml, in MiB")
    parser.add_argument("--breaches", action="store_true", help="print only what does not keep the limits")
    parser.add_argument("--accepted", action="store_true", help="only query whether `tml check` accepts the documents")
    parser.add_argument("--list", action="store_true", help="only list the shapes and their commands")
    parser.add_argument("shapes", nargs="*", metavar="SHAPE", help="the name of a shape, or a pattern")
    return parser.parse_args()


def main() -> int:
    """Measures and prints the table."""
    chosen = arguments()
    patterns = chosen.shapes or ["*"]
    shapes = [shape for shape in SHAPES if any(fnmatchcase(shape.name, pattern) for pattern in patterns)]
    if chosen.list:
        print("\n".join(f"{shape.name}: {', '.join(shape.commands)}" for shape in shapes))
        return 0
    if chosen.accepted:
        return 0 if accepted(chosen.tml, shapes, chosen.divide) else 1
    differ = False
    with tempfile.TemporaryDirectory() as folder, ThreadPoolExecutor(chosen.jobs) as pool:
        measuring = Measuring(chosen, chosen.plain or built(Path(folder)))
        print("\n".join(heads(chosen.memory)))
        for rows in pool.map(measuring.rows, shapes):
            for text in lines(rows, chosen):
                print(text, flush=True)
            differ = differ or any(row.differs for row in rows)
    return 1 if differ else 0


if __name__ == "__main__":
    sys.exit(main())
