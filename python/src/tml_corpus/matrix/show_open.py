"""`tml-corpus open`: the undecided pairs of a document, most informative first."""

from __future__ import annotations

import itertools
import sys
from collections.abc import Callable, Iterable, Iterator, Sequence
from dataclasses import dataclass
from typing import Any, NoReturn, TypeVar

from tml.matrices import Matrix
from tml.statuses import LINK_LIMIT

from ..asking.pool import Interruption
from ..asking.program import CannotRun, Program
from ..clash.fitting import Unfit, status_of
from ..clash.leftout import Copies, enclosed
from ..command_line.progress import Progress
from ..command_line.statuses import Status
from ..files.finding import Found, counted, shown
from .formats import labels_of
from .reading import tally_of
from .settling import Settled, Settling
from .show import Worded, worded_matrix

Item = TypeVar("Item")
Result = TypeVar("Result")
InOrder = Callable[..., Iterable[Result]]


@dataclass(frozen=True)
class Bounds:
    """How many pairs are looked at at most, or all where it is 0, and how many of them are shown."""

    pairs: int
    limit: int


class WithLinks:
    """Copies of a document with one more link, of which `tml matrix` is asked."""

    def __init__(self, program: Program, found: Worded) -> None:
        self.program, self.matrix = program, found.matrix
        self.times = frozenset(found.wording.tags["TIMEX3"])
        self.parts = Copies(program, found.wording.source, {}).as_written

    def tag(self, first: str, relation: str, second: str) -> bytes:
        """The tag of a link."""
        one = "timeID" if first in self.times else "eventInstanceID"
        other = "relatedToTime" if second in self.times else "relatedToEventInstance"
        return f'<TLINK {one}="{first}" {other}="{second}" relType="{relation}"/>'.encode()

    def decided(self, link: tuple[int, str, int]) -> int:
        """How many pairs are decided with one more link, which decides its own pair."""
        left, relation, right = link
        first, second = self.matrix.intervals[left], self.matrix.intervals[right]
        copy = enclosed([*self.parts, self.tag(first, relation, second)])
        tally = tally_of(self.program, copy, self.matrix, left, right)
        if tally.line != f"{first} {second} {relation}".encode():
            raise CannotRun("two answers of tml to `matrix` do not belong together")
        return tally.decided


def decided_in(matrix: Matrix) -> int:
    """How many pairs of a matrix are decided."""
    is_decided = [len(relations) == 1 for relations in matrix.sets]
    return sum(is_decided[number] for number in matrix.cells)


def failed(_: object, problem: str) -> NoReturn:
    """What comes of an item with which something went wrong: the document is not looked at."""
    raise CannotRun(problem)


def with_progress(
    in_order: InOrder[Result], work: Callable[[Item], Result], items: Sequence[Item], unit: str, stop: Interruption
) -> Iterator[Result]:
    """The results of some work in order, on all processors, with a sign of progress."""
    progress = Progress(len(items), unit)
    try:
        for result in in_order(work, items, stop=stop, failed=failed):
            yield result
            progress.step()
    finally:
        progress.close()


def show_open_of_all(
    program: Program, found: Sequence[Found], bounds: Bounds, touching: bool, in_order: InOrder[Any], stop: Interruption
) -> int:
    """Prints the open pairs of each file of a folder, with its name before each line, and answers the worst status."""
    statuses = []
    for one in found:
        if stop.happened.is_set():
            break
        statuses.append(show_open(program, one, bounds, touching, in_order, stop, f"{shown(one.path)}: "))
    return max(statuses, default=Status.SUCCESS)


def show_open(
    program: Program, file: Found, bounds: Bounds, touching: bool, in_order: InOrder[Any], stop: Interruption, before: str = ""
) -> int:
    """Prints the open pairs of a file, with some words before the line of each, and answers the status."""
    return status_of(lambda path: print_open(program, file, bounds, touching, in_order, stop, before), file.path, sys.stdout)


def print_open(
    program: Program, file: Found, bounds: Bounds, touching: bool, in_order: InOrder[Any], stop: Interruption, before: str
) -> Unfit | int:
    """The same, if some timeline fits the document."""
    found = worded_matrix(program, file.place(), "looked at", touching)
    if isinstance(found, Unfit):
        return found
    sys.stdout.write(found.text)
    *lines, last = lines_of(program, file.path, found, bounds, in_order, stop)
    if stop.happened.is_set():
        sys.stdout.write("interrupted: not all pairs were looked at\n")
        return Status.INTERRUPTED
    sys.stdout.writelines(before + line for line in lines)
    sys.stdout.write(last)
    return Status.SUCCESS


def lines_of(program: Program, path: str, found: Worded, bounds: Bounds, in_order: InOrder[Any], stop: Interruption) -> Iterator[str]:
    """A line for each pair that is shown, and last how many there are."""
    settling = Settling(found.matrix)
    pairs = settling.open_pairs()
    looked_at = pairs[: bounds.pairs] if bounds.pairs else pairs
    settled = sorted(with_progress(in_order, settling.settled, looked_at, "pairs", stop), key=Settled.rank)[: bounds.limit]
    if not stop.happened.is_set():
        confirm(program, found, settled, in_order, stop)
    labels = [shown(label) for label in labels_of(found.wording)]
    yield from (line_of(one, labels) for one in settled)
    of_all = f"{counted(len(labels), 'interval')}, {counted(len(found.matrix.cells), 'pair')}"
    decided = len(found.matrix.cells) - len(pairs)
    yield f"{shown(path)}: {of_all}: {decided} decided, {len(pairs)} open, {len(looked_at)} of these looked at, {len(settled)} shown\n"


def confirm(program: Program, found: Worded, settled: Sequence[Settled], in_order: InOrder[Any], stop: Interruption) -> None:
    """Asks `tml matrix` of each relation of the pairs that are shown: what was counted is what it says of the document with this link."""
    if settled and len(found.wording.link_tags) >= LINK_LIMIT:
        raise CannotRun(f"the document has {LINK_LIMIT:,} links, and may have no more")
    before = decided_in(found.matrix)
    links = [(one.left, relation, one.right) for one in settled for relation in one.counts]
    counts = list(itertools.chain(*(one.counts.values() for one in settled)))
    asked = with_progress(in_order, WithLinks(program, found).decided, links, "links", stop)
    for count, decided in zip(counts, asked, strict=False):
        if decided != before + count:
            raise CannotRun("what was counted is not what tml matrix says of the document with one more link")


def line_of(one: Settled, labels: Sequence[str]) -> str:
    """An open pair in a line: how many pairs one more link settles, its intervals, and how many each relation does."""
    least, greatest = one.least(), max(one.counts.values())
    some = f"{least} to {greatest}" if least < greatest else str(least)
    counts = ", ".join(f"{relation} {count}" for relation, count in one.counts.items())
    return f"{some}: {labels[one.left]}, {labels[one.right]}: {counts}\n"
