"""What a run is: the program that is asked, the settings, the files, and the order in which they are worked on. It is made once.

Nothing here loads the module `dataclasses`, which takes as long as all the rest that `check` needs.
"""

from __future__ import annotations

import sys
from collections.abc import Callable, Iterator, Sequence
from typing import TYPE_CHECKING, Any, NamedTuple, TypeVar

from tml.attempts import attempted

from ..asking.pool import Interruption
from ..files.finding import PATTERNS, Found, find_files
from ..files.standard_input import StandardInput, find_with
from .progress import Progress
from .settings import Settings

if TYPE_CHECKING:
    from ..asking.program import Program

Result = TypeVar("Result")
InOrder = Callable[..., Iterator[Any]]
"""Does some work on items and gives the results in their order: on the processors here, or on a cluster."""


class Files(NamedTuple):
    """Which files a run is about: paths, names to look for in folders, and standard input where it is among the paths."""

    paths: Sequence[str] = ()
    patterns: Sequence[str] = PATTERNS
    given: StandardInput | None = None
    changed: list[Found] | None = None
    """Where files are watched, those that have changed."""

    def search(self) -> list[Found]:
        """The files."""
        if self.changed is not None:
            return self.changed
        return find_with(self.given, self.paths, self.patterns) if self.given else find_files(self.paths, self.patterns)


class Run(NamedTuple):
    """One run of a command, or of a function of the package."""

    program: Program
    settings: Settings
    files: Files
    stop: Interruption
    in_order: InOrder
    quiet: bool = False

    def is_interrupted(self) -> bool:
        """Whether it is to end."""
        return self.stop.happened.is_set()

    def each(self, work: Callable[[Found], Result], found: Sequence[Found], failed: Callable[[Found, str], Result]) -> Iterator[Result]:
        """The results of some work on files, in their order; `failed` makes that of a file at which it raised something, of the cause."""
        yield from self.in_order(work, found, stop=self.stop, failed=failed)


def print_each(
    found: Sequence[Found], results: Iterator[Result], report: Callable[[Found, Result], str], failed: Callable[[Found, str], Result]
) -> None:
    """Prints of each file what there is to report, in the order of the files. If that cannot be said, it prints why."""
    progress = Progress(len(found), "files")
    try:
        for result, one in zip(results, found, strict=False):
            text = attempted(lambda file: report(file, result), one, lambda file, problem: report(file, failed(file, problem)))
            if text:
                progress.clear()
                sys.stdout.write(text)
                if sys.stdout.isatty():
                    sys.stdout.flush()
            progress.step()
    finally:
        progress.close()


def print_summary(run: Run, apart: bool, text: str) -> None:
    """Prints a summary: on standard error where the output is for programs."""
    sys.stdout.flush()
    if not run.quiet:
        (sys.stderr if apart else sys.stdout).write(text)
