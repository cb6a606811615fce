"""The command line of `tools/differential`."""

from __future__ import annotations

import argparse
import os
import sys
import tempfile
import time
from collections.abc import Sequence
from contextlib import nullcontext
from pathlib import Path
from random import Random

from differential import reals
from differential.keeping import keep, kept
from differential.libraries import Libraries, Modules, library_path
from differential.programs import Programs, program_path, rows_path
from differential.reducing import reduced
from differential.rows import Rows
from differential.trying import Difference, Trial, batches
from tml.finding import BUILT_LIBRARY
from tml.running import CannotRun
from tml_corpus import VERSION

LONG = 2000
REDUCING_SECONDS = 8.0
SHOWN = 20
SUBJECTS = {
    "evidence": "evidence that was written and damaged, for verify, renew and join",
    "links": "links that follow from others, for reduce and score",
    "placings": "placings in whole seconds and cycles, for seconds and confirm",
}


def parsed(words: Sequence[str]) -> argparse.Namespace:
    """The words of the command line."""
    parser = argparse.ArgumentParser(
        prog="differential",
        description="Draws cases, runs tml over them and compares what it answers with the reference. The program is that of TML, and that"
        " of TML_ROWS for tables of cases, or those that were built. The status is 1 where there is a difference.",
    )
    parser.add_argument("--version", action="version", version=f"%(prog)s {VERSION}")
    parser.add_argument("seconds", type=float, nargs="?", default=20.0, help="how long to go on (20)")
    parser.add_argument("seed", type=int, nargs="?", default=1, help="what decides the cases (1), but not their number")
    parser.add_argument("--count", type=int, help="how many cases to try, instead of a time")
    about = parser.add_mutually_exclusive_group()
    for subject, said_of_it in SUBJECTS.items():
        about.add_argument(f"--{subject}", dest="about", action="store_const", const=subject, help=f"only {said_of_it}")
    parser.add_argument("--processes", action="store_true", help="a process for each case, and no tables")
    asked = parser.add_mutually_exclusive_group()
    asked.add_argument("--library", type=Path, metavar="FILE", help="a library that is asked too (TML_LIBRARY, or the one that was built)")
    asked.add_argument("--module", type=Path, metavar="DIR", help="ask the module that tools/web/build made there, and no library")
    asked.add_argument("--no-library", action="store_true", help="ask no library")
    parser.add_argument("--keep", type=Path, help="the folder for differences (a new one)")
    parser.add_argument("--small", type=int, default=3, metavar="N", help="how many differences are reduced at once (3)")
    parser.add_argument("--reduce", type=Path, metavar="FOLDER", help="only reduce the difference that is kept in this folder")
    return parser.parse_args(words)


def said(difference: Difference) -> str:
    """A difference in lines."""
    case = difference.case
    parts = [f"difference ({case.subject}): {difference.said}", f"  words: {list(case.words)!r}"]
    for name, content in case.files.items():
        parts.append(f"  file {name!r}: {content!r}" if len(content) <= LONG else f"  file {name!r}: {len(content)} bytes")
    parts += [f"  {device!r}" for device in (case.memory, case.real) if device is not None]
    text = difference.outcome.text
    parts.append(f"  answered: {difference.outcome.status} {text if len(text) <= LONG else text[:LONG]!r}")
    return "\n".join(parts)


def report(trial: Trial, folder: Path, count: int) -> None:
    """Keeps and prints the differences; so many of them are made small."""
    for number, difference in enumerate(trial.tally.differences[:SHOWN]):
        keep(difference.case, folder / str(number))
        small = difference
        if number < count:
            case = reduced(difference.case, trial.differs, REDUCING_SECONDS)
            outcome = trial.outcome(case)
            small = Difference(case, outcome, trial.said(case, outcome) or difference.said)
            keep(case, folder / str(number) / "reduced")
        print(f"{said(small)}\n  kept in {folder / str(number)}", flush=True)


def reduce_kept(trial: Trial, folder: Path) -> int:
    """Reduces the difference that a folder keeps, and prints it."""
    case = kept(folder)
    if not trial.differs(case):
        print("no difference")
        return 0
    small = reduced(case, trial.differs, REDUCING_SECONDS * 2)
    keep(small, folder / "reduced")
    outcome = trial.outcome(small)
    print(f"{said(Difference(small, outcome, trial.said(small, outcome) or ''))}\n  kept in {folder / 'reduced'}")
    return 1


def go_on(trial: Trial, given: argparse.Namespace) -> None:
    """Tries batch after batch until the time is over or there are cases enough."""
    late = time.monotonic() + given.seconds
    for number, batch in enumerate(batches(trial, given.about)):
        if trial.tally.cases >= given.count if given.count is not None else time.monotonic() >= late:
            return
        batch(Random(f"{given.seed}/{number}"))


def libraries_of(given: argparse.Namespace) -> Libraries | None:
    """The library or module that is asked too; without one a line says so."""
    if given.module is not None:
        return Modules(str(given.module.absolute()))
    path = str(given.library.absolute()) if given.library is not None else library_path()
    if given.no_library:
        return None
    if path is None:
        print(f"no library is asked: build {BUILT_LIBRARY}, or name one by --library or TML_LIBRARY")
        return None
    return Libraries(path)


def print_tally(trial: Trial, seed: int, seconds: float) -> None:
    """Prints how many cases there were."""
    tally, asked = trial.tally, trial.libraries.asked if trial.libraries is not None else None
    print("; ".join(f"{subject} {number}" for subject, number in sorted(tally.subjects.items())))
    print("statuses: " + ", ".join(f"{number} of {status}" for status, number in sorted(tally.statuses.items())))
    if tally.not_asked:
        print(f"not asked of the {asked}: " + ", ".join(f"{number} for {reason}" for reason, number in sorted(tally.not_asked.items())))
    speed = tally.cases / max(seconds, 0.001)
    by_library = f", {tally.by_library} of them by the {asked} too" if asked is not None else ""
    print(f"{tally.cases} cases, {len(tally.differences)} differences, seed {seed}, {speed:.0f} cases a second{by_library}")


def tried(trial: Trial, given: argparse.Namespace) -> int:
    """Reduces a difference that was kept, or goes on until the end; the status is 1 where there is a difference."""
    if given.reduce is not None:
        return reduce_kept(trial, given.reduce)
    begun = time.monotonic()
    try:
        go_on(trial, given)
    except KeyboardInterrupt:
        print("interrupted")
    seconds = time.monotonic() - begun
    if trial.tally.differences:
        report(trial, given.keep or Path(tempfile.mkdtemp(prefix="differences-")), given.small)
    print_tally(trial, given.seed, seconds)
    return 1 if trial.tally.differences else 0


def main(words: Sequence[str] | None = None) -> int:
    """Runs the command; the status is 1 where there is a difference, and 2 where there is no program or a library cannot be loaded."""
    given = parsed(sys.argv[1:] if words is None else words)
    program, tables = program_path(), rows_path()
    if not os.access(program, os.X_OK):
        print(f"differential: no program {program}: build it as README.md says, or name one by TML=PROGRAM", file=sys.stderr)
        return 2
    has_rows = os.access(tables, os.X_OK) and not given.processes
    if not has_rows and not given.processes:
        print(f"no program {tables}: each case is a process, and cases of devices in memory are left out")
    if not reals.IS_THERE:
        print("no module z3: relations and clashes are not compared with it")
    try:
        libraries = libraries_of(given)
    except CannotRun as error:
        print(f"differential: {error}", file=sys.stderr)
        return 2
    with Programs(program) as programs, libraries or nullcontext():
        return tried(Trial(programs, Rows(tables) if has_rows else None, libraries), given)
