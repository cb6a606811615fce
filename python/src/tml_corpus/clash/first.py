"""The first question about the clashes of a file. Some timeline fits most documents, and then nothing else is loaded or looked at."""

from __future__ import annotations

from collections.abc import Iterator, Sequence
from functools import partial
from typing import TYPE_CHECKING

from ..asking.program import Program
from ..asking.room import room_for
from ..check.judgement import Judgement
from ..files.finding import Found, read_document
from .clashes import is_timeline
from .report import ClashReport, Wanted

if TYPE_CHECKING:
    from ..command_line.run import Run


def find_clashes(program: Program, found: Found, wanted: Wanted) -> ClashReport:
    """Asks about the fault and the clashes of one file. It is read once, and `tml solve` is asked first, which tells a fault too."""
    document = read_document(found.place())
    reply = program.ask(["solve", "-"], document)
    fits = is_timeline(reply)
    if fits and wanted.lint is None:
        return ClashReport(Judgement(found.path))
    from .search import report_of, report_of_fitting

    with room_for(document):
        if fits:
            return report_of_fitting(program, found, document, wanted)
        return report_of(program, found, document, wanted, reply)


def not_judged(found: Found, problem: str) -> ClashReport:
    """The report on a file with which something went wrong."""
    return ClashReport(Judgement(found.path, problem=problem))


def clashes_to_send(program: Program, found: Found, wanted: Wanted) -> ClashReport | None:
    """The report on a file, as a process sends it: nothing where some timeline fits it and there is nothing to say of it."""
    report = find_clashes(program, found, wanted)
    return None if report.is_plain() else report


def clash_reports(run: Run, found: Sequence[Found], wanted: Wanted) -> Iterator[ClashReport | None]:
    """The reports on some files in their order; of one that some timeline fits, and of which there is nothing to say, None."""
    return run.each(partial(clashes_to_send, run.program, wanted=wanted), found, not_judged)
