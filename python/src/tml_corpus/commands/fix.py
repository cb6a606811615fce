"""`tml-corpus fix`."""

from __future__ import annotations

import sys
from collections import Counter
from functools import partial
from typing import NamedTuple

from ..check.fix import FixReport, fix, not_fixed
from ..command_line.run import Run, print_each
from ..command_line.statuses import Status
from ..files.finding import Found, counted


class Options(NamedTuple):
    """What is asked of `fix`."""

    write: bool
    unsafe: bool
    encoding: str | None


def command(run: Run, options: Options) -> int:
    """Prints or writes what is certain, or with `--unsafe` probable, and answers the status."""
    found = run.files.search()
    reports: Counter[str] = Counter()

    def reported(_: Found, report: FixReport) -> str:
        reports["changed"] += report.changed
        reports["left"] += report.left
        reports["question"] += report.question
        reports["problem"] += report.problem
        return report.text

    work = partial(fix, run.program, writes=options.write, unsafe=options.unsafe, encoding=options.encoding)
    print_each(found, run.each(work, found, not_fixed), reported, not_fixed)
    changed, left, problems = reports["changed"], reports["left"], reports["problem"]
    done = "fixed" if options.write else "can be fixed (--write does it)"
    questions = f" ({counted(reports['question'], 'question')})" if reports["question"] else ""
    sys.stdout.write(f"{counted(len(found), 'file')}: {changed} {done}, {left} still faulty{questions}, {problems} skipped\n")
    if run.is_interrupted():
        sys.stdout.write("interrupted: not all files were looked at\n")
    return Status.TROUBLE if problems else Status.FINDING if left or (changed and not options.write) else Status.SUCCESS
