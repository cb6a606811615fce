"""`tml-corpus agree`."""

from __future__ import annotations

import sys
from functools import partial
from typing import NamedTuple

from ..agreement.agree import PairReport, Wanted, find_pairs, not_compared, pair_reports, sides_of
from ..agreement.formats import Summary, make_format, printed
from ..asking.program import CannotRun
from ..command_line.run import Run, print_each, print_summary
from ..files.finding import Found


class Options(NamedTuple):
    """What is asked of `agree`."""

    document: str
    key: str
    links: bool
    format: str
    touching: bool


def command(run: Run, options: Options) -> int:
    """Prints how far the links of two annotations agree, and answers the status."""
    if options.links and options.format == "csv":
        raise CannotRun("--links goes with --format text, json or jsonl")
    sides, form, summary = sides_of(options.document, options.key), make_format(options.format), Summary()
    pairs, wanted = find_pairs(sides, run.files.patterns), Wanted(options.links, options.touching)

    def reported(_: Found, report: PairReport) -> str:
        text = printed(form, report)
        summary.add(report)
        return text

    sys.stdout.write(form.start())
    print_each(pairs.found, pair_reports(run, sides, pairs.found, wanted), reported, partial(not_compared, sides))
    for one in pairs.not_counted:
        summary.leave_out(one)
        sys.stdout.write(form.not_counted(one))
    sys.stdout.write(form.sums(summary.corpus))
    print_summary(run, form.summary_apart, summary.text(run.is_interrupted()))
    return summary.status()
