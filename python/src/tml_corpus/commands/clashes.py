"""`tml-corpus clashes`, and what `tml-corpus check --clashes` prints."""

from __future__ import annotations

import sys
from typing import TYPE_CHECKING, NamedTuple

from ..clash.first import clash_reports, not_judged
from ..clash.formats import make_format
from ..clash.report import ClashReport, ClashSummary, Wanted
from ..command_line.run import Run, print_each, print_summary
from ..files.finding import Found
from ..files.replacing import make_folder

if TYPE_CHECKING:
    from ..check.baseline import Baseline

JSON = ("json", "jsonl")
"""The forms that have all that is known of a clash."""


class Options(NamedTuple):
    """What is asked of `clashes`."""

    evidence: str | None
    repair: bool
    format: str
    more: int
    touching: bool


def command(run: Run, options: Options) -> int:
    """Prints the links that contradict each other, and answers the status."""
    if options.evidence is not None:
        make_folder(options.evidence)
    every_clash = options.format in JSON or options.evidence is not None
    wanted = Wanted(options.evidence, options.touching, options.more, options.repair, every_clash=every_clash)
    return show_clashes(run, options.format, wanted)


def show_clashes(
    run: Run, form_name: str, wanted: Wanted, *, checked: bool = False, strict: bool = False, baseline: Baseline | None = None
) -> int:
    """Prints what is found in the files, and answers the status. `check --clashes` says which documents are accepted too."""
    found = run.files.search()
    form = make_format(form_name, wanted.explained, run.quiet, checked, strict)
    summary = ClashSummary(len(found), checked, read_touching=wanted.touching, lint=wanted.lint is not None)

    def reported(one: Found, report: ClashReport | None) -> str:
        if report is None:
            summary.add_plain()
            return form.plain(one.path)
        if baseline is not None:
            baseline.apply(report.judgement)
        text = form.file(report)
        summary.add(report)
        return text

    print_each(found, clash_reports(run, found, wanted), reported, not_judged)
    sys.stdout.write(form.end(summary))
    of_baseline = baseline.finish(run.is_interrupted()) if baseline is not None else ""
    print_summary(run, form.summary_apart, summary.text(run.is_interrupted()) + of_baseline)
    return summary.status(strict)
