"""`tml-corpus check`."""

from __future__ import annotations

import sys
from collections.abc import Sequence
from typing import TYPE_CHECKING, NamedTuple

from ..asking.program import CannotRun
from ..check.first import judgements, not_judged
from ..check.formats import Summary, make_format
from ..check.judgement import Judgement
from ..command_line.run import Run, print_each, print_summary
from ..files.finding import Found
from ..lint.kinds import chosen

if TYPE_CHECKING:
    from ..check.baseline import Baseline


class Options(NamedTuple):
    """What is asked of `check`."""

    explain: bool
    clashes: bool
    lint: bool
    ignore: Sequence[str]
    warn: Sequence[str]
    strict: bool
    baseline: str | None
    write_baseline: bool
    format: str
    more: int
    touching: bool


def command(run: Run, options: Options) -> int:
    """Prints the faults of the files, and answers the status."""
    settings = run.settings
    lint = chosen((*settings.ignore, *options.ignore), (*settings.warn, *options.warn)) if options.lint else None
    baseline = baseline_of(options)
    if options.clashes:
        from ..clash.report import Wanted
        from .clashes import JSON, show_clashes

        every_clash = options.format in JSON
        wanted = Wanted(touching=options.touching, more=options.more, explained=options.explain, lint=lint, every_clash=every_clash)
        return show_clashes(run, options.format, wanted, checked=True, strict=options.strict, baseline=baseline)
    if options.touching:
        raise CannotRun("--touching is about clashes: give --clashes too")
    found = run.files.search()
    form, summary = make_format(options.format, options.explain, options.strict), Summary(len(found), lint=options.lint)

    def reported(one: Found, judgement: Judgement | None) -> str:
        if judgement is None:
            summary.add_plain()
            return form.plain(one.path)
        if baseline is not None:
            baseline.apply(judgement)
        text = form.file(judgement)
        summary.add(judgement)
        return text

    print_each(found, judgements(run, found, options.explain, options.more, lint), reported, not_judged)
    sys.stdout.write(form.end(summary))
    of_baseline = baseline.finish(run.is_interrupted()) if baseline is not None else ""
    print_summary(run, form.summary_apart, summary.text(run.is_interrupted()) + of_baseline)
    return summary.status(options.strict)


def baseline_of(options: Options) -> Baseline | None:
    """The baseline that is read, or that is to be written."""
    if options.write_baseline and options.baseline is None:
        raise CannotRun("--write-baseline needs --baseline FILE")
    if options.write_baseline and not options.lint:
        raise CannotRun("--write-baseline needs --lint, without which there are no warnings")
    if options.baseline is None:
        return None
    from ..check.baseline import NewBaseline, read_baseline

    return NewBaseline(options.baseline) if options.write_baseline else read_baseline(options.baseline)
