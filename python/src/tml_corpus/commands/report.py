"""`tml-corpus report`."""

from __future__ import annotations

import sys
from typing import NamedTuple

from ..clash.report import ClashSummary, Wanted
from ..command_line.run import Run, print_each
from ..files.finding import Found, shown
from ..lint.kinds import chosen
from ..pages.report import Folder, Reported, reported_files, without_page


class Options(NamedTuple):
    """What is asked of `report`."""

    output: str
    more: int


def command(run: Run, options: Options) -> int:
    """Writes the pages about the files, and answers the status."""
    found, folder = run.files.search(), Folder(options.output)
    folder.prepare()
    wanted = Wanted(more=options.more, lint=chosen(run.settings.ignore, run.settings.warn), every_clash=False)
    summary = ClashSummary(len(found), checked=True, lint=True)

    def reported(_: Found, one: Reported) -> str:
        problem = one.report.judgement.problem
        text = f"{shown(one.entry.path)}: not judged: {shown(problem)}\n" if problem is not None else ""
        summary.add(one.report)
        return text

    print_each(found, reported_files(run, folder, found, wanted), reported, without_page)
    folder.write_index(len(found))
    sys.stdout.write(summary.text(run.is_interrupted()) + folder.last_line())
    return summary.status()
