"""`tml-corpus tags`."""

from __future__ import annotations

import sys
from functools import partial
from typing import NamedTuple

from ..check.tags import MOST_NAMES, Names, Table, is_known, names_in, skipped
from ..command_line.run import Run, print_each
from ..command_line.statuses import Status
from ..files.finding import Found, counted, shown


class Options(NamedTuple):
    """Of `tags` nothing is asked besides the files."""


def command(run: Run, options: Options) -> int:
    """Prints how often each tag stands in the files, and which of them `tml` does not know, and answers the status."""
    found = run.files.search()
    table, problems = Table(), 0

    def reported(_: Found, names: Names) -> str:
        nonlocal problems
        remark = f"skipped: {names.problem}" if names.problem else names.remark
        text = f"{shown(names.path)}: {shown(remark)}\n" if remark else ""
        table.add(names)
        problems += names.problem is not None
        return text

    print_each(found, run.each(partial(names_in, run.program), found, skipped), reported, skipped)
    asked = table.names()[:MOST_NAMES]
    answers = run.in_order(partial(is_known, run.program), asked, stop=run.stop, failed=lambda _, problem: f"not asked: {problem}")
    known = dict(zip(asked, answers, strict=False))
    sys.stdout.write(table.text(known))
    unknown = list(known.values()).count(False)
    sys.stdout.write(f"{counted(len(found), 'file')}: {counted(len(table.counts), 'name')} of tags, {unknown} unknown to tml; ")
    sys.stdout.write(f"{problems} skipped\n")
    if run.is_interrupted():
        sys.stdout.write("interrupted: not all files were looked at\n")
    problems += sum(isinstance(one, str) for one in known.values())
    return Status.TROUBLE if problems else Status.FINDING if unknown else Status.SUCCESS
