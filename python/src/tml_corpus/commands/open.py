"""`tml-corpus open`."""

from __future__ import annotations

import os
from typing import NamedTuple

from ..command_line.run import Run
from ..files.finding import Found, find_files
from ..matrix.show_open import Bounds, show_open, show_open_of_all


class Options(NamedTuple):
    """What is asked of `open`."""

    document: str
    pairs: int
    limit: int
    touching: bool


def command(run: Run, options: Options) -> int:
    """Prints the open pairs of a document, or of each one of a folder, and answers the status."""
    bounds = Bounds(options.pairs, options.limit)
    if os.path.isdir(options.document):
        found = find_files([options.document], run.files.patterns)
        return show_open_of_all(run.program, found, bounds, options.touching, run.in_order, run.stop)
    return show_open(run.program, Found(options.document), bounds, options.touching, run.in_order, run.stop)
