"""`tml-corpus serve`."""

from __future__ import annotations

from typing import NamedTuple

from ..command_line.run import Run
from ..serve.server import serve


class Options(NamedTuple):
    """What is asked of `serve`."""

    config: str | None
    tml: str | None


def command(run: Run, options: Options) -> int:
    """Answers an editor until it ends, and answers the status."""
    return serve(options.tml, options.config, run.stop.happened)
