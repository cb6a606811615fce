"""`tml-corpus timeline`."""

from __future__ import annotations

import signal
import sys
from functools import partial
from typing import NamedTuple

from tml.attempts import attempted

from ..asking.program import CannotRun
from ..clash.fitting import not_judged
from ..command_line.run import Run
from ..figure.draw import FORMS, SCREEN, Paper, width_of
from ..timeline.timeline import STANDARD_OUTPUT, Choices, draw, draw_placing, form_of, undrawn, write_picture

COLUMN = "84mm"
"""How broad a picture for a paper is, unless another width is asked for: a column of a page with two of them."""


class Options(NamedTuple):
    """What is asked of `timeline`."""

    document: str
    output: str
    touching: bool
    seconds: bool
    asserted: bool
    text_order: bool
    bare: bool
    width: float | None
    rows: str | None
    around: str | None
    between: list[str] | None
    context: bool


def command(run: Run, options: Options) -> int:
    """Draws the timeline of a document, and answers the status. An interruption ends it at once: there is nothing else to report."""
    signal.signal(signal.SIGINT, signal.default_int_handler)
    if run.is_interrupted():
        raise KeyboardInterrupt
    choices = Choices(
        touching=options.touching,
        asserted=options.asserted,
        in_text_order=options.text_order,
        rows=tuple(name for name in (options.rows or "").split(",") if name),
        around=options.around or "",
        between=tuple(options.between or ()),
        context=options.context,
        paper=paper_of(options),
    )
    work = partial(draw_placing if options.seconds else draw, run.program, target=options.output, choices=choices)
    drawn = attempted(work, options.document, lambda path, problem: undrawn(not_judged(path, problem)))
    if drawn.picture is not None:
        write_picture(options.output, drawn.picture)
    (sys.stderr if options.output == STANDARD_OUTPUT else sys.stdout).write(drawn.text)
    return drawn.status


def paper_of(options: Options) -> Paper:
    """What the picture is for; what does not go together is refused."""
    form = form_of(options.output)
    if not options.bare:
        if options.width is not None:
            raise CannotRun("--width goes with --bare")
        if form in (".pdf", ".tex"):
            raise CannotRun(f"a picture in {form} is one for a paper: add --bare")
        return SCREEN
    if form not in FORMS:
        raise CannotRun("--bare draws .svg, .pdf or .tex")
    if options.seconds or options.text_order:
        raise CannotRun("--bare goes neither with --seconds nor with --text-order")
    return Paper(form, options.width if options.width is not None else width_of(COLUMN))
