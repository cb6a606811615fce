"""The picture of a placing in whole seconds: bars in lanes over an axis of time that is true to scale."""

from __future__ import annotations

from collections.abc import Mapping

from ..seconds.placed import PlacedInterval
from ..timeline.axis import extent
from ..timeline.lettering import measured, plain
from ..timeline.rows import Timeline
from ..timeline.scaled import Seconds
from .of_timeline import LIGHT, Drawing, kinds_in, put_bars, put_items, put_list
from .shapes import EDGE, LABEL, SMALL, Figure, Line, Text

CAPTION = (
    "An axis of time in whole seconds. Bars are where tml seconds placed them and tml confirm confirmed it: all links, dates and lengths "
    "are met. If an interval can start earlier or end later its bar is hollow, as far as that goes; it is open at a side without a limit."
)


def figure_of(timeline: Timeline, placed: Mapping[int, PlacedInterval], width: float, one_each: bool) -> Figure:
    """The picture in a width, perhaps with a lane for each bar."""
    every = timeline.by_number()
    rows = {number: row for number, row in every.items() if row.is_tied}
    edges = extent([second for number in rows for second in (placed[number].start, placed[number].end)] or [0])
    axis = Seconds(*edges, EDGE, width - EDGE)
    drawing = Drawing(timeline, width, [], {number: axis.extent(placed[number]) for number in rows}, rows, True)
    top = EDGE + LABEL + 4
    bottom = put_bars(drawing, top, one_each)
    figure = Figure(width, f"Placing of {plain(timeline.title)}", axis=top)
    for x, text in axis.marks() if rows else []:
        begin = min(x - measured(text, SMALL) / 2, axis.right - measured(text, SMALL))
        figure.shapes += [Line(((x, top), (x, bottom)), 0.5, LIGHT), Text(max(begin, EDGE), top - 3, text, SMALL)]
    figure.shapes += [*drawing.behind, *drawing.front]
    y = put_items(figure, kinds_in(figure), put_list(figure, drawing, every, bottom) + 6)
    figure.height = figure.write(EDGE, y + 9.5, CAPTION, size=SMALL)
    return figure
