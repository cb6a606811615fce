"""The picture of a clash: its walk as a ring of points, each no later than the next, and below it a line of words for each step."""

from __future__ import annotations

import math
from collections.abc import Sequence

from ..clash.walk_words import WalkStep
from ..document.words import Wording
from ..timeline.lettering import fitted, measured, plain
from .shapes import EDGE, GREY, LABEL, SKIP, SMALL, Box, Figure, Line, Point, Shape, Text

MOST = 12
"""How many steps a ring has at most; a table has more."""

COLUMNS = (0.0, 0.34, 0.5)
"""Where the columns of a table begin, in parts of its width: a point, whether it is before the one in the next row, and why."""


def figure_of(title: str, wording: Wording, steps: Sequence[WalkStep], width: float, *, has_words: bool = True) -> Figure:
    """The picture of the steps of a walk, which ends where it began; perhaps without its words."""
    figure = Figure(width, f"Clash of {plain(title)}", height=EDGE)
    is_ring = len(steps) <= MOST
    if is_ring:
        put_ring(figure, wording, steps, width)
    if has_words:
        figure.height += 8
        (put_lines if is_ring else put_table)(figure, wording, steps)
        closing = f"So the {point_in_words(wording, steps[0].first)} would be before itself."
        closed = figure.write(EDGE, figure.height, closing + " Solid: before; dashed: no later than." * is_ring, size=SMALL)
        figure.height = closed - SMALL - SKIP + 4
        figure.said = " ".join([*(f"{number}. {sentence(wording, step)}." for number, step in enumerate(steps, 1)), closing])
    return figure


def put_ring(figure: Figure, wording: Wording, steps: Sequence[WalkStep], width: float) -> None:
    """The points of a walk with their words, and its steps as arrows."""
    radius = min(max(34.0, len(steps) * 15 / (2 * math.pi)), width / 2 - 60)
    centre = (width / 2, EDGE + radius + 14)
    points = [at(centre, radius, number / len(steps)) for number in range(len(steps))]
    for number, step in enumerate(steps):
        figure.shapes += arrow(centre, radius, number, len(steps), step.strict)
    figure.shapes += [Box(x - 2.2, y - 2.2, 4.4, 4.4, "known", 2.2) for x, y in points]
    figure.shapes += [named(point_in_words(wording, step.first), centre, point, width) for step, point in zip(steps, points, strict=True)]
    figure.height = centre[1] + radius + 14


def at(centre: Point, radius: float, turn: float) -> Point:
    """A place on a ring, by the part of a turn from the top on, clockwise."""
    angle = 2 * math.pi * turn - math.pi / 2
    return centre[0] + radius * math.cos(angle), centre[1] + radius * math.sin(angle)


def arrow(centre: Point, radius: float, number: int, count: int, strict: bool) -> list[Shape]:
    """The arrow of a step: thick where a point is before the next one, dashed where it is no later; with the number of the step."""
    margin = min(4.5 / (2 * math.pi * radius), 0.2 / count)
    begin, end = number / count + margin, (number + 1) / count - margin
    bend = (end - begin) * 2 * math.pi * radius / 3
    start, stop = at(centre, radius, begin), at(centre, radius, end)
    controls = (along(centre, start, bend), along(centre, stop, -bend))
    line = Line((start, *controls, stop), 1.4 if strict else 0.7, dashed=not strict, bent=True, arrow=True)
    x, y = at(centre, radius - 9, (begin + end) / 2)
    return [line, Text(x, y + 2.3, str(number + 1), SMALL, "middle", bold=True)]


def along(centre: Point, point: Point, length: float) -> Point:
    """A point so far along the ring's tangent."""
    far = math.dist(centre, point)
    x, y = (point[0] - centre[0]) / far, (point[1] - centre[1]) / far
    return point[0] - y * length, point[1] + x * length


def named(text: str, centre: Point, point: Point, width: float) -> Text:
    """The words of a point outside of its ring."""
    x, y = point
    if abs(x - centre[0]) < 1:
        return Text(x, y - 6 if y < centre[1] else y + 10.5, fitted(text, width - 2 * EDGE, LABEL), LABEL, "middle", halo=True)
    away, free = (6, width - x) if x > centre[0] else (-6, x)
    return Text(x + away, y + 2.3, fitted(text, free - EDGE - 6, LABEL), LABEL, "start" if away > 0 else "end", halo=True)


def point_in_words(wording: Wording, point: int) -> str:
    """The start or the end of an interval, by its text."""
    return f"{'end' if point % 2 else 'start'} of {plain(wording.text_of(wording.intervals[point // 2]))}"


def put_lines(figure: Figure, wording: Wording, steps: Sequence[WalkStep]) -> None:
    """A line of words for each step."""
    begin = EDGE + measured("00 ", LABEL)
    for number, step in enumerate(steps, 1):
        figure.shapes.append(Text(begin - 3, figure.height, str(number), LABEL, "end", bold=True))
        figure.height = figure.write(begin, figure.height, sentence(wording, step)) + 1.5


def put_table(figure: Figure, wording: Wording, steps: Sequence[WalkStep]) -> None:
    """A row for each step: the point, how it is to the point of the next row, and why."""
    begin, end = EDGE + measured(f"{len(steps)} ", LABEL), figure.width - EDGE
    lefts = [begin + part * (end - begin) for part in COLUMNS]
    for number, step in enumerate(steps, 1):
        figure.shapes.append(Text(begin - 3, figure.height, str(number), LABEL, "end", bold=True))
        cells = zip((point_in_words(wording, step.first), verb(step), plain(step.reason)), lefts, (*lefts[1:], figure.width), strict=True)
        figure.height = max(figure.write(left, figure.height, cell, right - EDGE) for cell, left, right in cells) + 2
        y = figure.height - LABEL - 2.5
        figure.shapes.append(Line(((EDGE, y), (end, y)), 0.25, GREY))


def verb(step: WalkStep) -> str:
    """How the first point of a step is to the second one."""
    return "is before" if step.strict else "is no later than"


def sentence(wording: Wording, step: WalkStep) -> str:
    """A step in words, without a full stop."""
    return f"{point_in_words(wording, step.first)} {verb(step)} {point_in_words(wording, step.second)}, {plain(step.reason)}"
