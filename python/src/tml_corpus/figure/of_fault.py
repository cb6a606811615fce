"""The picture of a fault: the line of the document that has it, with a box around what is at fault, and below it the sentence on it."""

from __future__ import annotations

from tml.places import Places

from ..check.placed import Mark, PlacedFault
from ..timeline.lettering import fitted, measured, plain
from .shapes import EDGE, LABEL, Box, Figure, Text

PAD = 2.0
"""How far the box is from what is in it, and from what is next to it."""

MOST = 0.6
"""How much of the width the stretch in the box takes at most."""


def figure_of(title: str, document: bytes, fault: PlacedFault, width: float) -> Figure:
    """The picture of the place of a fault."""
    figure = Figure(width, f"Fault of {plain(title)}")
    y = EDGE + LABEL + PAD
    put_source(figure, *parts_of(document, fault.mark), y)
    figure.said = f"Line {fault.mark.start.line}, column {fault.mark.start.column}: {fault.fault.name}: {plain(fault.text)}"
    figure.height = figure.write(EDGE, y + PAD + 2 * LABEL + EDGE, figure.said)
    return figure


def parts_of(document: bytes, mark: Mark) -> tuple[str, str, str]:
    """The line in which a stretch begins, or what is near of a long one: before the stretch, as much of it as is there, and after it."""
    line, column = Places(document).excerpt(mark.start)
    end = column + mark.end.column - mark.start.column if mark.end.line == mark.start.line else len(line) + 1
    return spaced(line[: column - 1]), spaced(line[column - 1 : max(end, column + 1) - 1]), spaced(line[max(end, column + 1) - 1 :])


def spaced(part: str) -> str:
    """A part of a line, with the white space at its ends as single spaces."""
    return f"{' ' * part[:1].isspace()}{plain(part)}{' ' * part[-1:].isspace()}" if part.strip() else " " * (part != "")


def put_source(figure: Figure, before: str, stretch: str, after: str, y: float) -> None:
    """A line of the source with a box around a stretch, cut at both ends if it is too long."""
    stretch = fitted(stretch, MOST * figure.width, LABEL)
    room, broad = figure.width - 2 * EDGE, measured(stretch, LABEL) + 2 * PAD
    behind = min(measured(after, LABEL) + PAD, max((room - broad) / 2, room - broad - measured(before, LABEL) - PAD))
    before = fitted(before[::-1], room - broad - behind - PAD, LABEL)[::-1]
    x = EDGE + measured(before, LABEL) + PAD
    figure.shapes += [
        Box(x, y - LABEL - PAD + 1, broad, LABEL + 2 * PAD, "exact", 1.5),
        Text(x - PAD, y, before, LABEL, "end"),
        Text(x + broad / 2, y, stretch, LABEL, "middle", bold=True),
        Text(x + broad + PAD, y, fitted(after, behind - PAD, LABEL), LABEL),
    ]
