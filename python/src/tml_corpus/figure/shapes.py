"""What a picture is made of, before it is SVG or TeX. All lengths are in points of 1/72 inch; heights grow downwards."""

from __future__ import annotations

from dataclasses import dataclass, field

from ..timeline.lettering import in_lines

LABEL, SMALL = 6.5, 6.0
"""The sizes of letters."""

EDGE, SKIP = 3.0, 2.2
"""What is free at the edges of a picture, and between two lines of text."""

BLACK, GREY = "#000000", "#595959"

FILLINGS = {
    "event": ("#56B4E9", ""),
    "unasserted": ("#D0D0D0", "lines"),
    "exact": ("#F0E442", ""),
    "within": ("#E69F00", "strokes"),
    "free": ("#CC79A7", "dots"),
    "known": ("#009E73", ""),
}
"""The colours of Okabe and Ito, which those who see few colours tell apart, and a texture for each that grey does not."""

PALE = {"event": "#E0F1FB", "unasserted": "#F0F0F0", "within": "#FBEBCC", "free": "#F7E8F0"}
"""The colours of bars that are hollow."""

Point = tuple[float, float]


@dataclass(frozen=True)
class Box:
    """A rectangle with a frame, perhaps with round ends."""

    x: float
    y: float
    width: float
    height: float
    filling: str
    round: float = 0.0
    hollow: bool = False
    is_open: tuple[bool, bool] = (False, False)
    """Whether its frame has no left and no right side."""

    name: str = ""
    """The identifier of the interval of which it is a part."""

    said: str = ""
    """What is known of that, in lines."""

    def colour(self) -> str:
        """The colour of its filling."""
        return PALE[self.filling] if self.hollow else FILLINGS[self.filling][0]

    def texture(self) -> str:
        """The texture of its filling, if it has one."""
        return "" if self.hollow else FILLINGS[self.filling][1]

    def frame(self) -> list[list[Point]]:
        """The lines of its frame, which has no side where it is open."""
        left, right, bottom = self.x, self.x + self.width, self.y + self.height
        above, below = [(right, self.y), (left, self.y)], [(left, bottom), (right, bottom)]
        below += [] if self.is_open[1] else [(right, self.y)]
        return [above, below] if self.is_open[0] else [above + below]


@dataclass(frozen=True)
class Line:
    """A line through points, or where it is bent a curve from the first to the last by two points that bend it."""

    way: tuple[Point, ...]
    width: float = 0.6
    colour: str = BLACK
    dashed: bool = False
    bent: bool = False
    arrow: bool = False
    kind: str = ""
    """What it means, as a class of SVG."""

    points: str = ""
    """The points of a place of the axis."""


@dataclass(frozen=True)
class Text:
    """A text on a line."""

    x: float
    y: float
    text: str
    size: float = LABEL
    anchor: str = "start"
    bold: bool = False
    slanted: bool = False
    colour: str = BLACK
    halo: bool = False
    own: bool = False
    """Whether it goes in the direction of its first letter, be it from right to left."""

    name: str = ""
    """The identifier of the interval that is listed here."""


Shape = Box | Line | Text


@dataclass
class Figure:
    """A picture: its width, what it shows in words, its shapes from the lowest on, and how far down they reach."""

    width: float
    title: str
    shapes: list[Shape] = field(default_factory=list)
    height: float = 0.0
    said: str = ""
    """The same in sentences."""

    axis: float = 0.0
    """How far down the dates reach, which stay in sight if what is below them is scrolled."""

    def write(self, x: float, y: float, text: str, right: float = 0.0, *, size: float = LABEL, bold: bool = False, name: str = "") -> float:
        """Writes a text in lines from a height on, up to the right edge or another one. Answers where the next line goes."""
        for line in in_lines(text, (right or self.width - EDGE) - x, size):
            self.shapes.append(Text(x, y, line, size, bold=bold, name=name))
            y += size + SKIP
        return y
