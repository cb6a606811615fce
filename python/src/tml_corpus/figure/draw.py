"""A picture as a file: its forms, how broad it can be, and how closely its bars are set if it has to go on a page."""

from __future__ import annotations

import re
from collections.abc import Callable
from dataclasses import dataclass

from .of_timeline import CLOSE, PITCH
from .shapes import Figure

UNITS = {"mm": 72 / 25.4, "cm": 720 / 25.4, "in": 72.0, "pt": 72 / 72.27, "bp": 1.0}
PAGE = 257 * UNITS["mm"]
"""How high a picture on a page of A4 can be."""

NARROWEST, BROADEST = 40 * UNITS["mm"], 1000 * UNITS["mm"]
WIDTH = re.compile(r"([0-9]{1,4}(?:\.[0-9]{1,3})?)(mm|cm|in|pt|bp)")


def width_of(text: str) -> float:
    """A width in points of 1/72 inch, as `84mm`; what is none, or would be too narrow or broad, is refused."""
    found = WIDTH.fullmatch(text)
    width = float(found[1]) * UNITS[found[2]] if found else 0.0
    if not NARROWEST <= width <= BROADEST:
        raise ValueError(f"{text} is not a width from 40mm to 1000mm, in mm, cm, in, pt or bp")
    return width


FORMS = (".svg", ".pdf", ".tex")
"""The forms, by the end of the file's name."""


@dataclass(frozen=True)
class Paper:
    """The form in which a picture is wanted, its width in points, and whether it is for a screen: of twice the size, and with titles."""

    form: str
    width: float
    is_for_screen: bool = False


SCREEN = Paper(".svg", 600.0, is_for_screen=True)
NARROW = 190.0
"""The width of a picture for a window that is too narrow for that of `SCREEN`, in points."""


def on_pages(drawn: Callable[[float], Figure]) -> Figure:
    """A picture whose lanes are as far apart as half a page of A4 allows, or else a whole one, within limits."""
    loose = drawn(PITCH)
    if loose.height <= PAGE / 2:
        return loose
    close = drawn(CLOSE)
    for most in (PAGE / 2, PAGE):
        if close.height <= most <= loose.height:
            # Half a point is left, so that no rounding makes it more than the page has.
            return drawn(CLOSE + (PITCH - CLOSE) * (most - 0.5 - close.height) / (loose.height - close.height))
    return loose if loose.height <= PAGE else close


def written(figure: Figure, paper: Paper) -> bytes:
    """A picture as a file."""
    if paper.form == ".pdf":
        from .pdf_form import pdf

        return pdf(figure)
    if paper.form == ".tex":
        from .tikz_form import tikz

        return tikz(figure).encode("utf-8")
    from .svg_form import svg

    return svg(figure, paper.is_for_screen).encode("utf-8")
