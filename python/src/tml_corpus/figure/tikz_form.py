"""A picture for a paper as TeX: a document of its own that draws with TikZ, and loads no other file."""

from __future__ import annotations

from .shapes import BLACK, GREY, Box, Figure, Line, Point, Shape, Text
from .svg_form import two

HEAD = r"""% Made by tml-corpus timeline --bare. Compile it alone, or take the tikzpicture into a document with the same packages.
% LuaLaTeX has letters beyond those of Europe, where its font has them.
\documentclass[border=0pt]{standalone}
\usepackage{iftex}
\ifPDFTeX\usepackage[utf8]{inputenc}\usepackage[T1]{fontenc}\IfFileExists{lmodern.sty}{\usepackage{lmodern}}{}\else\usepackage{fontspec}\fi
\usepackage{tikz}
\usetikzlibrary{patterns}
"""

SIGNS = {
    "\\": r"\textbackslash{}",
    "{": r"\{",
    "}": r"\}",
    "$": r"\$",
    "&": r"\&",
    "#": r"\#",
    "^": r"\textasciicircum{}",
    "_": r"\_",
    "~": r"\textasciitilde{}",
    "%": r"\%",
    "<": r"\textless{}",
    ">": r"\textgreater{}",
    "|": r"\textbar{}",
    '"': r"\textquotedbl{}",
    "\u2026": r"\ldots{}",
    "\u2264": r"$\leq$",
    "\u2192": r"$\rightarrow$",
    "\u2013": "--",
    "`": r"\textasciigrave{}",
    "-": "{-}",
}
"""The signs that mean something in TeX, and those that its fonts lack."""

PATTERNS = {"lines": "horizontal lines", "strokes": "north east lines", "dots": "dots"}
ANCHORS = {"start": "base west", "middle": "base", "end": "base east"}


def tikz(figure: Figure) -> str:
    """The picture as a file."""
    colours = {one.colour() if isinstance(one, Box) else one.colour for one in figure.shapes} | {BLACK, GREY, "#FFFFFF"}
    named = [f"\\definecolor{{{name_of(colour)}}}{{HTML}}{{{colour[1:]}}}" for colour in sorted(colours)]
    size = f"\\useasboundingbox (0,0) rectangle ({two(figure.width)},{two(figure.height)});"
    lines = [*named, r"\begin{document}", r"\begin{tikzpicture}[x=1bp,y=-1bp,line cap=butt]", size]
    lines += [one for shape in figure.shapes for one in drawn(shape)]
    return HEAD + "\n".join([*lines, r"\end{tikzpicture}", r"\end{document}"]) + "\n"


def name_of(colour: str) -> str:
    """The name of a colour in the file."""
    return f"c{colour[1:].upper()}"


def drawn(shape: Shape) -> list[str]:
    """A shape as commands."""
    if isinstance(shape, Box):
        return drawn_box(shape)
    return [drawn_line(shape) if isinstance(shape, Line) else drawn_text(shape)]


def drawn_box(box: Box) -> list[str]:
    """A rectangle: its filling, its texture, and its frame."""
    colour, texture = box.colour(), box.texture()
    corners = f"({two(box.x)},{two(box.y)}) rectangle ({two(box.x + box.width)},{two(box.y + box.height)})"
    shape = f"rounded corners={two(box.round)}bp," if box.round else ""
    ink = name_of("#FFFFFF")
    parts = [f"\\fill[{shape}{name_of(colour)}] {corners};"]
    parts += [f"\\fill[{shape}pattern={PATTERNS[texture]},pattern color={ink}] {corners};"] if texture else []
    if not any(box.is_open):
        return [*parts, f"\\draw[{shape}{name_of(GREY if box.hollow else BLACK)},line width=0.5bp] {corners};"]
    way = "  ".join(" -- ".join(map(placed, line)) for line in box.frame())
    return [*parts, f"\\draw[{name_of(GREY)},line width=0.5bp] {way};"]


def placed(point: Point) -> str:
    """A point as TikZ has it."""
    return f"({two(point[0])},{two(point[1])})"


def drawn_line(line: Line) -> str:
    """A line, with a head or a dot at its end."""
    first, *others = map(placed, line.way)
    way = f"{first} .. controls {others[0]} and {others[1]} .. {others[2]}" if line.bent else " -- ".join([first, *others])
    words = [name_of(line.colour), f"line width={two(line.width)}bp"]
    words += ["dash pattern=on 1.6bp off 1.2bp"] if line.dashed else []
    words += ["-stealth"] if line.arrow else []
    return f"\\draw[{','.join(words)}] {way};"


def drawn_text(text: Text) -> str:
    """A text, on white where it has a halo."""
    series = f"{chr(92) + 'bfseries' if text.bold else ''}{chr(92) + 'itshape' if text.slanted else ''}"
    font = f"\\fontsize{{{two(text.size)}bp}}{{{two(text.size * 1.2)}bp}}\\selectfont\\sffamily{series}"
    halo = ",fill=cFFFFFF" if text.halo else ""
    words = f"anchor={ANCHORS[text.anchor]},inner sep={'1bp' if text.halo else '0bp'},text={name_of(text.colour)}{halo},font={font}"
    return f"\\node[{words}] at {placed((text.x, text.y))} {{{escaped(text.text)}}};"


def escaped(text: str) -> str:
    """A text in which no letter means anything to TeX."""
    return "".join(SIGNS.get(letter, letter) for letter in text)
