"""A picture for a paper as SVG."""

from __future__ import annotations

from tml.markup import Markup, element, lined, svg_file

from ..timeline.lettering import is_turned
from .shapes import BLACK, GREY, Box, Figure, Line, Shape, Text

FONT = "Helvetica,Arial,'Liberation Sans',sans-serif"
POINTS_OF_MILLIMETRE = 72 / 25.4
HALO = {"fill": "none", "stroke": "#ffffff", "stroke_width": "2", "stroke_linejoin": "round"}
"""The rim of letters."""


def svg(figure: Figure, is_for_screen: bool = False) -> str:
    """The picture as a file, as broad on paper as it was asked for, or for a screen."""
    return svg_file(on_screen(figure) if is_for_screen else drawing(figure))


def on_screen(figure: Figure) -> Markup:
    """The picture as an element for a screen, of twice the size."""
    return drawing(figure, width=two(2 * figure.width), height=two(2 * figure.height), style="background:#fff")


def drawing(figure: Figure, prefix: str = "box", **size: str) -> Markup:
    """The picture as an element. What it refers to has names with a prefix, which tells it from that of other pictures."""
    broad, high = two(figure.width), two(figure.height)
    said = element("desc", figure.said) if figure.said else None
    shapes = (drawn(shape, f"{prefix}{number}") for number, shape in enumerate(figure.shapes))
    content = lined(element("title", figure.title), said, *shapes)
    size = size or {key: f"{length / POINTS_OF_MILLIMETRE:.2f}mm" for key, length in (("width", figure.width), ("height", figure.height))}
    shared = {"viewBox": f"0 0 {broad} {high}", "role": "img", "font_family": FONT}
    return element("svg", "\n", content, **size, **shared)


def drawn(shape: Shape, name: str) -> Markup:
    """A shape as an element. A name tells it from others."""
    if isinstance(shape, Box):
        return drawn_box(shape, name)
    return drawn_line(shape) if isinstance(shape, Line) else drawn_text(shape)


def drawn_text(text: Text) -> Markup:
    """A text, over its halo where it has one: not every program that reads SVG knows `paint-order`."""
    anchor = None if text.anchor == "start" else text.anchor
    letters = {"x": two(text.x), "y": two(text.y), "text_anchor": anchor}
    letters |= {"font_size": two(text.size), "font_weight": "bold" if text.bold else None}
    letters |= {"class_": "listed" if text.name else None, "data_interval": text.name or None}
    letters |= {"font_style": "italic" if text.slanted else None}
    letters |= {"unicode_bidi": "plaintext" if text.own and is_turned(text.text) else None}
    words = element("text", text.text, **letters, fill=text.colour)
    if not text.halo:
        return words
    return element("g", element("text", text.text, **letters, **HALO, aria_hidden="true"), words)


def drawn_box(box: Box, name: str) -> Markup:
    """A rectangle: its filling, its texture, and its frame. It is in a group with the name of its interval, if it is a part of one."""
    colour = box.colour()
    places = {"x": two(box.x), "y": two(box.y), "width": two(box.width), "height": two(box.height)}
    places |= {"rx": two(box.round)} if box.round else {}
    frame = {"stroke": GREY if box.hollow else BLACK, "stroke_width": "0.5"}
    if any(box.is_open):
        way = "".join("M" + "L".join(f"{two(x)} {two(y)}" for x, y in line) for line in box.frame())
        parts = [element("rect", **places, fill=colour), element("path", d=way, fill="none", **frame)]
    elif box.texture():
        clip = element("clipPath", element("rect", **places), id=name)
        ink = {"stroke": "#FFFFFF", "stroke_width": "1.1" if box.texture() == "dots" else "0.5"}
        marks = element("path", d=texture(box), clip_path=f"url(#{name})", fill="none", stroke_linecap="round", **ink)
        parts = [clip, element("rect", **places, fill=colour), marks, element("rect", **places, fill="none", **frame)]
    else:
        parts = [element("rect", **places, fill=colour, **frame)]
    if not box.name:
        return parts[0] if len(parts) == 1 else element("g", *parts)
    sides = "".join(f" open-{side}" for side, is_open in zip(("left", "right"), box.is_open, strict=True) if is_open)
    said = element("title", box.said) if box.said else None
    part = "hollow" if box.hollow else "full"
    return element("g", said, *parts, class_=f"{part} {box.filling}{sides}", data_interval=box.name)


def texture(box: Box) -> str:
    """The marks of a texture. A browser would print patterns of SVG as dots, so they are lines; a dot has round ends and no length."""
    rows = [two(y) for y in steps(box.y + 1.5, box.y + box.height, 3)]
    if box.texture() == "lines":
        return "".join(f"M{two(box.x)} {y}h{two(box.width)}" for y in rows)
    if box.texture() == "dots":
        return "".join(f"M{two(x)} {y}h0" for y in rows for x in steps(box.x + 1.5, box.x + box.width, 3))
    bottom, way = two(box.y + box.height), f"l{two(box.height)} {two(-box.height)}"
    return "".join(f"M{two(x)} {bottom}{way}" for x in steps(box.x - box.height, box.x + box.width, 2.5))


def steps(first: float, last: float, by: float) -> list[float]:
    """Numbers from one to another."""
    return [first + by * number for number in range(1 + int((last - first) / by))]


def drawn_line(line: Line) -> Markup:
    """A line, with a head at its end."""
    first, *others = (f"{two(x)} {two(y)}" for x, y in line.way)
    way = f"M{first}C{' '.join(others)}" if line.bent else f"M{first}L{' '.join(others)}"
    words = {"class_": line.kind or None, "data_point": line.points or None}
    words |= {"stroke": line.colour, "stroke_width": two(line.width), "stroke_dasharray": "1.6 1.2" if line.dashed else None}
    drawn = element("path", d=way, fill="none", **words)
    if not line.arrow:
        return drawn
    tip, left, right = head(line)
    return element(
        "g", drawn, element("path", d="M{}L{}L{}Z".format(*(f"{two(x)} {two(y)}" for x, y in (tip, left, right))), fill=line.colour)
    )


def head(line: Line) -> tuple[tuple[float, float], ...]:
    """The head of an arrow: its tip, and the two points behind it."""
    length, half = 2.6 + 1.6 * line.width, 0.9 + line.width
    (x, y), (to_x, to_y) = line.way[-2:]
    far = max(((to_x - x) ** 2 + (to_y - y) ** 2) ** 0.5, 0.01)
    along, across = (to_x - x) / far, (to_y - y) / far
    back = to_x - along * length, to_y - across * length
    return (to_x, to_y), (back[0] - across * half, back[1] + along * half), (back[0] + across * half, back[1] - along * half)


def two(value: float) -> str:
    """A number with two decimals at most."""
    return f"{round(value, 2) + 0.0:.12g}"
