"""A timeline as a part of a page: the picture, whose dates stay in sight, and below it its intervals in words."""

from __future__ import annotations

from collections.abc import Callable

from tml.markup import NOTHING, Markup, Value, element, lined, together

from ..pages.colours import LIGHT
from ..timeline.lettering import plain
from ..timeline.rows import Row, Timeline
from .shapes import FILLINGS, Figure
from .svg_form import drawing, two

STYLE = (
    f"""
:root{{--drawn-link:{LIGHT["link"]}}}"""
    + """
.picture{overflow:auto;background:#fff;color:#000}.drawn{position:relative}.drawn svg{display:block;width:100%;height:auto}
.wide{min-width:44em}.narrow{display:none;max-width:36em}
@media screen and (max-width:60em){.wide{display:none}.narrow{display:block}}
.axis{position:sticky;top:0;height:0;z-index:1;pointer-events:none}.axis svg{background:#fff}
.row{display:flex;flex-wrap:wrap;gap:0 1em;padding:1px 4px;color:inherit;text-decoration:none;break-inside:avoid}
.row:nth-child(even){background:var(--odd)}.row .label{flex:0 1 16em}
.row .label::before{content:"";display:inline-block;width:.7em;height:.7em;
margin-right:.5em;border:1px solid #000;print-color-adjust:exact}
.row .around{flex:1 1 14em;color:var(--soft)}.row .around strong{color:var(--ink)}
.row .name{color:var(--soft)}.row.unasserted .label{font-style:italic}.row.on{background:var(--mark)}.row.near{background:var(--near)}
.row.on .name,.row.on .around{color:var(--ink)}.row:focus-visible{outline:3px solid var(--strong);outline-offset:-3px}
g.on,text.on{outline:2px solid var(--drawn-link)}g.near,text.near{outline:1px dashed var(--drawn-link)}
@media screen and (prefers-color-scheme:dark){.picture{filter:invert(1) hue-rotate(180deg)}}
@media print{.picture{overflow:visible}.wide{min-width:0}.drawn:not(.high) svg{max-height:calc(100vh - 5em)}.axis{display:none}
section:has(.wide.high){break-before:page}:is(h1,h2):has(+.picture .wide.high){position:absolute;margin:0}.wide.high svg{padding-top:3em}}
"""
    + "".join(f".row.{kind} .label::before{{background:{colour}}}" for kind, (colour, _) in FILLINGS.items())
)
"""The picture has the colours of all pictures, of which a dark screen shows the opposite brightness."""

HIGH = 1.3
"""A picture is high if it is so many times as high as it is broad."""

Attributes = dict[str, Value]


def in_page(narrow: Figure, wide: Figure) -> Markup:
    """A picture in two layouts: one for narrow windows, and one for others and for paper."""
    layouts = (layout(name, figure) for name, figure in (("narrow", narrow), ("wide", wide)))
    return element("div", "\n", lined(*layouts), class_="picture")


def layout(name: str, figure: Figure) -> Markup:
    """A picture, and over it a copy of its dates for when it is scrolled."""
    copy = element("use", href=f"#{name}", width=two(figure.width), height=two(figure.height))
    dates = element("svg", copy, viewBox=f"0 0 {two(figure.width)} {two(figure.axis)}", aria_hidden="true")
    content = lined(element("div", dates, class_="axis") if figure.axis else NOTHING, drawing(figure, f"{name}-", id=name))
    # A high one is printed on several pages, since its letters would be too small on one.
    return element("div", "\n", content, class_=f"drawn {name}{' high' if figure.height > HIGH * figure.width else ''}")


def in_words(timeline: Timeline, name: str, attributes_of: Callable[[int, Row], Attributes]) -> Markup:
    """The intervals, each as an element of a name with some attributes."""
    rows = [in_row(row, name, attributes_of(place, row)) for place, row in enumerate(timeline.rows)]
    return element("div", "\n", lined(*rows), class_="rows", role="group", aria_label="Intervals") if rows else NOTHING


def in_row(row: Row, name: str, attributes: Attributes) -> Markup:
    """One interval: its text and name, or its name alone; and its dates or the words around it."""
    kinds = f"{attributes.pop('class_', '')} row {row.kind}{' unasserted' if row.unasserted else ''}".strip()
    text, called = plain(row.text), plain(row.name)
    label = together(element("bdi", text), " ", element("bdi", f"({called})", class_="name")) if text else element("bdi", called)
    parts = element("span", label, class_="label"), element("span", beside_label(row), class_="around")
    return element(name, *parts, class_=kinds, data_interval=row.name, title=row.description(), **attributes)


def beside_label(row: Row) -> Markup:
    """Of a time its dates, of an event its text between the words around it."""
    if row.kind != "event":
        return element("bdi", row.dates())
    around = row.around
    if not (around.before or around.after):
        return NOTHING
    return element("bdi", around.before, element("strong", plain(row.text)), around.after)
