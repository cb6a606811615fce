"""A timeline as a page of HTML: its picture, its intervals, and below them what is known of the one that is pointed at.

Its links are drawn too; intervals can be searched for, and put in the order of the text. It loads nothing.
"""

from __future__ import annotations

import base64
import hashlib

from tml.markup import Markup, data, element, lined, raw
from tml.matrices import Matrix
from tml.statuses import BASE_RELATIONS, INVERSES

from ..figure import html_form
from ..figure.shapes import Figure
from ..pages.colours import variables
from ..pages.frame import page_file
from .page_script import SCRIPT
from .rows import Timeline

STYLE = (
    variables()
    + html_form.STYLE
    + """
html,body{height:100%}
body{margin:0;display:flex;flex-direction:column;background:var(--paper);color:var(--ink);
font:14px/1.45 "DejaVu Sans",Verdana,Helvetica,Arial,sans-serif}
main{flex:1;overflow:auto;min-height:0;padding:0 16px}.picture{overflow:visible}.wide{max-width:1200px}.rows{max-width:1200px;margin:8px 0}
h1{font-size:1.3em;overflow-wrap:anywhere}
#links{max-height:32vh;overflow:auto;padding:8px 16px;border-top:2px solid var(--strong);columns:28em;font-size:13px}
#links div{break-inside:avoid;padding-left:1.5em;text-indent:-1.5em;overflow-wrap:anywhere}#links div:first-child{font-weight:bold}
#links p{column-span:all;margin:0}#links .open{color:var(--strong)}
#tools{padding:6px 16px;border-bottom:1px solid var(--line)}#tools[hidden]{display:none}
#tools input,#tools button{font:inherit;margin-right:12px}#tools button[aria-pressed=true]{background:var(--strong);color:var(--paper)}
#tools input{width:min(13em,24vw)}.row{cursor:pointer}.row.dim{display:none}g.dim,text.dim{opacity:.15}
main:focus-visible,#links:focus-visible{outline:3px solid var(--strong);outline-offset:-3px}
.link{fill:none;stroke:var(--drawn-link);stroke-width:.8}.relation{font-size:6px;fill:var(--drawn-link);stroke:#fff;stroke-width:1.5;paint-order:stroke}
#arrow{fill:var(--drawn-link)}
@media print{@page{size:landscape}html,body,main{display:block;height:auto}main{overflow:visible}
#links,#tools{display:none}h1{break-after:avoid}}
"""
)

TOOLS = element(
    "div",
    element("label", "Search ", element("input", id="search", type="search", autocomplete="off")),
    element("button", "Order of the text", id="order", type="button", aria_pressed="false"),
    element("output", id="count", for_="search"),
    id="tools",
    hidden="",
)
"""What is above the rows. It is shown where there are scripts."""

POLICY = "style-src 'unsafe-inline'"

POINT = (
    "Point at a row, or go to it with the Tab and arrow keys, to see its links and what it can be to the others; a click, or Enter, "
    "keeps them here."
)
WITHOUT = element(
    "p",
    "Without scripts a title next to the pointer has the links of a row and how far it can move; ",
    element("code", "tml-corpus matrix"),
    " prints what it can be to the others.",
)


def possible(matrix: Matrix, order: tuple[int, ...]) -> dict[str, object]:
    """What rows can be to each of the rows below them, for the script: the number of a set of relations."""
    numbers = {relations: number for number, relations in enumerate(matrix.sets)}
    rows = []
    for place, first in enumerate(order):
        found = (matrix.between(first, second) for second in order[place + 1 :])
        rows.append([numbers.setdefault(relations, len(numbers)) for relations in found])
    places = {relation: place for place, relation in enumerate(BASE_RELATIONS)}
    sets = [[places[relation] for relation in relations] for relations in numbers]
    return {"names": BASE_RELATIONS, "inverses": [places[INVERSES[relation]] for relation in BASE_RELATIONS], "sets": sets, "rows": rows}


def page(narrow: Figure, wide: Figure, timeline: Timeline | None = None) -> str:
    """The page of a picture in two layouts as a file, with the intervals of a timeline if it is one."""
    title, shown = wide.title, html_form.in_page(narrow, wide)
    content = [element("h1", element("bdi", title)), shown]
    if timeline is None:
        return page_file(title, POLICY, [raw("style", STYLE)], element("main", "\n", lined(*content), aria_label=title, tabindex="0"))
    rows = html_form.in_words(timeline, "div", lambda place, row: {"id": f"row{place}"})
    main = element("main", "\n", lined(*content, rows, element("noscript", WITHOUT)), aria_label=title, tabindex="0")
    panel = element("div", element("p", POINT), id="links", role="status", tabindex="0", aria_label="Links of a row")
    digest = base64.b64encode(hashlib.sha256(SCRIPT.encode()).digest()).decode()
    policy = f"{POLICY}; script-src 'sha256-{digest}'"
    return page_file(title, policy, [raw("style", STYLE)], TOOLS, main, panel, *values(timeline), raw("script", SCRIPT))


def values(timeline: Timeline) -> list[Markup]:
    """What the script knows of a timeline."""
    shown = possible(timeline.matrix, timeline.order)
    return [data("ends", timeline.ends), data("intext", timeline.in_text_order()), data("possible", shown)]
