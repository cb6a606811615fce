"""Answers as they are drawn in notebooks: HTML and SVG without scripts, in which words of documents are cut where they are long."""

from __future__ import annotations

import importlib
from collections.abc import Iterable, Mapping

from .markup import Child, Markup, element, lined
from .matrices import Matrix
from .results import Clash, Fault, Timeline
from .saying import counted, cut_short
from .sentences import Wording

MOST_INTERVALS = 40
"""How many intervals of a matrix are shown."""

CELL = "border:1px solid #8886;padding:2px 6px;text-align:left"


def html_of_fault(fault: Fault) -> str:
    """A fault: its message, and the line of the file with a mark below the words that it speaks of."""
    message = element("p", element("strong", fault.where), ": ", cut_short(fault.message, 2000))
    return element("div", message, element("pre", "\n".join(fault.mark))).text


def html_of_clash(clash: Clash) -> str:
    """A clash: a row for each of its links, in the words of the document."""
    words = Wording(clash.content).words
    rows = (row_of_cells(link.called(), [interval(link.first, words), link.relation, interval(link.second, words)]) for link in clash.links)
    dated = " by the dates of the document" if any(step.kind == "calendar" for step in clash.walk) else ""
    return table(f"{counted(len(clash.links), 'link')} that cannot all be true{dated}", rows)


def table(caption: str, rows: Iterable[Markup]) -> str:
    """Rows as a table."""
    return element("table", element("caption", caption), lined(*rows)).text


def row_of_cells(head: str, cells: Iterable[Child]) -> Markup:
    """A row, of which the first cell is the head."""
    return element("tr", element("th", head, scope="row", style=CELL), [element("td", cell, style=CELL) for cell in cells])


def interval(name: str, words: Mapping[str, str]) -> Child:
    """An interval by its words and its name."""
    text = cut_short(words.get(name, ""))
    return [element("bdi", text), " ", element("small", f"({name})")] if text else name


def html_of_matrix(matrix: Matrix) -> str:
    """A matrix: what the interval of a row can be to that of a column. Of several relations it has the number, and the names as a hint."""
    names = list(matrix.intervals[:MOST_INTERVALS])
    head = element("tr", element("td"), [element("th", name, scope="col", style=CELL) for name in names])
    rows = (row_of_cells(name, [cell_of(matrix, row, column) for column in range(len(names))]) for row, name in enumerate(names))
    left_out = len(matrix.intervals) - len(names)
    caption = "what a row can be to a column" + (f"; {counted(left_out, 'interval')} not shown" if left_out else "")
    return table(caption, (head, *rows))


def cell_of(matrix: Matrix, row: int, column: int) -> Child:
    """What one interval can be to another one."""
    if row == column:
        return None
    found = matrix.between(row, column)
    names = " ".join(found)
    return element("strong", names) if len(found) == 1 else element("span", f"{len(found)} possible", title=names)


def svg_of_timeline(timeline: Timeline) -> str:
    """A timeline as `tml-corpus timeline` draws it: what is so in every timeline that fits the document."""
    from .asking import default_answerer

    # By its name, so that who checks the types of a program with this package does not check those of the companions.
    drawing = importlib.import_module("tml_corpus.timeline.in_notebooks")
    return str(drawing.picture(timeline.content, timeline.ranks.values(), timeline.by or default_answerer()))
