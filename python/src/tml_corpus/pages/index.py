"""The index of a report: a line for each document, and what is counted over all of them."""

from __future__ import annotations

import re
from collections import Counter
from collections.abc import Callable, Sequence

from tml.markup import NOTHING, Markup, element, lined

from ..clash.report import TOUCHING
from ..files.finding import counted
from ..timeline.lettering import plain
from .documents import Entry
from .frame import coded, framed, isolated

FOR_BROWSERS = "tml.html"
"""The page for browsers, which may lie next to the index."""

WITHOUT_PLACE = "dates without a calendar place"

COLUMNS = (
    ("document", "text"),
    ("verdict", "text"),
    ("fault", "text"),
    ("clashes", "number"),
    ("dates that touch", "number"),
    ("warnings", "number"),
    (WITHOUT_PLACE, "number"),
    ("intervals", "number"),
    ("links", "number"),
    ("pairs", "number"),
    ("decided", "number"),
    ("decided, in %", "number"),
)
"""The columns, and how they are sorted."""

LONGEST = 120
"""So long is the bar of the greatest of some counts."""

SHAPES = {"accepted": "good", "clash": "clash", "fault": "fault", TOUCHING: "touch"}
"""The verdicts with a shape of their own; the others share one."""

FOLDERS = re.compile("(?<=[/_-])")

EXPLAINED = (
    "Each verdict is one of tml. A clash is a set of links that cannot all be true. Dates that touch leave no gap where a link "
    "between them asks for one. Dates include times of day. A pair is decided when only one relation is possible."
)


def index_of(entries: Sequence[Entry], expected: int, is_linked: bool = False) -> str:
    """The whole page, as a file, perhaps with a link to the page for browsers. If not all documents were looked at it says so."""
    title = f"Report on {counted(len(entries), 'document')}"
    missing = f"Interrupted: {len(entries):,} of {counted(expected, 'document')} were looked at."
    heads = element("tr", *(element("th", name, scope="col", data_kind=kind) for name, kind in COLUMNS))
    table = element(
        "table",
        "\n",
        lined(element("thead", "\n", lined(heads)), element("tbody", "\n", lined(*map(row_of, entries)))),
        id="documents",
    )
    return framed(
        title,
        "index.js",
        element("h1", title),
        element("p", element("strong", missing)) if len(entries) < expected else NOTHING,
        totals(entries),
        element("p", EXPLAINED, class_="explained"),
        element("p", element("a", "Check and query documents here, without a server", href=FOR_BROWSERS)) if is_linked else NOTHING,
        element("div", id="search"),
        element("div", "\n", lined(table), class_="wide", tabindex="0", role="region", aria_label="Documents"),
    )


def totals(entries: Sequence[Entry]) -> Markup:
    """What became of the documents, the kinds of faults and warnings, and the sums."""
    counts = [entry.counts for entry in entries if entry.counts is not None]
    sums = Counter(
        {"clashes": sum(entry.clashes for entry in entries), "links between dates that touch": sum(entry.touching for entry in entries)}
    )
    sums[WITHOUT_PLACE] = sum(one.free_dates for one in counts)
    sums["pairs of intervals"], sums["decided pairs"] = (sum(getattr(one, name) or 0 for one in counts) for name in ("pairs", "decided"))
    faults = Counter(entry.said for entry in entries if entry.verdict == "fault")
    warnings = sum((entry.warnings for entry in entries), Counter[str]())
    relations = sum((one.relations for one in counts), Counter[str]())
    tables = [
        listed("Verdicts", Counter(entry.verdict for entry in entries).most_common(), verdict),
        listed("Faults, by the first one of each document", sorted(faults.items(), key=lambda item: int(item[0].split(" ")[0]))),
        listed("Relations of links", relations.most_common(), is_searched=False),
        listed("Warnings", warnings.most_common()),
        listed("Sums", list(sums.items()), is_searched=False, is_drawn=False),
    ]
    return element("div", "\n", lined(*tables), class_="totals")


def listed(
    title: str,
    counts: Sequence[tuple[str, int]],
    shown: Callable[[str], Markup] = isolated,
    *,
    is_searched: bool = True,
    is_drawn: bool = True,
) -> Markup:
    """A small table of counts, with a bar for each as long as it is great; nothing where there are none."""
    most = max((count for _, count in counts), default=0)
    rows = []
    for name, count in counts:
        heading = element("th", shown(name), scope="row", data_search=plain(name) if is_searched else None)
        bar = element("td", drawn(count, most), class_="count") if is_drawn else NOTHING
        rows.append(element("tr", heading, number_cell(count), bar))
    return element("table", "\n", lined(element("caption", title), element("tbody", "\n", lined(*rows)))) if rows else NOTHING


def drawn(count: int, most: int) -> Markup:
    """The bar of a count: of something there is always something to be seen."""
    bar = element("rect", width=float(max(LONGEST * count / most, 1)), height=10) if count else NOTHING
    return element("svg", bar, width=LONGEST, height=10, aria_hidden="true")


def verdict(name: str) -> Markup:
    """A verdict, which has a shape and a colour of its own."""
    return element("span", plain(name), class_=f"verdict {SHAPES.get(name, 'unknown')}")


def row_of(entry: Entry) -> Markup:
    """The line of a document. It can be searched for the kinds of its warnings too."""
    path = breakable(entry.path)
    name = element("a", path, href=f"documents/{entry.page}", aria_label=plain(entry.path)) if entry.page else path
    cells = [element("td", verdict(entry.verdict)), element("td", coded(entry.said) if entry.said else None)]
    cells += map(number_cell, numbers_of(entry))
    return element("tr", element("th", name, scope="row"), *cells, data_kinds=" ".join(sorted(entry.warnings)))


def breakable(path: str) -> Markup:
    """A path, in which a line may end after each folder."""
    return element("bdi", [(element("wbr"), part) if place else part for place, part in enumerate(FOLDERS.split(plain(path)))])


def numbers_of(entry: Entry) -> list[int | None]:
    """The numbers of a document; none of what was not asked."""
    counts = entry.counts
    if counts is None:
        return [None] * 9
    share = 100 * (counts.decided or 0) // counts.pairs if counts.pairs else None
    own = entry.clashes, entry.touching, entry.warnings.total(), counts.free_dates, counts.intervals
    return [*own, counts.links, counts.pairs, counts.decided, share]


def number_cell(number: int | None) -> Markup:
    """A cell with a number, or an empty one."""
    return element("td", None if number is None else f"{number:,}", class_="number")
