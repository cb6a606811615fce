"""What two intervals can be to each other, for all of them: in lines, as CSV, and as a table of HTML. All are made row by row.

Texts and names come from strangers: they are printed as all others are, quoted as CSV asks for it, and escaped in HTML.
"""

from __future__ import annotations

import csv
import io
import os
import unicodedata
from collections.abc import Callable, Iterator, Mapping, Sequence

from tml.markup import DOCTYPE, Markup, element, lined, raw, tags
from tml.matrices import Matrix, Relations
from tml.statuses import BASE_RELATIONS

from ..document.words import Wording
from ..files.finding import counted, shown
from ..timeline.lettering import plain

SYMBOLS = dict(zip(BASE_RELATIONS, ("<", ">", "di", "d", "=", "m", "mi", "s", "si", "f", "fi", "o", "oi"), strict=True))
"""The signs that Allen gave the relations in 1983."""

ANY = "any relation"

FORMULA = tuple("=+-@\N{MINUS SIGN}")
"""The signs with which a formula begins in a spreadsheet."""

STYLE = """
body{margin:16px;background:#fff;color:#111;font:14px/1.45 "DejaVu Sans",Verdana,Helvetica,Arial,sans-serif}
main{overflow:auto;max-height:80vh;border:1px solid #c3cad1}table{border-collapse:separate;border-spacing:0}
th,td{padding:3px 7px;border:solid #e3e7eb;border-width:0 1px 1px 0;text-align:left;white-space:nowrap;font-weight:normal}
th{position:sticky;background:#eef1f4}thead th{top:0;z-index:1;vertical-align:bottom}tbody th{left:0}thead th:first-child{left:0;z-index:2}
td{color:#111;background:#fff2cc}.one{background:#fff}.any{background:#fbe3d0}.self{background:#c3cad1}tbody tr:hover th{background:#f6b800}
@media print{main{max-height:none;overflow:visible}th{position:static}}
"""

POLICY = "default-src 'none'; style-src 'unsafe-inline'"

EXPLAINED = (
    "What the interval of a row can be to that of a column, by the links and dates: one relation, which then follows; several, by their "
    "signs; or any."
)


def labels_of(wording: Wording) -> list[str]:
    """Of each interval its text and its name, or its name alone where it has no text."""
    texts = [(plain(wording.text_of(name)).strip(), name) for name in wording.intervals]
    return [name if text in ("", name) else f"{text} ({name})" for text, name in texts]


def in_words(relations: Relations) -> str:
    """Base relations in words."""
    return ANY if len(relations) == len(BASE_RELATIONS) else " or ".join(relations)


def text(path: str, wording: Wording, matrix: Matrix) -> Iterator[str]:
    """A line for each pair, and last how many of them are decided."""
    labels = [shown(label) for label in labels_of(wording)]
    said = [in_words(relations) for relations in matrix.sets]
    for left, label in enumerate(labels):
        yield "".join(f"{label}, {other}: {said[number]}\n" for other, number in zip(labels[left + 1 :], matrix.row(left), strict=True))
    decided = sum(len(matrix.sets[number]) == 1 for number in matrix.cells)
    pairs = f"{counted(len(labels), 'interval')}, {counted(len(matrix.cells), 'pair')}"
    yield f"{shown(path)}: {pairs}: {decided} decided, {len(matrix.cells) - decided} open\n"


def comma_separated(path: str, wording: Wording, matrix: Matrix) -> Iterator[str]:
    """A line for each pair, after one with the names of the columns."""
    del path
    names, texts = list(map(harmless, wording.intervals)), [harmless(wording.text_of(name)) for name in wording.intervals]
    said = [(len(relations), " ".join(relations)) for relations in matrix.sets]
    yield in_lines([("first", "first text", "second", "second text", "count", "relations")])
    for left, (name, words) in enumerate(zip(names, texts, strict=True)):
        others = zip(names[left + 1 :], texts[left + 1 :], matrix.row(left), strict=True)
        yield in_lines([(name, words, other, other_words, *said[number]) for other, other_words, number in others])


def in_lines(rows: Sequence[Sequence[object]]) -> str:
    """Rows as lines of CSV."""
    made = io.StringIO()
    csv.writer(made, lineterminator="\n").writerows(rows)
    return made.getvalue()


def harmless(words: str) -> str:
    """A text or a name that no spreadsheet takes for a formula: it gets an apostrophe where it begins as one, be it in full width."""
    words = plain(words).strip()
    return f"'{words}" if unicodedata.normalize("NFKC", words[:1]) in FORMULA else words


def table(path: str, wording: Wording, matrix: Matrix) -> Iterator[str]:
    """A page with one row and one column for each interval. It loads nothing and has no scripts."""
    labels = labels_of(wording)
    whole = page(plain(f"Relations of {os.path.basename(path)}"), labels)
    yield DOCTYPE
    yield from (opening.text for opening, _ in whole)
    itself = element("td", class_="self")
    made: dict[Relations, Markup] = {}
    for place, label in enumerate(labels):
        before = [cell(matrix.between(place, other), made) for other in range(place)]
        after = [cell(matrix.between(place, other), made) for other in range(place + 1, len(labels))]
        yield lined(element("tr", element("th", label, scope="row"), before, itself, after)).text
    yield from (f"{closing.text}\n" for _, closing in reversed(whole))


def page(title: str, labels: Sequence[str]) -> list[tuple[Markup, Markup]]:
    """What stands before the rows of a page and after them, from the outside in."""
    head = lined(
        element("meta", charset="utf-8"),
        element("meta", http_equiv="Content-Security-Policy", content=POLICY),
        element("title", title),
        raw("style", STYLE),
    )
    signs = ", ".join(f"{sign} is {relation}" for relation, sign in SYMBOLS.items())
    columns = element("tr", element("td", class_="self"), *(element("th", label, scope="col") for label in labels))
    return [
        parts("html", element("head", "\n", head), xmlns="http://www.w3.org/1999/xhtml", lang="en"),
        parts("body", element("h1", title), element("p", f"{EXPLAINED} {signs}.")),
        parts("main", tabindex="0", aria_label="Table"),
        parts("table", element("thead", "\n", lined(columns))),
        parts("tbody"),
    ]


def parts(name: str, *content: Markup, **attributes: str) -> tuple[Markup, Markup]:
    """The two tags of an element, the first with what comes after it."""
    opening, closing = tags(name, **attributes)
    return lined(opening, *content), closing


def cell(relations: Relations, made: dict[Relations, Markup]) -> Markup:
    """The cell of two intervals, which is made once for each set of relations."""
    if relations not in made:
        kind = {1: "one", len(BASE_RELATIONS): "any"}.get(len(relations))
        made[relations] = element("td", in_words(relations) if kind else " ".join(map(SYMBOLS.__getitem__, relations)), class_=kind)
    return made[relations]


FORMS: Mapping[str, Callable[[str, Wording, Matrix], Iterator[str]]] = {"text": text, "csv": comma_separated, "html": table}
"""What is printed, in parts."""
