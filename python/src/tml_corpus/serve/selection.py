"""What is made of a selection: an EVENT with its MAKEINSTANCE, or a TIMEX3, with identifiers that no tag has."""

from __future__ import annotations

import re
from collections.abc import Iterator

from tml.explaining.faults import BAD_MARKUP
from tml.explaining.references import added, new_instance
from tml.tags.edits import Edit
from tml.tags.profile import TABLE
from tml.tags.source import Source
from tml.tags.units import open_tags
from tml.tags.values import CALENDAR, DURATION, SHORTEST_DATE, better, has_form

from .document import OpenDocument
from .edits import action, how_far
from .wire import Json

ANNOTATE = "refactor.rewrite"
LONGEST = 40
"""How many characters of the selection a title has at most."""

NO_DATE = "XXXX-XX-XX"
"""The value of a date of which nothing is known."""


def annotated(document: OpenDocument, start: int, end: int) -> Iterator[Json]:
    """What can be made of a selection; nothing where it is empty, or is not a piece of the text with whole tags."""
    fault, raw = document.fault, document.text[start:end]
    start, end = start + len(raw) - len(raw.lstrip()), end - (len(raw) - len(raw.rstrip()))
    is_cut = document.is_accepted() if fault is None else fault.number > BAD_MARKUP
    if start >= end or not is_cut or not is_free(document, start, end):
        return
    words = " ".join(re.sub("<[^<>]*>", "", document.text[start:end].decode("utf-8", "replace")).split())
    called = words if len(words) <= LONGEST else words[: LONGEST - 3] + "..."
    for title, edits in (
        (f'Annotate "{called}" as an EVENT with its MAKEINSTANCE', event_edits(document.source, start, end)),
        (f'Annotate "{called}" as a TIMEX3', time_edits(document.source, words, start, end)),
    ):
        if how_far(document.program, document.text, fault, edits) is not None:
            yield action(document, title, ANNOTATE, edits)


def is_free(document: OpenDocument, start: int, end: int) -> bool:
    """Whether a piece of the text is inside of no annotation, has none in it, and has each tag whole and with its other one."""
    units, depth = document.units, 0
    if any(tag.name in TABLE for tag in open_tags(units, start)):
        return False
    around = document.unit_around(start), document.unit_around(end - 1)
    if any(unit is None or unit.kind != "text" and not (start <= unit.start and unit.end <= end) for unit in around):
        return False
    for unit in units.after(start - 1):
        if unit.start >= end:
            break
        depth += {"start": 1, "end": -1}.get(unit.kind, 0)
        if depth < 0 or unit.name in TABLE or unit.kind not in ("text", "start", "end", "empty"):
            return False
    return depth == 0


def event_edits(source: Source, start: int, end: int) -> list[Edit]:
    """The edits that make an EVENT of a stretch, and add its instance."""
    event, instance = (fresh(source, kind) for kind in ("EVENT", "MAKEINSTANCE"))
    tag = f'<EVENT eid="{event}" class="OCCURRENCE">'
    return [*around(start, end, tag, "</EVENT>"), added(source, new_instance(source, instance, event, filled=True))]


def time_edits(source: Source, words: str, start: int, end: int) -> list[Edit]:
    """The edits that make a TIMEX3 of a stretch, with its value where the words are one."""
    is_number = words.isdigit() and len(words) < SHORTEST_DATE
    values = [words] if has_form(words) and not is_number else better(words)
    value = values[0] if len(values) == 1 else NO_DATE
    kind = "DURATION" if DURATION.fullmatch(value) else "TIME" if CALENDAR.fullmatch(value) and "T" in value else "DATE"
    return around(start, end, f'<TIMEX3 tid="{fresh(source, "TIMEX3")}" type="{kind}" value="{value}">', "</TIMEX3>")


def around(start: int, end: int, start_tag: str, end_tag: str) -> list[Edit]:
    """The edits that put tags around a stretch."""
    return [Edit(start, start, start_tag.encode()), Edit(end, end, end_tag.encode())]


def fresh(source: Source, kind: str) -> str:
    """An identifier that no tag has and to which none refers, in the manner of the others of its kind."""
    name = source.fresh(kind)
    begin = name.rstrip("0123456789")
    number = int(name[len(begin) :])
    while source.bearer(name) is not None or any(name in names for names in source.referred.values()):
        number += 1
        name = f"{begin}{number}"
    return name
