"""Dates that touch: links between two dates that leave no gap where the relation asks for one.

BEFORE asks for a gap, so 26 February is not BEFORE 27 February: it ends exactly where the other begins, which is IBEFORE.
IS_INCLUDED asks for room at both ends, so a first quarter is not IS_INCLUDED in its year: it BEGINS it. Which relation
holds is seen by the bounds that `tml dates` prints of the two dates, and only where both are exact.
"""

from __future__ import annotations

from dataclasses import dataclass

from tml.tags.edits import Edit, applied, with_value
from tml.tags.units import Attribute, Unit

from ..asking.program import Program
from ..document.words import Link, Wording

GAP = {"BEFORE": "IBEFORE", "AFTER": "IAFTER"}
INCLUSIONS = {"IS_INCLUDED": ("BEGINS", "ENDS", "DURING"), "INCLUDES": ("BEGUN_BY", "ENDED_BY", "DURING_INV")}
"""The relations that hold in the place of an inclusion with a common start, a common end, or both."""

Bounds = tuple[int, int]


@dataclass(frozen=True)
class Change:
    """A link between dates that touch, the relation that holds between them, and why."""

    link: Link
    tag: Unit
    relation: str
    reason: str

    def edit(self, document: bytes) -> Edit | None:
        """The edit that writes the relation; none where the tag has no relation to change."""
        attribute = relation_of(self.tag)
        return with_value(attribute, document, self.relation.encode()) if attribute else None


def relation_of(tag: Unit) -> Attribute | None:
    """The attribute of a TLINK that has its relation."""
    return next((attribute for attribute in tag.attributes if attribute.name == "relType"), None)


def asks(relation: str) -> str:
    """What a strict relation asks for."""
    return f"{relation} asks for a gap" if relation in GAP else f"{relation} asks for room at both ends"


def touching_changes(wording: Wording) -> list[Change]:
    """The links of a document between dates that touch, in their order."""
    times = wording.tags["TIMEX3"]
    changes: list[Change] = []
    for number, (left, written, right) in enumerate(wording.source.links):
        if left not in times or right not in times or (written not in GAP and written not in INCLUSIONS):
            continue
        first, second = exact_bounds(wording, left), exact_bounds(wording, right)
        relation = touching_relation(written, first, second) if first and second else None
        if relation is not None:
            link = wording.link(number)
            changes.append(Change(link, wording.link_tags[number], relation, reason_of(wording, link, relation)))
    return changes


def exact_bounds(wording: Wording, name: str) -> Bounds | None:
    """The start and the end of a time that the calendar fixes."""
    words = wording.dates[name]
    return (int(words[1]), int(words[2])) if words[0] == "exact" else None


def touching_relation(relation: str, left: Bounds, right: Bounds) -> str | None:
    """The relation that holds of two dates in the place of one that fails only since they touch; None of all others."""
    if relation in GAP:
        first, second = (left, right) if relation == "BEFORE" else (right, left)
        return GAP[relation] if first[1] == second[0] else None
    if relation not in INCLUSIONS:
        return None
    inner, outer = (left, right) if relation == "IS_INCLUDED" else (right, left)
    if not outer[0] <= inner[0] < inner[1] <= outer[1]:
        return None
    begins, ends, during = INCLUSIONS[relation]
    together = (inner[0] == outer[0], inner[1] == outer[1])
    return {(True, True): during, (True, False): begins, (False, True): ends}.get(together)


def reason_of(wording: Wording, link: Link, relation: str) -> str:
    """How the two dates of a link touch, in the words of the text."""
    left, right = wording.text_of(link.left), wording.text_of(link.right)
    if relation == "IBEFORE":
        return f"{left} ends exactly where {right} begins"
    if relation == "IAFTER":
        return f"{left} begins exactly where {right} ends"
    verbs = {"BEGINS": "begin", "BEGUN_BY": "begin", "ENDS": "end", "ENDED_BY": "end"}
    return f"{left} and {right} {verbs.get(relation, 'begin and end')} together"


def with_changes(document: bytes, changes: list[Change]) -> bytes:
    """The document with the relations that hold."""
    edits = [change.edit(document) for change in changes]
    return applied(document, [edit for edit in edits if edit is not None])


def touching_copy(program: Program, document: bytes) -> bytes:
    """An accepted document with the relations that hold."""
    return with_changes(document, touching_changes(Wording(program, document)))
