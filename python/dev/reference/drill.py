"""Drills: the section *Drills* of docs/DEFINITIONS.md."""

from __future__ import annotations

from .nets import Link
from .relations import RELATIONS, holds

DRAWN = RELATIONS[:14]
"""The relations that links of a drill have."""


def draw(number: int) -> int:
    """The number that comes after another one."""
    return (75 * number + 74) % 65_537


def hidden(count: int) -> tuple[list[tuple[int, int]], list[Link]]:
    """*Numbers*: the hidden intervals of a drill, and the links."""
    number = count
    intervals = []
    for _ in range(count):
        number = draw(number)
        start = number % 100
        number = draw(number)
        intervals.append((start, start + 1 + number % 20))
    links = []
    for one in range(1, count):
        for _ in range(3):
            number = draw(number)
            other = number % one
            true = [relation for relation in DRAWN if holds(intervals[one], relation, intervals[other])]
            links += [Link(one, relation, other) for relation in true[:1]]
    return intervals, links


def drill_text(count: int) -> bytes:
    """*The document* of a drill."""
    _, links = hidden(count)
    lines = [b"<TimeML>"]
    for one in range(count):
        lines.append(b'<EVENT eid="e%d" class="OCCURRENCE">x</EVENT>' % one)
        lines.append(b'<MAKEINSTANCE eiid="ei%d" eventID="e%d"/>' % (one, one))
    for link in links:
        lines.append(b'<TLINK eventInstanceID="ei%d" relatedToEventInstance="ei%d" relType="%s"/>' % (link.left, link.right, link.relation))
    return b"".join(line + b"\n" for line in [*lines, b"</TimeML>"])
