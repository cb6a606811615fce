"""The relations that the other links of a document leave for a link, as `tml possible` says of a copy without it."""

from __future__ import annotations

import re

from tml.statuses import BESIDE_BASE, RELATIONS
from tml.tags.edits import Edit, applied
from tml.tags.profile import is_identifier

from ..asking.program import ACCEPTED, Program

RELATION = re.compile(rb"^relation (\w+)$", re.MULTILINE)


def possible(program: Program, document: bytes, left: str, right: str) -> list[str] | None:
    """The relations of TLINK that are possible between two intervals of a document; None where `tml` says nothing of that.

    That is so where the document has a fault or a clash, or one of the two is not an interval of it.
    """
    if not (is_identifier(left) and is_identifier(right)):
        return None
    reply = program.ask(["possible", "-", left, right], document)
    if reply.status != ACCEPTED:
        return None
    base = {one.decode() for one in RELATION.findall(reply.text)}
    return [relation for relation in RELATIONS if relation in base or base & BESIDE_BASE.get(relation, frozenset())]


def blanked(document: bytes, *stretches: tuple[int, int]) -> bytes:
    """A copy with spaces in the place of some stretches."""
    return applied(document, [Edit(start, end, b" " * (end - start)) for start, end in stretches])
