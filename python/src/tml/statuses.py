"""The numbers and words of `tml` that its manual page says: its statuses, its limits, the names of faults, and its relations."""

from __future__ import annotations

from enum import IntEnum

__all__ = ["BASE_RELATIONS", "FAULT_NAMES", "RELATIONS"]

DOCUMENT_LIMIT = 4_194_304
"""How many bytes `tml` takes of a document."""

MANY_BYTES = 256 * 1024
"""A document with more bytes than this is a long one, of which nothing is kept that can be looked for again."""

MOST_REMEMBERED = 4096
"""How many things of one kind are remembered that come again in other documents."""

EVIDENCE_LIMIT = 67_108_864
"""How many bytes `tml` takes of evidence."""

INTERVAL_LIMIT, LINK_LIMIT = 1024, 4096
"""How many intervals and links a document may have."""

OPEN_LIMIT = 32
"""How many tags may be open at once."""

IDENTIFIER_LIMIT = 64
"""How many characters an identifier may have."""


class TmlStatus(IntEnum):
    """With what `tml` ends: docs/COMMANDS.md has the same table."""

    DONE = 0
    DOC_FAULT = 1
    CLASH = 2
    USAGE = 3
    READ_FAULT = 4
    WRITE_FAULT = 5
    NO_MEMORY = 6
    EVIDENCE_FAULT = 7
    UNKNOWN_NAME = 8
    TOO_LONG = 9


FAULT_NAMES = (
    "NotUtf8", "BadReference", "BadMarkup", "UnknownTag", "Unbalanced", "Unclosed", "Misplaced", "TooDeep", "RepeatedAttribute",
    "MissingAttribute", "BadValue", "Conflict", "BadDate", "DuplicateId", "UnknownReference", "TooManyIntervals", "TooManyLinks",
)  # fmt: skip
"""The names of the faults, from number 1 on."""

ORDERS = {
    "BEFORE": ("A1<B0",), "AFTER": ("B1<A0",), "INCLUDES": ("A0<B0", "B1<A1"), "IS_INCLUDED": ("B0<A0", "A1<B1"),
    "DURING": ("B0=A0", "A1=B1"), "DURING_INV": ("A0=B0", "B1=A1"), "SIMULTANEOUS": ("A0=B0", "B0=A0", "A1=B1", "B1=A1"),
    "IDENTITY": ("A0=B0", "B0=A0", "A1=B1", "B1=A1"), "IBEFORE": ("A1=B0", "B0=A1"), "IAFTER": ("B1=A0", "A0=B1"),
    "BEGINS": ("A0=B0", "B0=A0", "A1<B1"), "BEGUN_BY": ("A0=B0", "B0=A0", "B1<A1"), "ENDS": ("A1=B1", "B1=A1", "B0<A0"),
    "ENDED_BY": ("A1=B1", "B1=A1", "A0<B0"), "OVERLAPS": ("A0<B0", "B0<A1", "A1<B1"), "OVERLAPPED_BY": ("B0<A0", "A0<B1", "B1<A1"),
}  # fmt: skip
"""The orders of each relation between A and B, in the order of docs/DEFINITIONS.md: a start is 0 and an end is 1; `<` is before, and
`=` no later."""

STRICT_ORDERS = {relation: tuple(place for place, order in enumerate(orders) if "<" in order) for relation, orders in ORDERS.items()}
"""The places of the orders of a relation that are strict; all others allow for equal points."""

RELATIONS = tuple(ORDERS)
"""The relations of TLINK."""

BASE_RELATIONS = tuple(relation for relation in RELATIONS if relation not in ("DURING", "DURING_INV", "IDENTITY"))
"""The thirteen of Allen, in the order in which `tml matrix` prints them."""

BESIDE_BASE = {
    "DURING": frozenset({"IS_INCLUDED", "BEGINS", "ENDS", "SIMULTANEOUS"}),
    "DURING_INV": frozenset({"INCLUDES", "BEGUN_BY", "ENDED_BY", "SIMULTANEOUS"}),
    "IDENTITY": frozenset({"SIMULTANEOUS"}),
}
"""The relations that are none of the thirteen, each with those of the thirteen where it holds; a test asks `tml` about each."""

INVERSES = {
    "BEFORE": "AFTER", "IBEFORE": "IAFTER", "IS_INCLUDED": "INCLUDES", "DURING": "DURING_INV", "BEGINS": "BEGUN_BY", "ENDS": "ENDED_BY",
    "OVERLAPS": "OVERLAPPED_BY",
}  # fmt: skip
INVERSES |= {inverse: relation for relation, inverse in INVERSES.items()} | {"SIMULTANEOUS": "SIMULTANEOUS", "IDENTITY": "IDENTITY"}
"""What a relation is the other way round."""
