"""The attributes of tags: the section *Typed tags* of docs/DEFINITIONS.md."""

from __future__ import annotations

import re
from collections.abc import Mapping
from dataclasses import dataclass

from .faults import Fault, Kind, first_fault
from .units import Unit
from .values import is_bad_date

IDENTIFIER_SHAPE = re.compile(rb"[A-Za-z0-9_.-]{1,64}")


@dataclass(frozen=True)
class Identifier:
    """The value is an identifier."""


@dataclass(frozen=True)
class Reference:
    """The value is a reference to a tag."""

    tag: bytes


@dataclass(frozen=True)
class Listed:
    """The value is one of a list."""

    values: tuple[bytes, ...]


@dataclass(frozen=True)
class AnyText:
    """The value is any text."""


Value = Identifier | Reference | Listed | AnyText


@dataclass(frozen=True)
class Row:
    """The rows of the table for a tag: what is required, of which pairs one is, and the value of each attribute."""

    required: tuple[bytes, ...]
    values: Mapping[bytes, Value]
    pairs: tuple[tuple[bytes, bytes], ...] = ()


def listed(words: str) -> Listed:
    """A list of values."""
    return Listed(tuple(words.encode().split()))


INSTANCE, TIME, SIGNAL_TAG = Reference(b"MAKEINSTANCE"), Reference(b"TIMEX3"), Reference(b"SIGNAL")
FURTHER: Mapping[bytes, Value] = {b"lid": Identifier(), b"signalID": SIGNAL_TAG}
"""The attributes that TLINK, ALINK and SLINK share."""

TABLE: Mapping[bytes, Row] = {
    b"EVENT": Row(
        (b"eid", b"class"),
        {b"eid": Identifier(), b"class": listed("OCCURRENCE PERCEPTION REPORTING ASPECTUAL STATE I_STATE I_ACTION")},
    ),
    b"MAKEINSTANCE": Row(
        (b"eiid", b"eventID"),
        {
            b"eiid": Identifier(),
            b"eventID": Reference(b"EVENT"),
            b"tense": listed("PAST PRESENT FUTURE INFINITIVE PRESPART PASTPART NONE"),
            b"aspect": listed("PROGRESSIVE PERFECTIVE PERFECTIVE_PROGRESSIVE NONE"),
            b"pos": listed("ADJECTIVE NOUN VERB PREPOSITION OTHER PREP UNKNOWN"),
            b"polarity": listed("POS NEG"),
            b"signalID": SIGNAL_TAG,
            b"modality": AnyText(),
            b"cardinality": AnyText(),
        },
    ),
    b"TIMEX3": Row(
        (b"tid", b"type"),
        {
            b"tid": Identifier(),
            b"type": listed("DATE TIME DURATION SET"),
            b"value": AnyText(),
            b"mod": listed("BEFORE AFTER ON_OR_BEFORE ON_OR_AFTER LESS_THAN MORE_THAN EQUAL_OR_LESS EQUAL_OR_MORE START MID END APPROX"),
            b"functionInDocument": listed(
                "CREATION_TIME EXPIRATION_TIME MODIFICATION_TIME PUBLICATION_TIME RELEASE_TIME RECEPTION_TIME NONE"
            ),
            b"temporalFunction": listed("true false"),
            b"anchorTimeID": TIME,
            b"beginPoint": TIME,
            b"endPoint": TIME,
            b"quant": AnyText(),
            b"freq": AnyText(),
        },
    ),
    b"SIGNAL": Row((b"sid",), {b"sid": Identifier()}),
    b"TLINK": Row(
        (b"relType",),
        {
            b"relType": listed(
                "BEFORE AFTER INCLUDES IS_INCLUDED DURING DURING_INV SIMULTANEOUS IDENTITY IBEFORE IAFTER BEGINS BEGUN_BY ENDS ENDED_BY "
                "OVERLAPS OVERLAPPED_BY"
            ),
            b"eventInstanceID": INSTANCE,
            b"timeID": TIME,
            b"relatedToEventInstance": INSTANCE,
            b"relatedToTime": TIME,
            **FURTHER,
        },
        ((b"eventInstanceID", b"timeID"), (b"relatedToEventInstance", b"relatedToTime")),
    ),
    b"ALINK": Row(
        (b"eventInstanceID", b"relatedToEventInstance", b"relType"),
        {
            b"eventInstanceID": INSTANCE,
            b"relatedToEventInstance": INSTANCE,
            b"relType": listed("INITIATES CULMINATES TERMINATES CONTINUES REINITIATES"),
            **FURTHER,
        },
    ),
    b"SLINK": Row(
        (b"subordinatedEventInstance", b"relType"),
        {
            b"subordinatedEventInstance": INSTANCE,
            b"relType": listed("MODAL EVIDENTIAL NEG_EVIDENTIAL FACTIVE COUNTER_FACTIVE CONDITIONAL INTENSIONAL"),
            b"eventInstanceID": INSTANCE,
            **FURTHER,
        },
    ),
}


@dataclass(frozen=True)
class TypedTag:
    """A typed tag: the place of its `<`, its name, and the attributes of the table that are there."""

    place: int
    name: bytes
    fields: Mapping[bytes, bytes]

    def identifier(self) -> bytes | None:
        """Its identifier, if it has one."""
        values = TABLE[self.name].values
        return next((text for name, text in self.fields.items() if isinstance(values[name], Identifier)), None)

    def references(self) -> list[tuple[bytes, bytes]]:
        """Its references: of each the tag that it asks for, and the identifier."""
        values = TABLE[self.name].values
        asked = [(values[name], text) for name, text in self.fields.items()]
        return [(value.tag, text) for value, text in asked if isinstance(value, Reference)]


def fields_of(unit: Unit) -> dict[bytes, bytes]:
    """The attributes of a tag that the table names and that are there: an empty value counts as absent."""
    values = TABLE[unit.name].values
    return {one.name: one.value for one in unit.attributes if one.name in values and one.value}


def is_bad_value(value: Value, text: bytes) -> bool:
    """Whether a text is not in the list, or has not the shape of an identifier or a reference."""
    if isinstance(value, Listed):
        return text not in value.values
    return isinstance(value, Identifier | Reference) and not IDENTIFIER_SHAPE.fullmatch(text)


def broken_rules(unit: Unit) -> set[Kind]:
    """*The faults of a tag*: the rules that a start or empty tag breaks."""
    names = [one.name for one in unit.attributes]
    broken = {Kind.RepeatedAttribute} if len(set(names)) < len(names) else set()
    if unit.name not in TABLE:
        return broken
    row, fields = TABLE[unit.name], fields_of(unit)
    pairs = [[name for name in pair if name in fields] for pair in row.pairs]
    if any(name not in fields for name in row.required) or any(not present for present in pairs):
        broken.add(Kind.MissingAttribute)
    if any(is_bad_value(row.values[name], text) for name, text in fields.items()):
        broken.add(Kind.BadValue)
    if any(len(present) == 2 for present in pairs):
        broken.add(Kind.Conflict)
    if unit.name == b"TIMEX3" and is_bad_date(fields.get(b"value", b"")):
        broken.add(Kind.BadDate)
    return broken


def type_fault(units: list[Unit]) -> Fault | None:
    """*The type fault of a document*: the first fault of its tags in document order."""
    return first_fault((unit.start, broken_rules(unit)) for unit in units if unit.opens())


def typed_tags(units: list[Unit]) -> list[TypedTag]:
    """The typed tags of a document without a type fault, in document order."""
    return [TypedTag(unit.start, unit.name, fields_of(unit)) for unit in units if unit.opens() and unit.name in TABLE]
