"""The profile of TimeML 1.2.1 that `tml` reads, as one table: its tags, and their attributes with the form of their values.

Reports are worded by it, and no document is judged by it. A test asks `tml` about every row in both directions, so that the
table cannot differ from the program.
"""

from __future__ import annotations

import re
from enum import Enum
from typing import NamedTuple

from ..statuses import IDENTIFIER_LIMIT, RELATIONS

ROOT = "TimeML"
WRAPPERS = (
    "DOCID", "DOCNO", "DOC", "DCT", "TITLE", "EXTRAINFO", "TEXT", "BODY", "HEADLINE", "P", "p", "S", "s", "ENAMEX", "NUMEX", "CONFIDENCE",
    "TIMEX3INTERVAL",
)  # fmt: skip
LINK_TAGS = ("MAKEINSTANCE", "TLINK", "ALINK", "SLINK")
"""The tags that hold neither tags nor text."""

IDENTIFIER_LETTERS = re.compile(r"[A-Za-z0-9_.-]")


class Kind(Enum):
    """What a value has to be."""

    LISTED = "one of a list"
    IDENTIFIER = "an identifier"
    REFERENCE = "the identifier of another tag"
    TEXT = "any text"


class Form(NamedTuple):
    """The form of a value: of a list its name and the values, of a reference the tag that it asks for."""

    kind: Kind
    noun: str = ""
    values: tuple[str, ...] = ()
    target: str = ""

    def fits(self, value: str) -> bool:
        """Whether a value that is not empty has this form."""
        if self.kind is Kind.LISTED:
            return value in self.values
        return self.kind is Kind.TEXT or is_identifier(value)


class Row(NamedTuple):
    """An attribute of a tag. Of the names that it needs the tag has to have one; an attribute that may be left out needs none."""

    tag: str
    name: str
    form: Form
    needs: tuple[str, ...] = ()


def is_identifier(value: str) -> bool:
    """Whether a value may be an identifier, or a reference to one."""
    return 1 <= len(value) <= IDENTIFIER_LIMIT and all(map(IDENTIFIER_LETTERS.fullmatch, value))


def listed(noun: str, values: str) -> Form:
    """The form of a list."""
    return Form(Kind.LISTED, noun, tuple(values.split()))


def reference(target: str) -> Form:
    """The form of a reference to a tag of this kind."""
    return Form(Kind.REFERENCE, target=target)


IDENTIFIER, TEXT = Form(Kind.IDENTIFIER), Form(Kind.TEXT)
CLASS = listed("a class", "OCCURRENCE PERCEPTION REPORTING ASPECTUAL STATE I_STATE I_ACTION")
TENSE = listed("a tense", "PAST PRESENT FUTURE INFINITIVE PRESPART PASTPART NONE")
ASPECT = listed("an aspect", "PROGRESSIVE PERFECTIVE PERFECTIVE_PROGRESSIVE NONE")
PART_OF_SPEECH = listed("a part of speech", "ADJECTIVE NOUN VERB PREPOSITION OTHER PREP UNKNOWN")
POLARITY = listed("a polarity", "POS NEG")
TIME_TYPE = listed("a type of TIMEX3", "DATE TIME DURATION SET")
MODIFIER = listed(
    "a modifier", "BEFORE AFTER ON_OR_BEFORE ON_OR_AFTER LESS_THAN MORE_THAN EQUAL_OR_LESS EQUAL_OR_MORE START MID END APPROX"
)
FUNCTION = listed(
    "a function in the document",
    "CREATION_TIME EXPIRATION_TIME MODIFICATION_TIME PUBLICATION_TIME RELEASE_TIME RECEPTION_TIME NONE",
)
TRUTH = listed("a truth value", "true false")
RELATION = Form(Kind.LISTED, "a relation of TLINK", RELATIONS)
ASPECTUAL_RELATION = listed("a relation of ALINK", "INITIATES CULMINATES TERMINATES CONTINUES REINITIATES")
SUBORDINATION = listed("a relation of SLINK", "MODAL EVIDENTIAL NEG_EVIDENTIAL FACTIVE COUNTER_FACTIVE CONDITIONAL INTENSIONAL")

LEFT, RIGHT = ("eventInstanceID", "timeID"), ("relatedToEventInstance", "relatedToTime")
"""The attributes for the two ends of a TLINK: for an instance, and for a time."""


def rows(tag: str, required: dict[str, Form], optional: dict[str, Form], pairs: tuple[tuple[str, str], ...] = ()) -> dict[str, Row]:
    """The attributes of a tag, those that it has to have first; of a pair one names an instance and the other one a time."""
    found = {name: Row(tag, name, form, (name,)) for name, form in required.items()}
    for pair in pairs:
        forms = zip(pair, (reference("MAKEINSTANCE"), reference("TIMEX3")), strict=True)
        found.update({name: Row(tag, name, form, pair) for name, form in forms})
    return found | {name: Row(tag, name, form) for name, form in optional.items()}


OF_LINKS = {"lid": IDENTIFIER, "signalID": reference("SIGNAL")}
TABLE: dict[str, dict[str, Row]] = {
    "EVENT": rows("EVENT", {"eid": IDENTIFIER, "class": CLASS}, {}),
    "MAKEINSTANCE": rows(
        "MAKEINSTANCE",
        {"eiid": IDENTIFIER, "eventID": reference("EVENT")},
        {
            "tense": TENSE,
            "aspect": ASPECT,
            "pos": PART_OF_SPEECH,
            "polarity": POLARITY,
            "signalID": reference("SIGNAL"),
            "modality": TEXT,
            "cardinality": TEXT,
        },
    ),
    "TIMEX3": rows(
        "TIMEX3",
        {"tid": IDENTIFIER, "type": TIME_TYPE},
        {
            "value": TEXT,
            "mod": MODIFIER,
            "functionInDocument": FUNCTION,
            "temporalFunction": TRUTH,
            "anchorTimeID": reference("TIMEX3"),
            "beginPoint": reference("TIMEX3"),
            "endPoint": reference("TIMEX3"),
            "quant": TEXT,
            "freq": TEXT,
        },
    ),
    "SIGNAL": rows("SIGNAL", {"sid": IDENTIFIER}, {}),
    "TLINK": rows("TLINK", {"relType": RELATION}, OF_LINKS, (LEFT, RIGHT)),
    "ALINK": rows(
        "ALINK",
        {
            "eventInstanceID": reference("MAKEINSTANCE"),
            "relatedToEventInstance": reference("MAKEINSTANCE"),
            "relType": ASPECTUAL_RELATION,
        },
        OF_LINKS,
    ),
    "SLINK": rows(
        "SLINK",
        {"subordinatedEventInstance": reference("MAKEINSTANCE"), "relType": SUBORDINATION},
        {"eventInstanceID": reference("MAKEINSTANCE"), **OF_LINKS},
    ),
}
"""The attributes that mean something, by the name of the tag."""

IDENTIFIERS = {tag: next(name for name, row in of_tag.items() if row.form.kind is Kind.IDENTIFIER) for tag, of_tag in TABLE.items()}
"""The attribute with the identifier of a tag."""

CARRIED = {
    "TimeML": ("xmlns", "xmlns:xsi", "xsi:noNamespaceSchemaLocation", "xsi:schemaLocation"),
    "EVENT": ("stem", "comment"),
    "MAKEINSTANCE": ("comment",),
    "TIMEX3": ("valueFromFunction", "comment"),
    "SIGNAL": ("comment",),
    "TLINK": ("origin", "syntax", "comment"),
    "ALINK": ("origin", "syntax", "comment"),
    "SLINK": ("origin", "syntax", "comment"),
}
"""Further attributes that are usual in TimeML. `tml` carries them, as it carries all that it does not know."""

TAGS = (ROOT, *TABLE, *WRAPPERS)
"""The names of all tags that are known."""
