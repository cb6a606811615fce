"""What a document says of its events without asserting them: by links of subordination and by negative polarity.

An instance that is the subordinated one of a modal, conditional, negatively evidential or counterfactive SLINK is not said to have
been, and one of negative polarity is said not to have been. It goes by the tags of the document alone; what is asserted of the order
of the others `tml` is asked anew, about a copy without them.
"""

from __future__ import annotations

from collections.abc import Collection, Iterator
from dataclasses import dataclass

from tml.tags.edits import applied, blank
from tml.tags.units import Unit

from ..asking.program import Program
from ..files.finding import counted
from .words import Wording

SUBORDINATING = ("MODAL", "CONDITIONAL", "NEG_EVIDENTIAL", "COUNTER_FACTIVE")
"""The relations of an SLINK whose subordinated event is not asserted."""

ENDS = {
    "TLINK": ("eventInstanceID", "relatedToEventInstance"),
    "ALINK": ("eventInstanceID", "relatedToEventInstance"),
    "SLINK": ("eventInstanceID", "subordinatedEventInstance"),
}
"""The attributes of each kind of link that name instances."""


@dataclass(frozen=True)
class AssertedCopy:
    """A document without what it does not assert, and how many events and links were left out."""

    document: bytes
    events: int
    links: int

    def said(self) -> str:
        """What was left out, in words."""
        return f"{counted(self.events, 'event')} not asserted and {counted(self.links, 'link')} left out"


def unasserted(wording: Wording) -> dict[str, str]:
    """Of each instance that the document does not assert why it does not, in words."""
    found: dict[str, str] = {}
    for _, values in wording.source.valued("SLINK"):
        relation, name, other = (values.get(one, "") for one in ("relType", "subordinatedEventInstance", "eventInstanceID"))
        if relation in SUBORDINATING:
            found.setdefault(name, f"{relation} of {wording.text_of(other)} ({other})" if other else relation)
    for _, values in wording.source.valued("MAKEINSTANCE"):
        if values.get("polarity", "") == "NEG":
            found.setdefault(values.get("eiid", ""), "negative polarity")
    return found


def asserted_copy(program: Program, document: bytes) -> AssertedCopy:
    """An accepted document with spaces in the place of the instances that it does not assert, and of the links that name them."""
    wording = Wording(program, document)
    names = set(unasserted(wording))
    instances = [tag for tag, values in wording.source.valued("MAKEINSTANCE") if values.get("eiid", "") in names]
    links = list(links_of(wording, names))
    edits = [blank(unit) for unit in whole(wording, instances + links)]
    temporal = sum(tag.name == "TLINK" for tag in links)
    return AssertedCopy(applied(document, edits), len(instances), temporal)


def links_of(wording: Wording, names: Collection[str]) -> Iterator[Unit]:
    """The links of any kind that name one of these instances."""
    for kind, attributes in ENDS.items():
        for tag, values in wording.source.valued(kind):
            if any(values.get(attribute, "") in names for attribute in attributes):
                yield tag


def whole(wording: Wording, tags: list[Unit]) -> Iterator[Unit]:
    """Tags that hold nothing, with the end tags of those that have one."""
    units = wording.units
    ends = units.end_tags() if any(tag.kind == "start" for tag in tags) else {}
    for tag in tags:
        yield tag
        if tag.start in ends:
            yield units[ends[tag.start]]
