"""What is said of the tag under the cursor: of a time when it is, of a link what it says of its texts, of an event what follows."""

from __future__ import annotations

import re
from collections.abc import Callable, Iterator

from tml.explaining.references import MOST_NAMED, some
from tml.statuses import INVERSES
from tml.tags.units import Unit

from ..asking.program import CLASH
from ..timeline.rows import KINDS, Row
from .document import OpenDocument
from .wire import Json

MOST_LINES = 12
"""How many lines on what follows are shown."""

OTHER_ENDS = {"ALINK": "relatedToEventInstance", "SLINK": "subordinatedEventInstance"}
LETTERS = re.compile(r"([\\`*_{}\[\]<>#|~&!])")


def hover(document: OpenDocument, offset: int) -> Json:
    """What is said at a place; nothing where no tag with a meaning is there."""
    attribute = document.attribute_around(offset)
    named = document.named_by(*attribute) if attribute is not None else None
    tag = document.tag_named(named) if named is not None else None
    tag = document.tag_around(offset) if tag is None else tag
    about = ABOUT.get(tag.name) if tag is not None else None
    lines = list(about(document, tag)) if about is not None and tag is not None else []
    if not lines or tag is None:
        return None
    text = "\n\n".join([f"**{markdown(lines[0])}**", *map(markdown, lines[1:])])
    start, end = (named.start, named.end) if named is not None else (tag.start, tag.end)
    return {"contents": {"kind": "markdown", "value": text}, "range": document.places.range(start, end)}


def markdown(text: str) -> str:
    """A text of which no letter means anything in Markdown."""
    return LETTERS.sub(r"\\\1", text)


def of_time(document: OpenDocument, tag: Unit) -> Iterator[str]:
    """A time: when it is by the calendar, and what follows."""
    name = document.source.value(tag, "tid")
    said = " ".join(filter(None, (document.source.value(tag, attribute) for attribute in ("type", "value", "mod"))))
    yield f"{document.wording.text_of(name)} ({name}, {said})"
    if document.is_accepted():
        kind, *numbers = document.wording.dates[name]
        dates = Row(name, "", kind, 0, 0, tuple(numbers[2:])).dates()
        yield KINDS[kind] + (f": {dates}" if numbers else "")
    yield from what_follows(document, name)


def of_event(document: OpenDocument, tag: Unit) -> Iterator[str]:
    """An event: its instances, and what follows about each."""
    name = document.source.value(tag, "eid")
    instances = document.source.instances.get(name, [])
    text = document.inner_text(tag) or name
    noun = "instance" if len(instances) == 1 else "instances"
    said = f"{noun} {some(instances)}" if instances else "no instance, so no link can name it"
    yield f"{text} ({name}, {document.source.value(tag, 'class')}): {said}"
    for instance in instances[:MOST_NAMED]:
        yield from what_follows(document, instance)


def of_instance(document: OpenDocument, tag: Unit) -> Iterator[str]:
    """An instance: its event, and what follows about it."""
    name = document.source.value(tag, "eiid")
    yield f"{document.wording.text_of(name)} ({name}), an instance of {document.source.value(tag, 'eventID')}"
    yield from what_follows(document, name)


def of_signal(document: OpenDocument, tag: Unit) -> Iterator[str]:
    """A signal."""
    yield f"{document.inner_text(tag)} ({document.source.value(tag, 'sid')}), a signal"


def of_tlink(document: OpenDocument, tag: Unit) -> Iterator[str]:
    """A TLINK: what it says of its texts, and whether that follows from the other links."""
    number = next(number for number, one in enumerate(document.wording.link_tags) if one.start == tag.start)
    yield document.wording.in_words(document.wording.link(number))
    if any(link.number == number for link in document.following):
        yield "It follows from the links that tml reduce keeps and the dates."


def of_other_link(document: OpenDocument, tag: Unit) -> Iterator[str]:
    """An ALINK or SLINK: what it says of its texts."""
    left, right = (document.source.value(tag, name) for name in ("eventInstanceID", OTHER_ENDS[tag.name]))
    texts = [document.wording.text_of(name) for name in (left, right) if name]
    yield f" {document.source.value(tag, 'relType')} ".join(texts if len(texts) > 1 else ["", *texts]).strip() + f" ({tag.name})"


ABOUT: dict[str, Callable[[OpenDocument, Unit], Iterator[str]]] = {
    "TIMEX3": of_time, "EVENT": of_event, "MAKEINSTANCE": of_instance, "SIGNAL": of_signal,
    "TLINK": of_tlink, "ALINK": of_other_link, "SLINK": of_other_link,
}  # fmt: skip
"""What is said of a tag, by its name."""


def what_follows(document: OpenDocument, name: str) -> Iterator[str]:
    """What follows about an interval, a line for each other one; and why nothing does."""
    if not document.fits():
        if document.reply.status == CLASH:
            yield "No timeline fits the document, so nothing is said about what follows."
        return
    found = relations_of(document.relations, name)
    if not found:
        yield f"Nothing follows about {name}."
    for other, relations in list(found.items())[:MOST_LINES]:
        yield f"{document.wording.text_of(name)} {', '.join(relations)} {document.wording.text_of(other)} ({name}, {other})"
    if len(found) > MOST_LINES:
        yield f"and something follows about {len(found) - MOST_LINES} more"


def relations_of(text: bytes, name: str) -> dict[str, list[str]]:
    """The relations of an interval to each other one, as `tml relations` has them or the other way round."""
    own = re.escape(name.encode("utf-8", "surrogateescape"))
    found: dict[str, list[str]] = {}
    for line in re.finditer(rb"^(?:%s (\S+) (\S+)|(\S+) (\S+) %s)$" % (own, own), text, re.MULTILINE):
        relation, other, before, back = (word.decode() if word is not None else "" for word in line.groups())
        found.setdefault(other or before, []).append(relation or INVERSES[back])
    return found
