"""What may be written at the cursor: names of tags, attributes, identifiers of the kind that is asked for, and values of a list.

While a tag is written it is not well formed, so what stands before the cursor is looked at as `markup` looks at a fault. Of the
relations of a link those come first that `tml possible` has, asked about the document without that link.
"""

from __future__ import annotations

import re
from collections.abc import Iterable, Iterator
from dataclasses import dataclass

from tml.explaining.markup import EQUALS, NAME, past_attributes, past_spaces
from tml.tags.edits import Edit
from tml.tags.profile import LEFT, RIGHT, ROOT, TABLE, WRAPPERS, Kind, Row
from tml.tags.units import open_tags

from .document import AskedUnwrapping, OpenDocument
from .names import detail_of
from .possible import blanked, possible
from .wire import Json

REFERENCE, VALUE, FIELD, TAG = 18, 20, 5, 7
"""The kinds of items in the protocol: a reference, a member of a list, a field, and a class."""

FARTHEST = 16 * 1024
"""How many bytes before the cursor the tag begins at most, and after it ends."""

REST = re.compile(rb"[A-Za-z0-9_.:-]*")
TAG_BEGUN = re.compile(rb"<(/?)(?:%s)?" % NAME.pattern)
TAG_ENDED = re.compile(rb"[^<>]*>?")
ATTRIBUTE = re.compile(rb"[ \t\r\n]([^ \t\r\n=]+)[ \t\r\n]*=[ \t\r\n]*(?:\"([^\"<]*)\"|'([^'<]*)')")

Item = tuple[str, int, str]
"""What may be written, its kind, and what is said beside it."""


@dataclass(frozen=True)
class Written:
    """What is being written in a tag: where that begins, its name, the names of its attributes, one whose value is begun or none, and the
    place where what is being written begins."""

    begin: int
    tag: str
    others: frozenset[str]
    attribute: str
    start: int


def completion(document: OpenDocument, offset: int) -> Json:
    """What may be written at a place."""
    rest = REST.match(document.text, offset)
    end = rest.end() if rest is not None else offset
    start, items = in_name(document, offset, end) or in_tag(document, offset, end) or (offset, ())
    return [
        {"label": text.rstrip(">"), "kind": kind, "detail": detail, "sortText": f"{number:05}", "filterText": text}
        | {"textEdit": document.places.edit(Edit(start, end, text.encode()))}
        for number, (text, kind, detail) in enumerate(items)
    ]


def in_name(document: OpenDocument, offset: int, end: int) -> tuple[int, Iterable[Item]] | None:
    """Where the name of a tag begins that is being written, and what it may be; None where none is."""
    begin = document.text.rfind(b"<", max(offset - FARTHEST, 0), offset)
    found = TAG_BEGUN.fullmatch(document.text, begin, offset) if begin >= 0 else None
    if found is None:
        return None
    if not found[1]:
        return begin + 1, of_tags(document, begin)
    ended = document.text.startswith(b">", end)
    names = dict.fromkeys(tag.name for tag in reversed(open_tags(document.units, begin)))
    return begin + 2, ((name if ended else f"{name}>", TAG, "" if number else "the tag that is open") for number, name in enumerate(names))


def of_tags(document: OpenDocument, begin: int) -> Iterator[Item]:
    """The tags that may begin at a place: the root, or what may be inside of it."""
    if not open_tags(document.units, begin):
        yield ROOT, TAG, "the root"
        return
    for name, rows in TABLE.items():
        needs = dict.fromkeys(" or ".join(row.needs) for row in rows.values() if row.needs)
        yield name, TAG, f"needs {', '.join(needs)}"
    own = sorted(document.program.names) if isinstance(document.program, AskedUnwrapping) else []
    for name in (*own, *WRAPPERS):
        yield name, TAG, "a wrapper"


def in_tag(document: OpenDocument, offset: int, end: int) -> tuple[int, Iterable[Item]] | None:
    """Where a name or a value begins that is being written in a tag, and what it may be; None where none is."""
    written = written_before(document.text, offset)
    if written is None or written.tag not in TABLE:
        return None
    row = TABLE[written.tag].get(written.attribute)
    if not written.attribute:
        return written.start, of_attributes(written)
    return None if row is None else (written.start, of_values(document, row, written, end))


def written_before(document: bytes, offset: int) -> Written | None:
    """What is being written at a place; None where that is not inside a tag, or not where a name or a value goes on."""
    begin = document.rfind(b"<", max(offset - FARTHEST, 0), offset)
    part = document[begin:offset] if begin >= 0 else b""
    name = NAME.match(part, 1)
    if name is None or name.end() == len(part):
        return None
    at, _ = past_attributes(part, name.end())
    others = frozenset(one[1].decode("utf-8", "replace") for one in ATTRIBUTE.finditer(part, name.end(), at))
    here, tag = past_spaces(part, at), name[0].decode("utf-8", "replace")
    attribute = NAME.match(part, here)
    if here > at and (here == len(part) or (attribute is not None and attribute.end() == len(part))):
        return Written(begin, tag, others, "", begin + here)
    equals = EQUALS.match(part, attribute.end()) if attribute is not None else None
    if attribute is None or equals is None or part[equals.end() : equals.end() + 1] not in (b'"', b"'"):
        return None
    value = part[equals.end() :]
    if value[:1] in value[1:]:
        return None
    return Written(begin, tag, others, attribute[0].decode("utf-8", "replace"), begin + equals.end() + 1)


def of_attributes(written: Written) -> Iterator[Item]:
    """The attributes that the tag does not have yet; those that it has to have come first."""
    for row in sorted(TABLE[written.tag].values(), key=lambda row: not row.needs):
        if row.name not in written.others and not (row.needs and written.others.intersection(row.needs)):
            yield row.name, FIELD, "has to be there" if len(row.needs) == 1 else f"or {other_of(row)}" if row.needs else row.form.kind.value


def other_of(row: Row) -> str:
    """The other attribute of a pair."""
    return next(name for name in row.needs if name != row.name)


def of_values(document: OpenDocument, row: Row, written: Written, end: int) -> Iterator[Item]:
    """The values that an attribute may have: those of its list, the identifiers of its kind, or one that no tag has."""
    if row.form.kind is Kind.LISTED:
        yield from of_list(row, left_for_link(document, written, end) if (row.tag, row.name) == ("TLINK", "relType") else None)
    elif row.form.kind is Kind.IDENTIFIER:
        yield document.source.fresh(row.tag), REFERENCE, "no tag has this identifier"
    elif row.form.kind is Kind.REFERENCE:
        for name, tag in document.source.identified(row.form.target).items():
            yield name, REFERENCE, detail_of(document, tag)


def of_list(row: Row, left: list[str] | None) -> Iterator[Item]:
    """The values of a list; where it is known which ones the rest of the document leaves, these come first."""
    if left is None:
        yield from ((value, VALUE, row.form.noun) for value in row.form.values)
    else:
        yield from ((value, VALUE, "possible beside the other links") for value in left)
        yield from ((value, VALUE, "clashes with the other links") for value in row.form.values if value not in left)


def left_for_link(document: OpenDocument, written: Written, end: int) -> list[str] | None:
    """The relations that the rest of the document leaves for the link that is being written; None where that is not known."""
    text = document.text
    quote = text[written.start - 1 : written.start]
    after = end + text.startswith(quote, end)
    close = TAG_ENDED.match(text, after, after + FARTHEST)
    tag_end = close.end() if close is not None else after
    values: dict[str, str] = {}
    for start, stop in ((written.begin, written.start - 1), (after, tag_end)):
        for name, first, second in ATTRIBUTE.findall(text, start, stop):
            values.setdefault(name.decode("utf-8", "replace"), (first or second).decode("utf-8", "replace"))
    left, right = (next(filter(None, (values.get(name) for name in pair)), "") for pair in (LEFT, RIGHT))
    return possible(document.program, blanked(text, (written.begin, tag_end)), left, right)
