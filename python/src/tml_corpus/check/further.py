"""Going on after a fault: what is at fault is mended, or blanked out by as many spaces, so that places stay, and `tml` is asked again.

A fault that is found so may be a consequence of the blanks, where the table says so. Where blanks do not help, the search
ends: after faults 16 and 17, of which each further tag has the same, and where no root was opened.
"""

from __future__ import annotations

import re
from collections.abc import Iterator
from dataclasses import dataclass, field

from tml.explaining import faults
from tml.explaining.encoding import ESCAPED
from tml.explaining.explain import explain
from tml.explaining.faults import Fault, read_fault
from tml.explaining.markup import NAME, quotes_of_tag
from tml.explaining.nesting import open_link
from tml.places import Places
from tml.statuses import DOCUMENT_LIMIT
from tml.tags.edits import Edit, applied, blank, encoded
from tml.tags.profile import IDENTIFIERS, TABLE, Kind, Row, is_identifier
from tml.tags.source import Explanation, Source
from tml.tags.units import Attribute, Unit, Units, end_of, open_tags, unit_at

from ..asking.program import FAULT, Program

TAGS_LOST = frozenset({faults.UNBALANCED, faults.UNCLOSED, faults.MISPLACED, faults.UNKNOWN_REFERENCE})
IDENTIFIER_LOST = frozenset({faults.UNKNOWN_REFERENCE})
NOTHING_LOST: frozenset[int] = frozenset()

CONSEQUENCES = {
    faults.NOT_UTF8: frozenset({faults.DUPLICATE}),
    faults.BAD_REFERENCE: NOTHING_LOST,
    faults.BAD_MARKUP: TAGS_LOST,
    faults.UNKNOWN_TAG: TAGS_LOST,
    faults.UNBALANCED: TAGS_LOST,
    faults.UNCLOSED: NOTHING_LOST,
    faults.MISPLACED: TAGS_LOST,
    faults.TOO_DEEP: TAGS_LOST,
    faults.REPEATED: IDENTIFIER_LOST,
    faults.MISSING: IDENTIFIER_LOST,
    faults.BAD_VALUE: IDENTIFIER_LOST,
    faults.CONFLICT: NOTHING_LOST,
    faults.BAD_DATE: NOTHING_LOST,
    faults.DUPLICATE: IDENTIFIER_LOST,
    faults.UNKNOWN_REFERENCE: IDENTIFIER_LOST,
}
"""Of each fault those that may come from what is blanked out for it. An unknown reference does so only where its identifier is gone."""

MOST_BYTES = DOCUMENT_LIMIT
"""How many bytes of changed documents `tml` is asked about at most."""

WORD = re.compile(rb"[A-Za-z0-9_.-]+")
BAD_LETTER = re.compile(rb"[^A-Za-z0-9_.-]")


@dataclass
class Blanks:
    """What was blanked out so far: which faults may come of it, which words are gone, of which tags the identifiers, and in which tags
    attributes."""

    possible: set[int] = field(default_factory=set)
    words: set[bytes] = field(default_factory=set)
    identifiers: set[tuple[str, bytes]] = field(default_factory=set)
    tags: set[int] = field(default_factory=set)

    def add(self, document: bytes, fault: Fault, edits: list[Edit], units: Units | None) -> None:
        """Notes the blanks for a fault."""
        self.possible |= CONSEQUENCES.get(fault.number, NOTHING_LOST)
        for edit in edits if fault.number != faults.NOT_UTF8 else ():
            self.words.update(WORD.findall(document, edit.start, edit.end))
            tag = None if units is None else unit_at(units, edit.start)
            if tag is not None and tag.name in IDENTIFIERS:
                self.identifiers.add((tag.name, identifier_of(Source(document, units), tag)))

    def add_standing_in(self, document: bytes, tag: Unit, edits: list[Edit]) -> None:
        """Notes the references of a tag that were made up: that no tag has them is no news."""
        values = {edit.end: edit.text for edit in edits}
        for attribute in tag.attributes:
            row = TABLE[tag.name].get(attribute.name)
            if row is not None and row.form.kind is Kind.REFERENCE and attribute.end in values:
                self.identifiers.add((row.form.target, values[attribute.end].rstrip()[:-1]))

    def are_cause(self, document: bytes, fault: Fault, found: Explanation) -> bool:
        """Whether a fault is only this: that a tag refers to tags that were blanked out. Without the blanks it would not be there."""
        if fault.number != faults.UNKNOWN_REFERENCE or found.units is None:
            return False
        tag = unit_at(found.units, fault.offset)
        rows = TABLE.get(tag.name, {}) if tag is not None else {}
        return bool(found.attributes) and all(
            (rows[one.name].form.target, one.value(document)) in self.identifiers for one in found.attributes if one.name in rows
        )

    def may_cause(self, document: bytes, fault: Fault, found: Explanation) -> bool:
        """Whether a fault may be a consequence of the blanks."""
        if fault.number not in self.possible:
            return False
        if fault.number != faults.UNKNOWN_REFERENCE or not found.attributes:
            return True
        return any(attribute.value(document) in self.words for attribute in found.attributes)


def further_faults(
    program: Program, document: bytes, places: Places, fault: Fault, found: Explanation, more: int
) -> Iterator[tuple[Fault, Explanation, bool]]:
    """At most so many faults after the first one, each with what it is about and whether it may be only a consequence.

    Of a long document they may be fewer, since `tml` is asked about so many bytes at most.
    """
    blanks, whole, room = Blanks(), False, MOST_BYTES
    while more > 0 and room >= len(document):
        room -= len(document)
        if found.attributes:
            blanks.tags.add(fault.offset)
        edits = mended(document, fault, found, blanks)
        if not edits:
            edits = blanked(program, document, fault, found, whole)
            blanks.add(document, fault, edits, found.units)
        changed = applied(document, edits)
        if changed == document:
            return
        document = changed
        reply = program.check(document)
        following = read_fault(reply.text) if reply.status == FAULT else None
        if following is None:
            return
        # That a tag lacks the attribute that was just blanked out is no news: the tag goes as a whole.
        whole = following.number == faults.MISSING and following.offset in blanks.tags
        fault, found = following, explain(program, document, following, places, first=False)
        if not whole and not blanks.are_cause(document, fault, found):
            yield fault, found, blanks.may_cause(document, fault, found)
            more -= 1


def mended(document: bytes, fault: Fault, found: Explanation, blanks: Blanks) -> list[Edit]:
    """The edits that mend what is at fault in as many bytes: curly quotes, names in other letters, and values that are not of their form.

    So a tag with a bad value stays, and with it what refers to it.
    """
    if fault.number == faults.BAD_MARKUP:
        name = NAME.match(document, fault.offset + 1)
        quotes = quotes_of_tag(document, name.end()) if name else ()
        return [padded(edit, number % 2 == 0) for number, edit in enumerate(quotes)]
    if fault.number == faults.UNKNOWN_TAG:
        return [edit for edit in found.edits if len(edit.text) == edit.end - edit.start]
    return with_good_values(document, fault, found, blanks) if fault.number == faults.BAD_VALUE else []


def with_good_values(document: bytes, fault: Fault, found: Explanation, blanks: Blanks) -> list[Edit]:
    """The edits that put a value of the right form in the place of each bad one of a tag; none where one of them has no room for any."""
    tag = unit_at(found.units, fault.offset) if found.units is not None else None
    if tag is None:
        return []
    cures = {edit.end: edit.text for edit in found.edits}
    edits, made_up = list[Edit](), list[Edit]()
    for attribute in found.attributes:
        value, cure = attribute.value(document), cures.get(attribute.end - 1)
        is_cure = cure is not None and len(cure) <= len(value)
        good = cure if is_cure else standing_in(document, TABLE[tag.name][attribute.name], value)
        if good is None:
            return []
        edits.append(with_value_in_place(document, attribute, good))
        made_up += [] if is_cure else edits[-1:]
    blanks.add_standing_in(document, tag, made_up)
    return edits


def standing_in(document: bytes, row: Row, value: bytes) -> bytes | None:
    """A value of the right form that is no longer than a bad one; none where there is none."""
    if row.form.kind is Kind.LISTED:
        shortest = min(row.form.values, key=len).encode()
        return shortest if len(shortest) <= len(value) else None
    name = BAD_LETTER.sub(b"_", value)
    is_taken = row.form.kind is Kind.IDENTIFIER and name in WORD.findall(document)
    return name if is_identifier(name.decode()) and not is_taken else None


def with_value_in_place(document: bytes, attribute: Attribute, value: bytes) -> Edit:
    """The attribute with a value that is no longer, and as many spaces after it as are left over."""
    end, length = attribute.end, len(attribute.value(document))
    quote = document[end - 1 : end]
    return Edit(end - 1 - length, end, (value + quote).ljust(length + 1))


def identifier_of(source: Source, tag: Unit) -> bytes:
    """The identifier of a tag: where it has none the only one of its kind to which tags refer and that no tag has; else nothing."""
    name = source.value(tag, IDENTIFIERS[tag.name])
    dangling = [] if name else list(source.dangling(tag.name))
    return encoded(dangling[0] if len(dangling) == 1 else name)


def padded(edit: Edit, opening: bool) -> Edit:
    """The edit of a quote with as many bytes as before: the spaces stand outside of the value."""
    length = edit.end - edit.start
    return Edit(edit.start, edit.end, edit.text.rjust(length) if opening else edit.text.ljust(length))


def blanked(program: Program, document: bytes, fault: Fault, found: Explanation, whole: bool) -> list[Edit]:
    """The edits that delete what is at fault; none where it cannot be deleted.

    Of a tag with a bad attribute the attribute goes, or the whole tag where `whole` asks for it or no attribute was found.
    """
    if fault.number == faults.NOT_UTF8:
        return not_utf8(document)
    if fault.number <= faults.BAD_MARKUP:
        end = max(end_of_section(document, fault.offset), fault.offset + 1)
        return [Edit(fault.offset, end, b" " * (end - fault.offset))] if fault.offset < len(document) else []
    if found.units is None or fault.number in (faults.MANY_INTERVALS, faults.MANY_LINKS):
        return []
    if fault.number == faults.UNCLOSED:
        return closed(document, found.units)
    unit = unit_at(found.units, fault.offset)
    if unit is None:
        return []
    if fault.number == faults.UNBALANCED:
        return balanced(program, document, unit, found.units)
    if fault.number == faults.MISPLACED:
        unit = open_link(Source(document, found.units), unit) or unit
    if found.attributes and not whole:
        return [blank(attribute) for attribute in found.attributes]
    return without(unit, found.units)


def not_utf8(document: bytes) -> list[Edit]:
    """All bytes that are not UTF-8, since one sentence speaks of all of them."""
    text = ESCAPED.sub("_", document.decode("utf-8", "surrogateescape"))
    return [Edit(0, len(document), text.encode())]


def end_of_section(document: bytes, at: int) -> int:
    """Where a CDATA section, an instruction or a doctype with a subset ends; nowhere where another markup begins."""
    for begin, end in ((b"<![CDATA[", b"]]>"), (b"<?", b"?>"), (b"<!DOCTYPE", b"]>"), (b"<!--", b"<!--"), (b"<!", b">")):
        if document.startswith(begin, at):
            close = document.find(end, at)
            return close + len(end) if close >= 0 else at
    return at


def without(unit: Unit, units: Units) -> list[Edit]:
    """Spaces in the place of a unit, and of its end tag."""
    end = end_of(units, unit) if unit.kind == "start" else None
    return [blank(one) for one in (unit, end) if one is not None]


def balanced(program: Program, document: bytes, unit: Unit, units: Units) -> list[Edit]:
    """Spaces in the place of the end tag, or of the start tag that is open there: of the one after which `tml` goes further."""
    best, furthest = [blank(unit)], (0, 0, 0)
    for choice in [*open_tags(units, unit.start)[-1:], unit]:
        fault = read_fault(program.check(applied(document, [blank(choice)])).text)
        order = (99, 0, 0) if fault is None else fault.order()
        if order >= furthest:
            best, furthest = [blank(choice)], order
    return best


def closed(document: bytes, units: Units) -> list[Edit]:
    """The end tags that the document lacks; they stand after all that has a place."""
    tags = open_tags(units, len(document) + 1)
    ends = b"".join(b"</%s>" % tag.name.encode("utf-8", "surrogateescape") for tag in reversed(tags))
    return [Edit(len(document), len(document), ends)]
