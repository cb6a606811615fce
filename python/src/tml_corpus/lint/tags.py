"""What is suspect in tags: attributes, tags without text or inside of each other, and what was left in the text."""

from __future__ import annotations

import re
from collections.abc import Iterator
from functools import partial

from tml.explaining.references import whole_end
from tml.explaining.wholeness import WITHOUT_BEGIN, first_conflict, name_of_bare, version_marks
from tml.tags.edits import Edit, known
from tml.tags.profile import CARRIED, ROOT, TABLE
from tml.tags.similar import one_letter_apart
from tml.tags.source import Source, Suspect, attribute_of, cut
from tml.tags.units import END, START, TEXT, Attribute, Unit

KNOWN = {name: frozenset((*TABLE.get(name, ()), *CARRIED.get(name, ()))) for name in (ROOT, *TABLE)}
AROUND_WORDS = ("EVENT", "TIMEX3")
"""The tags of words that do not hold each other."""

LONGEST_WORD = 64
WORD = rb"([\w&;'\x80-\xff-]+)"
WORD_AFTER, WORD_BEFORE = re.compile(rb"\s*" + WORD), re.compile(WORD + rb"\s*\Z")
"""The word after an empty tag, and the one before it."""


def misspelled_attribute(source: Source) -> Iterator[Suspect]:
    """An attribute that is unknown, and one letter from one that is known and not there."""
    at, missing = -1, set[str]()
    for tag, attribute in unknown_attributes(source):
        if tag.start != at:
            at, missing = tag.start, set(TABLE.get(tag.name, ())).difference(one.name for one in tag.attributes)
        near = sorted(name for name in missing if one_letter_apart(attribute.name, name))
        if near:
            text = f"{cut(attribute.name)} is not a known attribute of {tag.name}; did you mean {' or '.join(near)}?"
            end = attribute.start + len(attribute.name.encode("utf-8", "surrogateescape"))
            edits = [Edit(attribute.start, end, name.encode()) for name in near]
            yield Suspect.of_attribute(tag, attribute, text, edits[0] if len(near) == 1 else None, known(*zip(edits)))


def unknown_attribute(source: Source) -> Iterator[Suspect]:
    """An attribute that neither the profile nor TimeML knows."""
    for tag, attribute in unknown_attributes(source):
        yield Suspect.of_attribute(tag, attribute, f"{cut(attribute.name)} is not a known attribute of {tag.name}")


def unknown_attributes(source: Source) -> Iterator[tuple[Unit, Attribute]]:
    """The attributes of tags of TimeML that are not known."""
    for name, tags in source.by_name.items():
        known = KNOWN[name]
        for tag in tags:
            if not known.issuperset(source.values(tag)):
                yield from ((tag, attribute) for attribute in tag.attributes if attribute.name not in known)


def empty_tag(source: Source) -> Iterator[Suspect]:
    """A tag of the text that has no text, and is none that TimeML wants to be empty."""
    for kind in ("EVENT", "SIGNAL", "TIMEX3"):
        for tag in source.tags(kind):
            if not source.has_text(tag) and not is_meant_to_be_empty(source, tag):
                yield Suspect(tag, f"this {kind} has no text: put the tag around its words", choices=partial(around_words, source, tag))


def around_words(source: Source, tag: Unit) -> list[tuple[Edit, ...]]:
    """The edits that put a tag without text around the word after it, or the one before it."""
    end, text = whole_end(source, tag), source.document
    written = text[tag.start : tag.end].removesuffix(b">").removesuffix(b"/").rstrip() + b">"
    after, before = WORD_AFTER.match(text, end), WORD_BEFORE.search(text, max(tag.start - LONGEST_WORD, 0), tag.start)
    places = [found.span(1) for found in (after, before) if found is not None]
    return [
        (Edit(first, first, written), Edit(last, last, b"</%s>" % tag.name.encode()), Edit(tag.start, end, b"")) for first, last in places
    ]


def is_meant_to_be_empty(source: Source, tag: Unit) -> bool:
    """Whether a tag without text stands for something that is not in the text, or for words that lie apart."""
    if attribute_of(tag, "target") is not None:
        return True
    if tag.name != "TIMEX3":
        return False
    pointed = any(source.value(tag, name) for name in ("anchorTimeID", "beginPoint", "endPoint"))
    function = source.value(tag, "functionInDocument") not in ("", "NONE") or source.value(tag, "temporalFunction") == "true"
    return pointed or function or not source.value(tag, "value") or source.value(tag, "tid") in source.points


def nested_tag(source: Source) -> Iterator[Suspect]:
    """An event or a time inside of another one, which is mostly one that ends too late, or was pasted."""
    units, open_rows = source.units, list[int]()
    wanted = {number for number, word in enumerate(units.words) if word in AROUND_WORDS}
    for row, name in enumerate(units.names):
        if name not in wanted or units.kinds[row] > END:
            continue
        if units.kinds[row] == END:
            open_rows[-1:] = []
            continue
        if open_rows:
            tag, outer = units.unit(row), units.unit(open_rows[-1])
            where = source.at(outer.start)
            yield Suspect(
                tag,
                f"this {tag.name} is inside the {outer.name} at {where}: see which words each belongs to, and whether one is too many",
                choices=partial(without_one, source, tag, outer),
            )
        if units.kinds[row] == START:
            open_rows.append(row)


def without_one(source: Source, *tags: Unit) -> list[tuple[Edit, ...]]:
    """The edits that take one of some tags away from what it holds."""
    return [source.without(tag) for tag in tags]


def version_mark(source: Source) -> Iterator[Suspect]:
    """Marks of version control, which are a text to `tml` where it comes to no fault by them."""
    root = source.units.first_tag()
    if root is not None and first_conflict(source.document) is not None:
        for start, end in version_marks(source.document):
            text = "a mark of version control: see which version of these lines is right, and delete the mark"
            yield Suspect(root, text, (start, end), choices=known((Edit(start, end, b""),)))


def tag_as_text(source: Source) -> Iterator[Suspect]:
    """A tag that has lost its `<`, so that it is a text."""
    units, root = source.units, source.units.first_tag()
    # Most documents have no > in a text, so that there are no more of them than pieces of markup.
    if root is None or source.document.count(b">") <= len(units) - units.kinds.count(TEXT):
        return
    for found in WITHOUT_BEGIN.finditer(source.document):
        edit = Edit(found.start(), found.start(), b"<")
        yield Suspect(root, f"this is text, since it has no <: write <{name_of_bare(found)}", found.span(), (edit,))
