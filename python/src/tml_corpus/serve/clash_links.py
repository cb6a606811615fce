"""What can be done about a link of a clash: to remove it, or to correct it to a relation that `tml possible` has beside the others."""

from __future__ import annotations

from collections.abc import Iterator
from itertools import islice

from tml.tags.edits import Edit, applied, with_value
from tml.tags.units import Unit

from ..asking.program import CLASH
from ..clash.report import PlacedClash
from ..clash.touching import relation_of
from .document import OpenDocument
from .edits import action
from .possible import possible
from .wire import Json

QUICK_FIX = "quickfix"
MOST_LINKS = 4
"""How many links of clashes in the lines that are asked for are looked at."""


def clash_links(document: OpenDocument, first: int, last: int) -> Iterator[Json]:
    """What can be done about the links of the clashes that are shown in these lines."""
    if document.reply.status != CLASH:
        return
    clashes = document.clashes(further=True).shown_clashes()
    links = dict.fromkeys((link.link.number, number) for number, clash in enumerate(clashes) for link in clash.links)
    near = ((link, clashes[number]) for link, number in links if is_near(document.wording.link_tags[link], first, last))
    for link, clash in islice(near, MOST_LINKS):
        yield from of_link(document, link, clash, clashes)


def is_near(tag: Unit, first: int, last: int) -> bool:
    """Whether a tag is in some lines."""
    return tag.start < last and first < tag.end


def of_link(document: OpenDocument, number: int, clash: PlacedClash, clashes: list[PlacedClash]) -> Iterator[Json]:
    """What can be done about one link. A relation that fits all other links comes first, and else one that fits those of its clash."""
    link, tag = document.wording.link(number), document.wording.link_tags[number]
    in_words = document.wording.in_words(link)
    own = {one.link.number for one in clash.links}
    elsewhere = {one.link.number for other in clashes for one in other.links} - own
    all_others = frozenset(range(len(document.wording.link_tags))) - own
    for left_out, beside in ((elsewhere, ""), (all_others, ", which fits the other links of this clash")):
        copy = applied(document.text, without_links(document, {number, *left_out}))
        relations = possible(document.program, copy, link.left, link.right)
        if relations is not None:
            break
    for relation in relations or ():
        edit = relation_edit(document, tag, relation)
        if relation != link.relation and edit is not None:
            yield action(document, f"Correct to {relation}{beside}: {in_words}", QUICK_FIX, [edit])
    yield action(document, f"Remove this link: {in_words}", QUICK_FIX, [without(document, *document.whole_tag(tag))])


def without_links(document: OpenDocument, numbers: set[int]) -> list[Edit]:
    """The edits that take links out, and read those between dates that touch as they are meant."""
    tags = (document.whole_tag(document.wording.link_tags[number]) for number in numbers)
    touching = (change.edit(document.text) for change in document.touching if change.link.number not in numbers)
    return [Edit(start, end, b"") for start, end in tags] + [edit for edit in touching if edit is not None]


def relation_edit(document: OpenDocument, tag: Unit, relation: str) -> Edit | None:
    """The edit that gives a link another relation."""
    attribute = relation_of(tag)
    return None if attribute is None else with_value(attribute, document.text, relation.encode())


def without(document: OpenDocument, start: int, end: int) -> Edit:
    """An edit that takes a stretch out, with its line where nothing else stands there."""
    first, last = document.places.whole_lines(start, max(start, end - 1))
    alone = not document.text[first:start].strip() and not document.text[end:last].strip()
    return Edit(first, last, b"") if alone else Edit(start, end, b"")
