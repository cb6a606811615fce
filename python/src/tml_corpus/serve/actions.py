"""What an editor can do at a place: mend what is said, split a second document off, write the relation of dates that touch, part with a
link, annotate a selection."""

from __future__ import annotations

from collections.abc import Iterable, Iterator

from ..check.fix import mended
from ..clash.touching import asks
from .clash_links import clash_links, is_near, without
from .cures import QUICK_FIX, cures, difference
from .document import OpenDocument
from .edits import action
from .selection import ANNOTATE, annotated
from .splitting import split_off
from .wire import Json

REWRITE, FIX_ALL = ANNOTATE, "source.fixAll"
ACTION_KINDS = (QUICK_FIX, REWRITE, FIX_ALL)


def actions(document: OpenDocument, stretch: tuple[int, int], only: Iterable[str] | None, *, creates_files: bool = False) -> list[Json]:
    """What can be done at a stretch, of the kinds that are asked for. What mends the whole document is found where it is asked for."""
    first, last = document.places.whole_lines(*stretch)
    found: list[Json] = []
    if is_wanted(QUICK_FIX, only):
        found += [*split_off(document, first, last, creates_files=creates_files), *cures(document, (first, last))]
        found += [*clash_links(document, first, last), *touching(document, first, last)]
    if is_wanted(REWRITE, only):
        found += [*annotated(document, *stretch), *redundant(document, first, last)]
    if only is not None and is_wanted(FIX_ALL, only):
        found += all_cures(document)
    return found


def is_wanted(kind: str, only: Iterable[str] | None) -> bool:
    """Whether a kind of actions is asked for, as that or as one of those within another kind."""
    return only is None or any(kind == one or kind.startswith(one + ".") for one in only)


def touching(document: OpenDocument, first: int, last: int) -> Iterator[Json]:
    """The relation that holds, for each link between dates that touch in these lines."""
    for change in document.touching:
        edit = change.edit(document.text)
        if edit is not None and is_near(change.tag, first, last):
            title = f"Write {change.relation}: {change.reason}, and {asks(change.link.relation)}"
            yield action(document, title, QUICK_FIX, [edit], preferred=True)


def redundant(document: OpenDocument, first: int, last: int) -> Iterator[Json]:
    """The links in these lines that follow from others, to be taken out."""
    for link in document.following:
        tag = document.wording.link_tags[link.number]
        if is_near(tag, first, last):
            title = f"Take out {document.wording.in_words(link)}, which follows from links that are kept"
            yield action(document, title, REWRITE, [without(document, *document.whole_tag(tag))])


def all_cures(document: OpenDocument) -> Iterator[Json]:
    """All that `fix` writes without `--unsafe`, in one edit from the first change to the last one."""
    fixed = mended(document.program, document.text)
    if fixed.changes:
        yield action(document, f"Fix {', '.join(fixed.changes)}", FIX_ALL, [difference(fixed.before, fixed.after)])
