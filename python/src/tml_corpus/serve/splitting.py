"""What splits a second document off: into a new file beside, where the editor makes files; else it is deleted, for somebody to paste."""

from __future__ import annotations

import os
from collections.abc import Iterator
from itertools import count

from tml.tags.edits import Edit

from ..files.finding import shown
from .document import OpenDocument, path_of
from .edits import action
from .wire import Json

QUICK_FIX = "quickfix"


def split_off(document: OpenDocument, first: int, last: int, *, creates_files: bool) -> Iterator[Json]:
    """What splits the second document off that begins in some lines."""
    for at in dict.fromkeys(found.second for _, found, _ in document.explained + document.further):
        if at is not None and first <= at <= last:
            rest = Edit(at, len(document.text), b"")
            beside = file_beside(document.uri) if creates_files else None
            deleted = action(document, "Delete the second document, to be pasted elsewhere", QUICK_FIX, [rest])
            yield deleted if beside is None else moved(document, beside, rest)


def file_beside(uri: str) -> str | None:
    """The name of a file beside a document that is not there yet: the same with a number before its ending; None where it is in no file."""
    path = path_of(uri)
    if path is None:
        return None
    (stem, ending), place = os.path.splitext(uri), os.path.splitext(path)[0]
    number = next(number for number in count(2) if not os.path.lexists(f"{place}.{number}{ending}"))
    return f"{stem}.{number}{ending}"


def moved(document: OpenDocument, beside: str, rest: Edit) -> Json:
    """What moves the end of a document into a new file."""
    start = {"line": 0, "character": 0}
    text = document.text[rest.start : rest.end].decode("utf-8", "surrogatepass")
    changes = [
        {"kind": "create", "uri": beside},
        edited(beside, {"range": {"start": start, "end": start}, "newText": text}),
        edited(document.uri, document.places.edit(rest)),
    ]
    title = f"Split the second document off into {shown(os.path.basename(path_of(beside) or beside))}"
    return {"title": title, "kind": QUICK_FIX, "isPreferred": False, "edit": {"documentChanges": changes}}


def edited(uri: str, edit: Json) -> Json:
    """One edit in a file."""
    return {"textDocument": {"uri": uri, "version": None}, "edits": [edit]}
