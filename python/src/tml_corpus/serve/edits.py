"""Edits in an editor: something that can be done, its title by what it does, and how far `tml` comes after it."""

from __future__ import annotations

import re
from collections.abc import Iterable, Sequence

from tml.explaining.faults import Fault
from tml.tags.edits import Edit, applied, disjoint

from ..asking.program import Program
from ..check.fix import first_fault, moved
from ..files.finding import shown
from .document import OpenDocument
from .wire import Json

LONGEST = 60
"""How many characters of the document, or of what is written, a title has at most."""

LAST, FIRST = re.compile(rb"(?:<[^<>]{0,400}>|[^\s<>]{1,400})\Z"), re.compile(rb"\s*(<[^<>]{0,400}>|[^\s<>]{1,400})")
"""The last tag or word before a place, and the first one after it."""

ADDED_LINK = re.compile(rb'^\r?\n<TLINK lid="[^"]+" \w+="([^"]+)" \w+="([^"]+)" relType="(\w+)"/>$')
"""A link on a line of its own, as it is added."""

NEAR = 1000
"""How many bytes before a place are searched for these."""

BEYOND, AS_FAR = 0, 1
"""How far `tml` comes after some edits: to acceptance or a later fault, or as far as before."""


def action(document: OpenDocument, title: str, kind: str, edits: Iterable[Edit], *, preferred: bool = False) -> Json:
    """Something that can be done."""
    changes = {document.uri: [document.places.edit(edit) for edit in disjoint(edits)]}
    return {"title": title, "kind": kind, "isPreferred": preferred, "edit": {"changes": changes}}


def how_far(program: Program, text: bytes, fault: Fault | None, edits: Sequence[Edit]) -> int | None:
    """How far `tml` comes after some edits of a text with this first fault, or with none; None where it comes less far."""
    changed = applied(text, edits)
    if changed == text:
        return None
    following = first_fault(program, changed)
    if following is None:
        return BEYOND
    if fault is None or following.order() < moved(fault, edits).order():
        return None
    return BEYOND if following.order() > moved(fault, edits).order() else AS_FAR


def titled(document: OpenDocument, text: bytes, edits: Iterable[Edit], lines: tuple[int, int]) -> str:
    """What some edits of a text do, in words, and where that is if it is not in some lines. The text has the places of the document."""
    made = list(disjoint(edits))
    parts = list(dict.fromkeys(in_words(text, edit) for edit in made))
    title = " and ".join(parts[:1] + [part[0].lower() + part[1:] for part in parts[1:]])
    is_there = any(lines[0] <= edit.start <= lines[1] for edit in made)
    return title if is_there or not made or b"\n" in made[0].text else f"{title}, at {document.source.at(made[0].start)}"


def in_words(text: bytes, edit: Edit) -> str:
    """What one edit does, in words."""
    link = ADDED_LINK.search(edit.text)
    if link is not None:
        return f"Add a TLINK: {' '.join(word.decode() for word in link.group(1, 3, 2))}"
    old, new = said(text[edit.start : edit.end]), said(edit.text)
    if old and new:
        return f"Write {new} for {old}"
    if old or not new:
        return f"Delete {old or 'white space'}"
    if b"\n" in edit.text:
        return f"Add {new}"
    before, after = LAST.search(text[max(edit.start - NEAR, 0) : edit.start].rstrip()), FIRST.match(text, edit.start)
    begins_word = text[max(edit.start - 1, 0) : edit.start].isspace() and not text[edit.start : edit.start + 1].isspace()
    if after is not None and (begins_word or before is None):
        return f"Write {new} before {said(after[1])}"
    return f"Write {new} after {said(before[0])}" if before is not None else f"Write {new}"


def said(text: bytes) -> str:
    """Some bytes in a title."""
    words = shown(" ".join(text.decode("utf-8", "replace").split(" ")).strip(" \t\r\n"))
    return words if len(words) <= LONGEST else words[: LONGEST - 3] + "..."
