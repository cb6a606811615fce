"""The origin of a faulty document as an edit of it, or what it may have been; and a check of the edit by other code than found it."""

from __future__ import annotations

import re
from dataclasses import dataclass

from tml.explaining.faults import NOT_UTF8, Fault, read_fault
from tml.places import Places
from tml.tags.edits import Edit, applied
from tml.tags.source import Explanation

from ..asking.program import FAULT, Program
from .choice import Restored, chosen
from .draft import TAKEN, Draft
from .search import Origin

NOT_IN_TEXT = re.compile(rb">|=\s*[\"']")
"""What a text hardly has, and a tag has that became text."""

OF_TAG = re.compile("|".join(["<", *(name if len(name) > 1 else f"\\b{name}>" for name in TAKEN)]).encode())
"""What a text has that may be a tag in part."""

MOST_BYTES = 5 << 16
"""In a longer document no keystroke is searched for: that would take too long."""

MOST_TOLD = 3
"""How many keystrokes a sentence names at most."""

SWALLOWED = re.compile(rb"<!--(?:[^<-]|<(?!!--)|-(?!->))*+<!--")
"""A comment in which another one begins: the end of the first one may be at fault, which may explain any fault."""

WELL_FORMED = re.compile(rb"<!--.*?-->|<(?:[^<>\"']|\"[^\"<]*\"|'[^'<]*')*>", re.DOTALL)


@dataclass(frozen=True)
class Found:
    """What one keystroke explains of a fault: the edit that undoes it if only one meaning is left, or an edit for each meaning."""

    restored: Edit | None = None
    likely: tuple[Edit, ...] = ()
    unlikely: tuple[Edit, ...] = ()
    """Keystrokes in the text, and others that are in doubt by themselves."""

    @property
    def candidates(self) -> tuple[Edit, ...]:
        """All edits of which one may undo the fault, the likely ones first."""
        return self.likely + self.unlikely


def found_origin(program: Program, document: bytes, fault: Fault) -> Found:
    """What one keystroke explains of the first fault of a document."""
    if fault.number == NOT_UTF8 or len(document) > MOST_BYTES or SWALLOWED.search(document):
        return Found()
    text = document.decode("utf-8")
    draft = Draft(text)
    result = chosen(
        draft, Fault(fault.number, fault.name, len(document[: fault.offset].decode())), lambda text: first_fault_of(program, text)
    )
    if isinstance(result, Restored):
        edit = edit_of(text, result.origin)
        return Found(edit) if is_one_keystroke(document, edit) else Found(unlikely=(edit,))
    if result is None:
        return Found()
    likely, unlikely = (tuple(edit_of(text, origin) for origin in origins) for origins in (result.likely, result.unlikely))
    return Found(None, likely, unlikely)


def first_fault_of(program: Program, text: str) -> Fault | None:
    """The first fault of a text, whose place counts characters."""
    document = text.encode("utf-8")
    reply = program.check(document)
    fault = read_fault(reply.text) if reply.status == FAULT else None
    if fault is None:
        return None if reply.status == 0 else Fault(0, "", 0)
    return Fault(fault.number, fault.name, len(document[: fault.offset].decode("utf-8", "ignore")))


def edit_of(text: str, origin: Origin) -> Edit:
    """The keystroke of an origin as an edit of bytes."""
    key = origin.keystroke
    start = len(text[: key.start].encode("utf-8"))
    return Edit(start, start + len(text[key.start : key.end].encode("utf-8")), key.text.encode("utf-8"))


def is_one_keystroke(document: bytes, edit: Edit) -> bool:
    """Whether an edit changes one character or exchanges two, and leaves nothing of a tag in the text around it that no other text has."""
    old, new = document[edit.start : edit.end].decode("utf-8"), edit.text.decode("utf-8")
    if len(old) > 2 or len(new) > 2 or (len(old) == 2) != (len(new) == 2) or (len(old) == 2 and old != new[::-1]):
        return False
    after, shift = applied(document, [edit]), len(edit.text) - (edit.end - edit.start)
    start = after.rfind(b"<", 0, max(after.rfind(b"<", 0, edit.start), 0))
    end = after.find(b"<", after.find(b"<", edit.start + len(edit.text)) + 1)
    start, end = max(start, 0), end if end >= 0 else len(after)
    before = re.split(rb"\0|(?=<)", WELL_FORMED.sub(b"\0", document[start : end - shift]))
    was_text = b" ".join(text for text in before if not OF_TAG.search(text))
    elsewhere = WELL_FORMED.sub(b"", after[:start] + b" " + after[end:])
    here = WELL_FORMED.sub(b"", after[start:end])
    return {*NOT_IN_TEXT.findall(here)} <= {*NOT_IN_TEXT.findall(elsewhere), *NOT_IN_TEXT.findall(was_text)}


def told(document: bytes, edit: Edit, places: Places) -> str:
    """A candidate in words."""
    place = places.place(edit.start)
    old, new = repr(document[edit.start : edit.end].decode("utf-8", "replace")), repr(edit.text.decode("utf-8"))
    what = f"delete {old}" if not edit.text else f"insert {new}" if edit.start == edit.end else f"write {new} for {old}"
    return f"{what} at {place.line}:{place.column}"


def advise(document: bytes, found: Explanation, origin: Found, places: Places) -> None:
    """Makes what is said of a fault name one cure only if no keystroke explains the fault otherwise.

    A keystroke that is the only explanation comes in place of another cure. Few others are added, and of many none.
    """
    cured = applied(document, found.edits) if found.edits else None
    others = [edit for edit in filter(None, (origin.restored, *origin.likely)) if applied(document, [edit]) != cured]
    if not others:
        return
    if origin.restored is not None:
        edit = origin.restored
        found.text, found.notes = f"one wrong keystroke: {told(document, edit, places)}", []
        found.start, found.end, found.edits, found.offered = edit.start, max(edit.end, edit.start + 1), [edit], []
        return
    if found.edits:
        found.offer(*found.edits)
    found.edits = []
    if len(others) <= MOST_TOLD:
        several = ", or ".join(told(document, edit, places) for edit in others)
        found.text = f"{found.text}{'; or ' if found.text else ''}one wrong keystroke: {several}"
        for other in others:
            found.offer(other)
