"""What is wrong with a file as a whole, and is said before all else: marks of version control, and an end that was lost."""

from __future__ import annotations

import re
from collections.abc import Iterable

from ..saying import counted
from ..tags.edits import Edit, known
from ..tags.profile import ROOT
from ..tags.similar import nearest
from ..tags.source import Explanation
from .faults import BAD_MARKUP, MISPLACED, NOT_UTF8, UNCLOSED, Fault

LONGEST_CHARACTER = 4
"""How many bytes a character has in UTF-8 at most."""

MARKS = re.compile(rb"^(?:<{7}|>{7}|\|{7}|={7})(?:[ \t][^\r\n]*)?$", re.MULTILINE)
CONFLICT = re.compile(rb"^(?:<{7}|>{7}|\|{7})(?:[ \t][^\r\n]*)?$", re.MULTILINE)
"""A line that version control leaves where two versions were not merged; the line between them may be part of a text."""

LINES = rb"(?:(?![<=>|]{7})[^\n]*\n)*"
VERSIONS = re.compile(rb"<{7}[^\n]*\n(%b)(?:\|{7}[^\n]*\n%b)?={7}[^\n]*\n(%b)>{7}[^\n]*(?:\n|\Z)" % (LINES, LINES, LINES))
"""All lines of both versions, with their marks."""

WITHOUT_BEGIN = re.compile(
    rb"(?<![<\w/])(?<!<!DOCTYPE )(?:(EVENT|TIMEX3|SIGNAL|MAKEINSTANCE|TLINK|ALINK|SLINK)"
    rb"(?:[ \t\r\n]+[\w:]+[ \t\r\n]*=[ \t\r\n]*(?:\"[^\"<>]*\"|'[^'<>]*'))+[ \t\r\n]*/?>|/(EVENT|TIMEX3|SIGNAL|TimeML)>|(TimeML)>)"
)
"""A tag in a text that would be one if a `<` stood before it."""

SIGNS = (b"<<<<<<<", b">>>>>>>", b"|||||||")
"""What such a line begins with."""

TAG = re.compile(rb"<(EVENT|MAKEINSTANCE|TLINK|SLINK|ALINK)\b([^<>]*)>")
NAMED = re.compile(rb"\b(eid|eventID|eiid|eventInstanceID|relatedToEventInstance|subordinatedEventInstance)\s*=\s*[\"']([^\"'<>]*)[\"']")
END_TAG = re.compile(rb"</[ \t\r\n]*([A-Za-z0-9]+)")
WITHOUT_END = re.compile(rb"<[^<>]*\Z")


def of_whole(document: bytes, fault: Fault) -> Explanation | None:
    """What a fault is about where it comes of something that is wrong with the file as a whole."""
    mark = first_conflict(document)
    if mark is not None:
        return of_conflict(document, mark)
    if fault.number <= MISPLACED and is_cut_off(document, fault):
        return of_lost_end(document, fault)
    bare = WITHOUT_BEGIN.search(document) if fault.number > BAD_MARKUP else None
    return of_lost_begin(bare) if bare is not None else None


def of_lost_begin(bare: re.Match[bytes]) -> Explanation:
    """A tag without its `<`."""
    found = Explanation(*bare.span())
    name = name_of_bare(bare)
    found.text = f"this {name.strip('/')} has no <: write <{name}"
    found.edits.append(Edit(found.start, found.start, b"<"))
    return found


def name_of_bare(bare: re.Match[bytes]) -> str:
    """The name of a tag without its `<`; that of an end tag with its slash."""
    return ("/" if bare[2] else "") + b"".join(group or b"" for group in bare.groups()).decode()


def version_marks(document: bytes) -> Iterable[tuple[int, int]]:
    """The lines that version control has left in a document, where it has."""
    return (mark.span() for mark in MARKS.finditer(document))


def first_conflict(document: bytes) -> re.Match[bytes] | None:
    """The first line that version control leaves."""
    return CONFLICT.search(document) if any(sign in document for sign in SIGNS) else None


def of_conflict(document: bytes, mark: re.Match[bytes]) -> Explanation:
    """Two versions of some lines: offered is to keep the one or the other one."""
    found = Explanation(*mark.span())
    block = VERSIONS.match(document, mark.start())
    if block is None:
        found.offer(Edit(mark.start(), min(mark.end() + 1, len(document)), b""))
    else:
        found.offered.append(known(*((Edit(block.start(), block.end(), version),) for version in block.groups())))
    found.text = (
        "a mark of version control: two versions of these lines were not merged; keep what is right of them, and delete the lines that "
        "begin with <<<<<<<, ======= and >>>>>>>"
    )
    return found


def is_cut_off(document: bytes, fault: Fault) -> bool:
    """Whether the end of a document was lost: its root is never closed, and it ends within a tag or a text, or as one that nests."""
    text = document.rstrip()
    opened = b"<" + ROOT.encode()
    if opened not in document or text.endswith(ROOT.encode() + b">"):
        return False
    if any(nearest(name.decode(), [ROOT]) for name in END_TAG.findall(document)):
        return False
    return fault.number == UNCLOSED or not text.endswith(b">")


def of_lost_end(document: bytes, fault: Fault) -> Explanation:
    """A document without its end, with what it lacks."""
    last = len(document.rstrip())
    within = WITHOUT_END.search(document)
    found = Explanation(max(last - 1, 0), last)
    if within is not None:
        found.start = within.start()
    in_character = fault.number == NOT_UTF8 and len(document) - fault.offset < LONGEST_CHARACTER
    where = "ends within a character" if in_character else "ends within a tag" if within is not None else f"has no </{ROOT}>"
    lacking = "".join(f", {words}" for words in lacking_in(document))
    found.text = (
        f"the file {where}{lacking}, so its end was lost: restore it from a copy, or if nothing else is missing write </{ROOT}> at the end"
    )
    found.offer(Edit(last, len(document), f"\n</{ROOT}>\n".encode()))
    return found


def lacking_in(document: bytes) -> Iterable[str]:
    """What the rest of a document misses: events without an instance, and instances without a link."""
    names: dict[bytes, set[bytes]] = {}
    for tag in TAG.finditer(document):
        for attribute, value in NAMED.findall(tag[2]):
            kind = attribute if tag[1] in (b"EVENT", b"MAKEINSTANCE") else b"link"
            names.setdefault(kind, set()).add(value)
    for whole, part, noun, what in ((b"eid", b"eventID", "event", "no instance"), (b"eiid", b"link", "instance", "no link")):
        of_all, without = names.get(whole, set()), names.get(whole, set()) - names.get(part, set())
        if without:
            verb = "has" if len(without) == 1 else "have"
            yield f"{len(without)} of {counted(len(of_all), noun)} {verb} {what}"
