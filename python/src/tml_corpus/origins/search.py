"""The origins of a faulty document: it with one keystroke undone, if `tml` then accepts it, or finds its first fault further on."""

from __future__ import annotations

import re
from bisect import bisect_right
from collections.abc import Callable, Iterator
from itertools import chain
from typing import NamedTuple

from tml.explaining import faults
from tml.explaining.faults import Fault
from tml.tags.profile import IDENTIFIERS, LINK_TAGS, TABLE
from tml.tags.values import has_form

from .draft import BROKEN, NOWHERE, SPACE, TAG, Draft, Tag, tags_of_units
from .keyboard import MEANT, TYPED, Keystroke, Keystrokes, undone
from .reading import Reading

Check = Callable[[str], Fault | None]
"""What `tml` says of a text: its first fault, whose place counts characters, or None if it accepts the text."""

EDGES = "<>/"
BLANKS = " \t\r\n\ufeff"
NOT_TEXT = re.compile("<!--.*?-->|<[!?].*?>", re.DOTALL)
COMMENT = 2048
"""How far after the beginning of a comment its end may have been lost."""

MOST_READ, MOST_CHECKED, MOST_BYTES = 60_000_000, 300, 16 << 20
"""How much is read of what is around keystrokes, which takes about a second, how many texts `tml` checks, and of how many characters
together. If that does not do, nothing is decided."""

EACH, EACH_ORIGIN, EACH_READ = 450, 2000, 8
"""What it takes of this to try the keystrokes of one kind at one place, to look at what one leaves, and to read a character of a tag."""

TURNS = re.compile("[/!?>-]")
"""What is in each keystroke that makes another kind of tag of a whole one, or a comment; but a `<` that was lost may begin one too."""

LOST_BEGINNING = re.compile(rf"(?<![</A-Za-z])[^<>/\s]?(?:{'|'.join(TABLE)}){SPACE}[^<>]{{,1024}}>")
"""A tag without its `<`, or with another character in its place."""

BAD_REFERENCE = re.compile("&(?!(?:lt|gt|amp|quot|apos|#[0-9]{1,7}|#x[0-9A-Fa-f]{1,6});)")
ELSEWHERE = {faults.UNBALANCED, faults.UNCLOSED, faults.MISPLACED, faults.TOO_DEEP, faults.DUPLICATE, faults.UNKNOWN_REFERENCE}
"""The faults that a slip in another tag may have brought about."""
OF_TAGS = ELSEWHERE - {faults.MISPLACED}
"""Those that no other text explains, if it begins no tag."""


class Origin(NamedTuple):
    """A document with one keystroke undone, and the stretch of the faulty document between the tags around it."""

    keystroke: Keystroke
    start: int
    end: int
    stretch: str
    """What the stretch was."""

    def applied(self, text: str) -> str:
        """The whole document."""
        return text[: self.start] + self.stretch + text[self.end :]


class Stretch(NamedTuple):
    """Where the slip may be, and which characters may have been lost there."""

    low: int
    high: int
    lost: str


def phase(number: int) -> int:
    """The pass over a document in which a fault is found: bytes, markup, nesting, attributes, identifiers."""
    return 1 + sum(number > last for last in (faults.NOT_UTF8, faults.BAD_MARKUP, faults.TOO_DEEP, faults.BAD_DATE))


def around(text: str, place: int) -> Stretch:
    """A tag with one character before it, and what follows it up to the next `<` and past that."""
    end = text.find("<", place + 1)
    return Stretch(place - 1, (len(text) if end < 0 else end) + 2, TYPED)


def stretches(draft: Draft, fault: Fault) -> Iterator[Stretch]:
    """Where the slip may be, by the phase of the fault."""
    text, place = draft.text, fault.offset
    if fault.number == faults.BAD_REFERENCE:
        yield Stretch(place - 2, place + 12, TYPED)
        return
    tag = TAG.match(text, place) if phase(fault.number) > phase(faults.UNBALANCED) else None
    yield around(text, place) if tag is None else Stretch(place - 1, tag.end() + 1, TYPED)
    if text.startswith("<!--", place):
        yield Stretch(place, place + COMMENT, TYPED)
    if phase(fault.number) == phase(faults.UNBALANCED) and fault.number != faults.UNKNOWN_TAG:
        yield from of_nesting(draft, place)
    if phase(fault.number) == phase(faults.DUPLICATE):
        yield from of_identifiers(draft, fault)


def of_nesting(draft: Draft, place: int) -> Iterator[Stretch]:
    """The innermost open tag, and what may have been the other half of a tag: the edges of tags from there on, and texts with a `>`."""
    last = draft.within(0, place)[1]
    open_tags: list[Tag] = []
    for tag in draft.tags[:last]:
        if tag.kind == "start":
            open_tags.append(tag)
        elif tag.kind == "end" and open_tags:
            open_tags.pop()
    first = (open_tags or draft.tags[max(last - 1, 0) : last] or [Tag(0, 0, "", "", ())])[-1].start
    yield around(draft.text, first)
    for tag in draft.tags[draft.within(0, first + 1)[1] : last]:
        if tag.name in draft.unbalanced:
            yield Stretch(tag.start - 1, tag.start + 1, EDGES)
            yield Stretch(tag.end - 2, tag.end, EDGES)
    for found in re.finditer(">[^<]*>", draft.text[first:place]):
        yield Stretch(first + found.start(), first + found.end(), EDGES)


def of_identifiers(draft: Draft, fault: Fault) -> Iterator[Stretch]:
    """The tags that may be meant, the earlier one of two with one identifier, and texts that are a tag without its `<`."""
    here = next((tag for tag in draft.tags if tag.start == fault.offset), None)
    if here is None:
        return
    missing = {one for one in here.references() if one in draft.lacking}
    for tag in draft.tags:
        known = tag.declares()
        if known is None:
            continue
        is_double = fault.number == faults.DUPLICATE and known[1] == here.identifier()
        if is_double or any(name == known[0] and is_near(known[1], value) for name, value in missing):
            start = draft.text.index(known[1], identifier_of(draft.text, tag))
            yield Stretch(start - 1, start + len(known[1]) + 1, TYPED)
    for found in LOST_BEGINNING.finditer(draft.text):
        yield Stretch(found.start() - 1, found.start() + 2, "<")


def identifier_of(text: str, tag: Tag) -> int:
    """Where the value of the identifier of a tag begins, or a place between its name and the value."""
    found = re.compile(rf"{SPACE}{IDENTIFIERS[tag.name]}{SPACE}*=").search(text, tag.start, tag.end)
    return found.end() if found is not None else tag.start


def is_near(name: str, other: str) -> bool:
    """Whether one keystroke makes the first name of the second one."""
    same = next((place for place, (one, two) in enumerate(zip(name, other, strict=False)) if one != two), min(len(name), len(other)))
    rest = zip(reversed(name[same:]), reversed(other[same:]), strict=False)
    after = next((place for place, (one, two) in enumerate(rest) if one != two), min(len(name), len(other)) - same)
    typed, meant = name[same : len(name) - after], other[same : len(other) - after]
    if len(typed) == len(meant) == 1:
        return meant in MEANT.get(typed, "")
    return len(typed) + len(meant) == 1 or (len(typed) == 2 and meant == typed[::-1])


def has_a_time(tag: Tag) -> bool:
    """Whether the value of a tag, if it is a time with one, is a value of times: anything else is no date, and so no fault."""
    return tag.name != "TIMEX3" or all(has_form(value) for name, value in tag.pairs if name == "value")


def origin_of(text: str, keys: Keystrokes, meant: str, start: int, end: int) -> Origin:
    """One of some keystrokes with what it leaves between two places."""
    return Origin(Keystroke(keys.slip, keys.start, keys.end, meant), start, end, text[start : keys.start] + meant + text[keys.end : end])


class Search:
    """The search for the origins of one document."""

    def __init__(self, draft: Draft, fault: Fault, check: Check) -> None:
        self.draft, self.fault, self.check = draft, fault, check
        self.reading = Reading(draft.text)
        self.good: dict[str, bool] = {}
        self.checked, self.most_checked = 0, min(MOST_CHECKED, MOST_BYTES // (len(draft.text) + 1))
        self.seen, self.left = set[tuple[int, int, str]](), MOST_READ
        self.place_before, self.places_after = (-1, 0), dict[int, int]()

    def origins(self) -> list[Origin] | None:
        """The origins that `tml` accepts; if there is none, those whose first fault is further on. None if the search is too long."""
        kept: list[tuple[Origin, list[Tag]]] = []
        for accepts, those in (
            (self.is_accepted, self.well_formed(True, kept)),
            (self.goes_further, chain(kept, self.well_formed(False, []))),
        ):
            found: list[Origin] = []
            for origin, tags in those:
                found += [origin] * accepts(origin, tags)
                if self.checked > self.most_checked or self.left < 0:
                    return None
            if self.left < 0:
                return None
            if found:
                return found
        return []

    def well_formed(self, may_nest: bool, kept: list[tuple[Origin, list[Tag]]]) -> Iterator[tuple[Origin, list[Tag]]]:
        """The stretches that are units and may be of the document, each with its tags: those with which the document may nest, or the
        others. They are kept too."""
        for origin in self.whole(may_nest):
            if origin[1:] in self.seen:
                continue
            self.seen.add(origin[1:])
            self.left -= EACH_ORIGIN + len(origin.stretch)
            tags = tags_of_units(origin.stretch)
            if tags is not None:
                self.left -= EACH_READ * sum(tag.end - tag.start for tag in tags)
                if self.may_be(origin, tags):
                    kept.append((origin, tags))
                    yield kept[-1]

    def whole(self, may_nest: bool) -> Iterator[Origin]:
        """The stretches that are units as far as the automaton can tell."""
        for keys in chain.from_iterable(undone(self.draft.text, *one) for one in stretches(self.draft, self.fault)):
            self.left -= EACH
            if self.left < 0:
                return
            yield from self.of_keystrokes(keys, may_nest)

    def of_keystrokes(self, keys: Keystrokes, may_nest: bool) -> Iterator[Origin]:
        """Keystrokes with what is between the tags around them, and none that leaves what is at fault as it is."""
        text, place = self.draft.text, self.fault.offset
        start, end = self.before(keys.start), self.after(keys.end)
        if text.startswith("<!--", place) and keys.start > place:
            start = place
            left, right, old = text[keys.start - 2 : keys.start], text[keys.end : keys.end + 2], text[keys.start - 1 : keys.end]
            if "-" not in left + old + right:
                return
            keys = keys._replace(texts=tuple(meant for meant in keys.texts if "--" in left + meant + right + old))
        if self.fault.number not in ELSEWHERE and not start <= place < end:
            return
        if self.fault.number in OF_TAGS and self.reading.is_text(start, keys):
            keys = keys._replace(texts=tuple(meant for meant in keys.texts if "<" in meant))
        found = self.reading.outcomes(start, keys, end)
        for meant in self.nesting(start, end, keys, found.whole, may_nest):
            yield origin_of(text, keys, meant, start, end)
        if found.in_comment:
            end = self.after(max(text.find("-->", keys.end), keys.end))
            found = self.reading.outcomes(start, keys._replace(texts=found.in_comment), end)
            for meant in self.nesting(start, end, keys, found.whole, may_nest):
                yield origin_of(text, keys, meant, start, end)

    def nesting(self, start: int, end: int, keys: Keystrokes, texts: tuple[str, ...], may_nest: bool) -> Iterator[str]:
        """The texts with which the tags of the document may nest, by what is around the stretch and by how many tags lack their other half;
        or the others."""
        if not texts:
            return
        draft, (first, last) = self.draft, self.draft.within(start, end)
        is_nested = BROKEN not in (draft.before[first], draft.needed[last])
        was = draft.text[keys.start : keys.end]
        # If only whole tags are there, another keystroke adds or takes away one tag at most.
        needs_turn = abs(draft.unbalanced.total()) > 1 and not TURNS.search(was) and self.reading.is_whole(start, keys, end)
        for meant in texts:
            if may_nest == (is_nested and not (needs_turn and "<" not in meant and not TURNS.search(meant))):
                yield meant

    def before(self, place: int) -> int:
        """The last `<` before a place that is in no comment, or 0."""
        if place != self.place_before[0]:
            start = max(self.draft.text.rfind("<", 0, place), 0)
            comment = self.draft.comments[bisect_right(self.draft.comments, (start, len(self.draft.text))) - 1]
            self.place_before = place, comment[0] if comment[0] <= start < comment[1] else start
        return self.place_before[1]

    def after(self, place: int) -> int:
        """The first `<` after a place, or the end of the document."""
        if place not in self.places_after:
            end = self.draft.text.find("<", place + 1)
            self.places_after = self.places_after if len(self.places_after) < 4 else {}
            self.places_after[place] = len(self.draft.text) if end < 0 else end
        return self.places_after[place]

    def is_accepted(self, origin: Origin, tags: list[Tag]) -> bool:
        """Whether the whole document is accepted: first by what it needs of the stretch, and then by `tml`."""
        draft, (first, last) = self.draft, self.draft.within(origin.start, origin.end)
        before, needed = draft.before[first], draft.needed[last]
        if draft.after(before, tags) != needed or not draft.refers_well(first, last, tags):
            return False
        return (
            draft.are_single(first, last, tags, draft.repeated)
            and not self.has_stray_text(origin, tags, before)
            and self.are_good(origin, tags)
            and self.first_fault(origin) is None
        )

    def may_be(self, origin: Origin, tags: list[Tag]) -> bool:
        """Whether each tag of a stretch may be one of the document, and each reference is one to a character."""
        key, stretch = origin.keystroke, (origin.start, origin.end)
        if not all(self.draft.is_known(tag, stretch, (key.start, key.end)) for tag in tags):
            return False
        has_times = self.fault.number != faults.BAD_DATE or all(map(has_a_time, tags))
        return has_times and not BAD_REFERENCE.search(NOT_TEXT.sub("", origin.stretch))

    def has_stray_text(self, origin: Origin, tags: list[Tag], path: int) -> bool:
        """Whether there is text outside of the root or within a tag that holds none."""
        at = 0
        for tag in (*tags, Tag(len(origin.stretch), len(origin.stretch), "", "", ())):
            holds_none = path == NOWHERE or self.draft.above[path][1] in LINK_TAGS
            if holds_none and NOT_TEXT.sub("", origin.stretch[at : tag.start]).strip(BLANKS):
                return True
            path, at = self.draft.after(path, [tag]), tag.end
        return False

    def goes_further(self, origin: Origin, tags: list[Tag]) -> bool:
        """Whether the first fault is a later one and outside of the stretch, and no more tags lack their other half."""
        draft, fault, (first, last) = self.draft, self.fault, self.draft.within(origin.start, origin.end)
        if fault.number == faults.TOO_DEEP:
            return False
        until = draft.within(0, fault.offset + 1)[1]
        most = -1 if fault.number in (faults.UNBALANCED, faults.UNCLOSED) else draft.strays
        if draft.comes_apart(first, last, tags) > most:
            return False
        if phase(fault.number) >= phase(faults.UNBALANCED):
            self.left -= EACH_READ * (until - last)
            if BROKEN in (draft.before[first], draft.after(draft.before[first], [*tags, *draft.tags[last:until]])):
                return False
        if fault.number == faults.UNKNOWN_REFERENCE and not self.is_found(origin, tags):
            return False
        if fault.number == faults.DUPLICATE and not draft.are_single(first, last, tags, self.own()):
            return False
        following = self.first_fault(origin) if self.are_good(origin, tags) and not self.may_be_misnamed(tags) else fault
        if following is None:
            return True
        moved = fault.offset + (len(origin.stretch) - (origin.end - origin.start)) * (origin.keystroke.start <= fault.offset)
        is_later = (phase(following.number), following.offset) > (phase(fault.number), moved)
        return is_later and not self.is_of_origin(origin, tags, following.offset)

    def is_of_origin(self, origin: Origin, tags: list[Tag], place: int) -> bool:
        """Whether a place is in the stretch, and not where a tag begins that is as it was."""
        start = origin.keystroke.start - origin.start
        end = max(start + len(origin.keystroke.text), start + 1)
        as_it_was = any(tag.start == place - origin.start and (tag.start >= end or tag.end <= start) for tag in tags)
        return origin.start <= place < origin.start + len(origin.stretch) and not as_it_was

    def may_be_misnamed(self, tags: list[Tag]) -> bool:
        """Whether no tag refers to one of some tags, and a reference in vain may mean it."""
        come = {one for one in (tag.declares() for tag in tags) if one is not None}
        wanted = {name for name, value in self.draft.lacking if (name, value) not in come}
        return any(one not in self.draft.referred and one[0] in wanted for one in come)

    def own(self) -> list[tuple[str, str]]:
        """What the tag at fault declares."""
        return [known for tag in self.draft.tags if tag.start == self.fault.offset and (known := tag.declares()) is not None]

    def is_found(self, origin: Origin, tags: list[Tag]) -> bool:
        """Whether what is referred to in vain is there now, or the tag at fault refers to other tags."""
        come = {tag.declares() for tag in tags}
        is_here = origin.start <= self.fault.offset < origin.end
        found = all(one in self.draft.declared or one in come for tag in tags for one in tag.references())
        return found and (is_here or any(one in come for one in self.draft.lacking))

    def are_good(self, origin: Origin, tags: list[Tag]) -> bool:
        """Whether `tml` finds no fault in the attributes of each tag alone."""
        return all(self.is_good(origin.stretch[tag.start : tag.end], tag) for tag in tags if tag.name in TABLE and tag.kind != "end")

    def is_good(self, written: str, tag: Tag) -> bool:
        """Whether `tml` finds no fault in the attributes of a tag."""
        if written not in self.good:
            self.checked += 1
            if self.checked > self.most_checked:
                return False
            whole = written if tag.kind == "empty" else written[:-1] + "/>"
            fault = self.check(f"<TimeML>{whole}</TimeML>")
            self.good[written] = fault is None or phase(fault.number) == phase(faults.DUPLICATE)
        return self.good[written]

    def first_fault(self, origin: Origin) -> Fault | None:
        """The first fault of an origin. After too many checks it is the one that is known."""
        self.checked += 1
        return self.fault if self.checked > self.most_checked else self.check(origin.applied(self.draft.text))
