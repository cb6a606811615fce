"""Which origin of a faulty document is meant, if that can be known: the one whose meaning is left when worse ones are set aside."""

from __future__ import annotations

import re
from bisect import bisect_left, bisect_right
from collections import Counter, defaultdict
from collections.abc import Callable, Iterator, Sequence
from dataclasses import dataclass, field
from functools import cached_property
from itertools import product
from typing import NamedTuple

from tml.explaining.attributes import OTHER_RELATIONS, SAME_RELATIONS, UNCLEAR_RELATIONS
from tml.explaining.faults import Fault
from tml.tags.profile import LINK_TAGS, ROOT, TABLE, WRAPPERS, Kind
from tml.tags.values import has_form

from .draft import NAME, SPACE, Draft, Tag, tags_of
from .keyboard import MEANT, Slip
from .search import NOT_TEXT, Check, Origin, Search

BETWEEN = "between links"
BARE = (ROOT, "DOC", "BODY", "DCT", BETWEEN)
"""The places that mostly have no text: tags that hold others, and what is between links."""

MEANT_ELSEWHERE = OTHER_RELATIONS.keys() | SAME_RELATIONS.keys() | UNCLEAR_RELATIONS.keys()
"""Relations of other schemes."""

MOST_COMPARED, MOST_READ = 400, 250_000
"""Of more origins, or of origins that are further apart so that more characters are compared, none is set aside."""

IN_TEXT = ("markup in text", "slash", "bare text")
BLEMISHES = (*IN_TEXT, "odd value", "nested", "shape", "name", "tag", "identifier", "gap")
"""What a document would hardly have, the worst first. Only the first three set an origin aside that has another text: what is usual next
to other tags says nothing of a letter or a sign. The last one does so only if origins differ in white space alone."""

EDGE = re.compile("[<>\"']")
SIGN = re.compile("(?<!(?<!-)[-=])(?<![^\\s\"'/]\\s)>|!--")
"""A `>` in a text that is neither the head of an arrow nor between words, or the beginning of a comment."""

FEW, MANY = 2, 1000
"""So few others say nothing of what is usual, and of more than so many nothing new is learnt."""

MOST_SPACES = 64
"""How much white space before a tag is compared at most."""

AFTER, BEFORE = re.compile(r"(?P<run>\s*+)(?P<next>\S)"), re.compile(r"(?P<next>\S)(?P<run>\s*+)\Z")
ODD = re.compile(r"\A[\s\"'=]|[\s\"']\Z|=\s*[\"']")
BEGINNING = re.compile(f"</?({NAME})")
SPACED_END = re.compile(rf"{SPACE}/?>\Z")


@dataclass(frozen=True)
class Restored:
    """The only origin that is left."""

    origin: Origin


@dataclass(frozen=True)
class Question:
    """Origins with different meanings, one of each, or none if there were too many to look at."""

    likely: tuple[Origin, ...] = ()
    """Those that are in no doubt by themselves."""
    unlikely: tuple[Origin, ...] = ()


def chosen(draft: Draft, fault: Fault, check: Check) -> Restored | Question | None:
    """What a document with a fault was; None if no keystroke explains the fault."""
    found = Search(draft, fault, check).origins()
    if found is None:
        return Question()
    return Choice(draft, found).result() if found else None


def shape(identifier: str) -> str:
    """An identifier whatever its numbers are."""
    return re.sub(r"\d+", "0", identifier)


def outline(identifier: str) -> str:
    """An identifier whatever its numbers and letters are."""
    return re.sub(r"[^\W\d_]+", "a", shape(identifier))


class Lesson(NamedTuple):
    """How one tag is written: what is before, after and between its ends, and whether there is white space before its `>`."""

    left: tuple[bool, bool] | None
    right: tuple[bool, bool] | None
    gaps: tuple[tuple[str, str, str], ...]
    attributes: list[str]
    is_spaced: bool


@dataclass
class Likeness:
    """How tags of one name and kind are written: how many there are, and what is before, after and between them."""

    count: int = 0
    lefts: set[tuple[bool, bool] | None] = field(default_factory=set)
    rights: set[tuple[bool, bool] | None] = field(default_factory=set)
    gaps: set[tuple[str, str, str]] = field(default_factory=set)
    attributes: set[str] = field(default_factory=set)
    is_spaced: bool = False
    """Whether there is white space before the `>` of one."""

    def learn(self, lesson: Lesson) -> None:
        """Takes in how one more tag is written; after many only its attributes."""
        self.count += 1
        self.attributes.update(lesson.attributes)
        if self.count <= MANY:
            self.lefts.add(lesson.left)
            self.rights.add(lesson.right)
            self.gaps.update(lesson.gaps)
            self.is_spaced |= lesson.is_spaced


@dataclass
class Style:
    """How the tags that no origin changes are written."""

    by_name: defaultdict[str, defaultdict[str, Likeness]] = field(default_factory=lambda: defaultdict(lambda: defaultdict(Likeness)))
    """For each name and each kind of tag."""
    by_kind: defaultdict[tuple[str, str], Likeness] = field(default_factory=lambda: defaultdict(Likeness))
    """For each kind of tag, and what it is for."""
    identifiers: defaultdict[str, list[str]] = field(default_factory=lambda: defaultdict(list))
    with_text: set[str] = field(default_factory=set)
    """The places that have text: names of tags, or between links."""
    nested: set[str] = field(default_factory=set)
    """The names of tags that are within one of the same name."""
    blank: int = 0
    """How many of the places that mostly have no text have none."""
    has_slash: bool = False
    """Whether there is a slash before a tag."""
    has_sign: bool = False
    """Whether there is a `>` in the text."""

    @cached_property
    def shapes(self) -> dict[str, tuple[Callable[[str], str], set[str]]]:
        """For each name how its identifiers are alike, if they are, and what they have in common."""
        found = dict[str, tuple[Callable[[str], str], set[str]]]()
        for (name, known), how in product(self.identifiers.items(), (outline, shape)):
            alike = {how(one) for one in known}
            if 2 * len(alike) <= len(known):
                found[name] = how, alike
        return found

    def has_other_shape(self, tag: Tag) -> bool:
        """Whether the identifier of a tag is not like those of the other tags of its name."""
        how, alike = self.shapes.get(tag.name, (shape, set()))
        return tag.identifier() != "" and len(alike) > 0 and how(tag.identifier()) not in alike


def kind_of(character: str) -> tuple[bool, bool] | None:
    """Whether a letter or digit is a digit, and whether it is upper-case; None for another character."""
    return (character.isdigit(), character.isupper()) if character.isalnum() else None


def is_odd(tag: str, name: str, value: str) -> bool:
    """Whether a value of an attribute of a tag has a sign that no value has there, or is no value of a time."""
    return ODD.search(value) is not None or (tag == "TIMEX3" and name == "value" and not has_form(value))


def is_quoted(value: str, text: str) -> bool:
    """Whether a value is somewhere in a text between quotes."""
    return f'"{value}"' in text or f"'{value}'" in text


def in_order(text: str) -> str:
    """A text with single spaces for the white space in its comments and declarations."""
    return NOT_TEXT.sub(lambda found: " ".join(found[0].split()), text)


def texts(part: str) -> list[str]:
    """What is before, between and after the tags of a part."""
    tags = list(tags_of(part))
    return [part[start:end] for start, end in zip([0, *(tag.end for tag in tags)], [*(tag.start for tag in tags), len(part)], strict=True)]


def place_of(inner: str, before: str, after: str) -> str:
    """Where a text is, by the name of the innermost tag around it and the names of the tags before and after it."""
    return BETWEEN if before in LINK_TAGS and after in (*LINK_TAGS, ROOT) else inner


def gaps(tag: Tag, text: str) -> Iterator[tuple[str, str, str]]:
    """The side, what is next there, and the white space between, or whether a letter or digit is there; nothing at the end of the text."""
    around = ("before", BEFORE.search(text, max(tag.start - MOST_SPACES, 0), tag.start)), ("after", AFTER.match(text, tag.end))
    for side, found in around:
        if found is not None:
            place = text.rfind("<", 0, tag.start) if found["next"] == ">" else found.start("next")
            yield side, next_to(text, place), found["run"] or ("letter" if found["next"].isalnum() else "")


def next_to(text: str, place: int) -> str:
    """What begins at a place: text, or a tag for something."""
    found = BEGINNING.match(text, max(place, 0))
    return "text" if found is None else purpose(found[1])


def purpose(name: str) -> str:
    """What a tag is for."""
    return "link" if name in LINK_TAGS else "mark" if name in TABLE else "wrapper"


class Choice:
    """The choice between some origins."""

    def __init__(self, draft: Draft, origins: Sequence[Origin]) -> None:
        self.draft, self.origins = draft, origins
        self.low, self.high = min(one.start for one in origins), max(one.end for one in origins)
        self.touched = sorted({place for one in origins for place in range(one.keystroke.start - 1, one.keystroke.end + 2)})
        self.style = self.style_elsewhere()
        first, last = min(one.keystroke.start for one in origins), max(one.keystroke.end for one in origins)
        self.calm_names = draft.calm_names((self.low, self.high), (first, last - 1))

    def style_elsewhere(self) -> Style:
        """The style of the tags that no origin touches."""
        style, last, before = Style(), 0, ""
        for number, tag in enumerate(self.draft.tags):
            path = (self.draft.before if tag.start <= self.low else self.draft.needed)[number]
            is_calm, is_tag_calm = self.is_calm(last, tag.start), self.is_calm(tag.start, tag.end)
            if is_calm:
                text = NOT_TEXT.sub("", self.draft.text[last : tag.start]) if path > 0 and is_tag_calm and last < tag.start else ""
                self.learn_text(style, text, place_of(self.draft.above[path][1], before, tag.name) if path > 0 else "")
            if is_tag_calm:
                self.learn_tag(style, tag, path)
            last, before = tag.end, tag.name
        return style

    def learn_text(self, style: Style, text: str, place: str) -> None:
        """Takes in a text before a tag, and where it is."""
        if not text.strip():
            style.blank += place in BARE
            return
        style.with_text.add(place)
        style.has_slash |= text.endswith("/")
        style.has_sign |= SIGN.search(text) is not None

    def learn_tag(self, style: Style, tag: Tag, path: int) -> None:
        """Takes in how a tag is written, and after which path it is."""
        text, alike = self.draft.text, style.by_name[tag.name][tag.kind]
        of_kind, attributes = style.by_kind[tag.kind, purpose(tag.name)], [name for name, _ in tag.pairs]
        if alike.count < MANY:
            sides = kind_of(text[tag.start - 1 : tag.start]), kind_of(text[tag.end : tag.end + 1])
            is_spaced = SPACED_END.search(text, max(tag.start, tag.end - MOST_SPACES), tag.end) is not None
            lesson = Lesson(*sides, tuple(gaps(tag, text)), attributes, is_spaced)
        else:
            lesson = Lesson(None, None, (), attributes, False)
        alike.learn(lesson)
        of_kind.learn(lesson)
        if identifier := tag.identifier():
            style.identifiers[tag.name].append(identifier)
        if tag.kind == "start" and tag.name not in style.nested and tag.name in self.draft.names(path):
            style.nested.add(tag.name)

    def is_calm(self, first: int, last: int) -> bool:
        """Whether no origin touches any place from the first to the last one."""
        is_apart = last < self.touched[0] or first > self.touched[-1]
        return is_apart or bisect_left(self.touched, first) == bisect_right(self.touched, last)

    def result(self) -> Restored | Question:
        """The origin that is left, or those of each meaning; none if they are too far apart for a comparison."""
        if (self.high - self.low) * len(self.origins) > MOST_READ:
            return Question()
        keys = [one.keystroke for one in self.origins]
        exchanged = {key.start for key in keys if key.slip is Slip.EXCHANGED and EDGE.search(key.text)}
        groups: dict[str, list[Origin]] = {}
        for origin in self.origins:
            if not self.is_chance(origin, exchanged):
                groups.setdefault(self.meaning(origin), []).append(origin)
        left = list(groups.values())
        if len(self.origins) <= MOST_COMPARED:
            left = self.without_worse(left)
        best = [min(group, key=lambda origin: (self.own_blemishes(origin).total(), len(origin.stretch))) for group in left]
        blemishes = [self.own_blemishes(origin) for origin in best]
        likely = tuple(origin for origin, found in zip(best, blemishes, strict=True) if not found)
        rivals = tuple(one for one in self.origins if len(best) == 1 and self.are_rivals(best[0], one))
        if len(best) == len(likely) == 1 and not rivals:
            return Restored(best[0])
        likely += rivals
        unlikely = [origin for origin, found in zip(best, blemishes, strict=True) if found and not found["markup in text"]]
        return Question(likely, tuple(unlikely if likely or unlikely else best))

    def is_chance(self, origin: Origin, exchanged: set[int]) -> bool:
        """Whether an origin needs a chance if two characters may have been exchanged at the edge of a tag or value, by the places of the
        first of them: a finger struck a far key for nothing, or the character that was lost is also the next one, and then alone in the
        text. Or if the last letter of an end tag may have been struck twice: then it would be alone in the text."""
        key, text = origin.keystroke, self.draft.text
        if key.slip is Slip.EXCHANGED and origin.stretch.startswith("</") and key.text[0] == ">":
            return key.text[1].isalpha() and text[key.start - 1] == key.text[1] and not text[key.end : key.end + 1].isalnum()
        if key.slip is Slip.STRUCK and {key.start, key.start - 1} & exchanged:
            return text[key.start].isalnum() and self.is_far(key.start) and self.is_of_word(key.start, exchanged)
        if key.slip is Slip.LOST and key.text.isalnum():
            after, before = text[key.start + 1 : key.start + 3], text[max(key.start - 3, 0) : key.start - 1]
            return (key.start in exchanged and after[:1] == key.text and not after[1:].isalnum()) or (
                key.start - 2 in exchanged and before[-1:] == key.text and not before[:-1].isalnum()
            )
        return False

    def is_far(self, place: int) -> bool:
        """Whether a character is of a key that is neither that of the characters around it nor next to it."""
        typed, around = self.draft.text[place], self.draft.text[max(place - 1, 0) : place] + self.draft.text[place + 1 : place + 2]
        return typed not in around and not any(one in MEANT.get(typed, "") for one in around)

    def is_of_word(self, place: int, exchanged: set[int]) -> bool:
        """Whether a letter, if it is exchanged with the sign before or after it, is next to another letter or digit."""
        text = self.draft.text
        return (place in exchanged and text[place + 2 : place + 3].isalnum()) or (
            place - 1 in exchanged and text[max(place - 2, 0) : max(place - 1, 0)].isalnum()
        )

    def are_rivals(self, one: Origin, other: Origin) -> bool:
        """Whether a character was lost next to a key that is next to its own, by one of two origins, and that key struck for it, by the
        other one. Whether the key is of the text then nobody knows."""
        if {one.keystroke.slip, other.keystroke.slip} != {Slip.LOST, Slip.NEIGHBOUR} or one.keystroke.text != other.keystroke.text:
            return False
        lost, struck = (one, other) if one.keystroke.slip is Slip.LOST else (other, one)
        is_near = lost.keystroke.start in (struck.keystroke.start, struck.keystroke.end) and self.text_of(one) != self.text_of(other)
        found = self.own_blemishes(other)
        return is_near and not (found["markup in text"] or found["odd value"] or (found["bare text"] and self.style.blank > FEW))

    def without_worse(self, groups: list[list[Origin]]) -> list[list[Origin]]:
        """The groups with the fewest blemishes of each kind, the worst kind first."""
        if len(groups) < 2:
            return groups
        counted = [[self.blemishes(origin) for origin in group] for group in groups]
        left = list(range(len(groups)))
        for kind in BLEMISHES:
            if kind not in IN_TEXT and len({self.text_of(groups[number][0]) for number in left}) > 1:
                break
            if kind == "gap" and len({re.sub(r"\s|\\[rn]", "", self.meaning(groups[number][0])) for number in left}) > 1:
                continue
            fewest = {number: min(one[kind] for one in counted[number]) for number in left}
            left = [number for number in left if fewest[number] == min(fewest.values())]
        return [groups[number] for number in left]

    def text_of(self, origin: Origin) -> str:
        """The text of the common stretch of an origin without white space."""
        return "".join("".join(texts(self.part(origin))).split())

    def part(self, origin: Origin) -> str:
        """What an origin has in the stretch that is common to all."""
        return self.draft.text[self.low : origin.start] + origin.stretch + self.draft.text[origin.end : self.high]

    def meaning(self, origin: Origin) -> str:
        """What the common stretch says: its tags with their attributes in any order, and its text."""
        part, found, at = self.part(origin), [], 0
        for tag in tags_of(part):
            found += [in_order(part[at : tag.start]), (tag.name, tag.kind, sorted(tag.pairs))]
            at = tag.end
        return repr([*found, in_order(part[at:])])

    def blemishes(self, origin: Origin) -> Counter[str]:
        """What is unlikely in the common stretch of an origin."""
        found = Counter(self.unlikely(self.part(origin), self.low, self.high, self.calm_names, lambda first, last: True, FEW))
        if origin.keystroke.slip in (Slip.STRUCK, Slip.EXCHANGED):
            # What was typed before, if in another order, is in the text.
            del found["slash"]
        return found

    def own_blemishes(self, origin: Origin) -> Counter[str]:
        """What is unlikely about the changed place itself; a letter of the text is in doubt, and so is a sign that it may have had."""
        key = origin.keystroke
        start = key.start - origin.start
        end = start + len(key.text)
        names = self.draft.calm_names((origin.start, origin.end), (key.start, key.end - 1))
        found = Counter(
            self.unlikely(origin.stretch, origin.start, origin.end, names, lambda first, last: first <= end and last >= start, -1)
        )
        tags = list(tags_of(origin.stretch))
        for kind in ("gap", "tag", *self.as_it_was(origin, tags)):
            del found[kind]
        whole = [(tag.start, tag.end) for tag in tags] + [found.span() for found in NOT_TEXT.finditer(origin.stretch)]
        struck = self.draft.text[key.start : key.end] if key.slip is Slip.STRUCK else ""
        is_typed = key.slip in (Slip.LOST, Slip.NEIGHBOUR) and not any(first <= start < last for first, last in whole)
        if is_typed or struck == "&" or (struck == "<" and not any(tag.start <= start <= tag.end for tag in tags)):
            found["typed text"] += 1
        if any(self.may_be_meant(origin)):
            found["value"] += 1
        return found

    def as_it_was(self, origin: Origin, tags: list[Tag]) -> Iterator[str]:
        """The blemishes that the stretch of an origin with some tags may have had before, or that the document has elsewhere too."""
        was = self.draft.text[origin.start : origin.end]
        if texts(origin.stretch) == texts(was):
            yield from IN_TEXT
        if self.style.has_sign:
            yield "markup in text"
        if all(is_quoted(tag.identifier(), was) for tag in tags if tag.identifier()):
            yield "identifier"

    def may_be_meant(self, origin: Origin) -> Iterator[bool]:
        """For each changed value, whether it may have been meant: as one of another scheme, or as the identifier of a tag that was lost."""
        first, last = self.draft.within(origin.start, origin.end)
        tags, was_there = list(tags_of(origin.stretch)), self.draft.tags[first:last]
        same = {tag[2:] for tag in tags} & {tag[2:] for tag in was_there}
        old = {name: value for tag in was_there if tag[2:] not in same for name, value in tag.pairs}
        for tag in tags:
            for name, value in tag.pairs if tag.name in TABLE and tag[2:] not in same else ():
                row, was = TABLE[tag.name].get(name), old.get(name, value)
                if row is None or was == value:
                    continue
                if row.form.kind is Kind.LISTED:
                    yield was in MEANT_ELSEWHERE
                if row.form.kind is Kind.TEXT:
                    # A date that no calendar has may have been written in another order.
                    yield True
                if row.form.kind is Kind.REFERENCE:
                    shapes = {shape(one) for kind, one in self.draft.declared if kind == row.form.target}
                    is_needed = name == "eventID" and (row.form.target, value) not in self.draft.referred
                    yield shape(was) in shapes and not is_needed

    def unlikely(self, part: str, low: int, high: int, named: set[str], looks_at: Callable[[int, int], bool], few: int) -> Iterator[str]:
        """What is unlikely in a part that is there in place of a stretch: in its text, and about tags and edges of tags in places that
        are looked at. What is usual is so by more than a few others."""
        (first, last), was = self.draft.within(low, high), self.draft.text[low:high]
        path, at, before = self.draft.before[first], 0, ""
        following = self.draft.tags[last].name if last < len(self.draft.tags) else ""
        padded = (self.draft.text[low - 1 : low] or " ") + part + (self.draft.text[high : high + 1] or " ")
        for tag in (*tags_of(part), Tag(len(part), len(part), "", "", ())):
            text = NOT_TEXT.sub("", part[at : tag.start])
            inner = self.draft.above[path][1] if path > 0 else ""
            yield from self.of_text(text, place_of(inner, before, tag.name or following), few)
            if text.endswith("/") and tag.name and not self.style.has_slash:
                yield "slash"
            if tag.name and looks_at(tag.start, tag.end):
                left = kind_of(padded[tag.start]) if looks_at(tag.start - 1, tag.start + 1) else None
                right = kind_of(padded[tag.end + 1]) if looks_at(tag.end - 1, tag.end + 1) else None
                yield from self.of_tag(tag, part + padded[-1], left, right, few)
                known = {*TABLE.get(tag.name, ()), *self.style.by_name[tag.name][tag.kind].attributes, *named}
                yield from ["name"] * sum(name not in known for name, _ in tag.pairs)
                if any(is_odd(tag.name, name, value) and not is_quoted(value, was) for name, value in tag.pairs):
                    yield "odd value"
            is_usual = tag.kind != "start" or tag.name in self.style.nested or self.style.by_name[tag.name]["start"].count <= few
            if not is_usual and path > 0 and tag.name in self.draft.names(path):
                yield "nested"
            if tag.name:
                path = self.draft.after(path, [tag])
            at, before = tag.end, tag.name

    def of_text(self, text: str, place: str, few: int) -> Iterator[str]:
        """What is unlikely in a text."""
        yield from ["markup in text"] * len(SIGN.findall(text))
        if text.strip() and place in BARE and place not in self.style.with_text and self.style.blank > few:
            yield "bare text"

    def of_tag(self, tag: Tag, part: str, left: tuple[bool, bool] | None, right: tuple[bool, bool] | None, few: int) -> Iterator[str]:
        """What is unlikely about a tag between two characters, by those that are like it."""
        named = self.style.by_name[tag.name]
        alike = named[tag.kind]
        has_some = alike.count > FEW
        yield from ["glued"] * (has_some and left is not None and left not in alike.lefts)
        yield from ["glued"] * (has_some and right is not None and right not in alike.rights)
        if tag.kind == "empty" and tag.name in (ROOT, *WRAPPERS, "EVENT", "SIGNAL", "TIMEX3") and not alike.count:
            yield "shape"
        of_kind = self.style.by_kind[tag.kind, purpose(tag.name)]
        if SPACED_END.search(part, tag.start, tag.end) and of_kind.count and not of_kind.is_spaced:
            yield "shape"
        if tag.name not in TABLE and not any(one.count for one in named.values()) and self.style.by_kind["start", "wrapper"].count > few:
            yield "tag"
        if self.style.has_other_shape(tag):
            yield "identifier"
        usual = alike if has_some else of_kind
        if has_some or tag.name in LINK_TAGS:
            yield from ["gap"] * sum(one not in usual.gaps for one in gaps(tag, part))
