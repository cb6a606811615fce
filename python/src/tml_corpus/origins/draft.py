"""A document as tags and text, read from any place on, and what it needs of a stretch of it to be accepted."""

from __future__ import annotations

import re
from bisect import bisect_left
from collections import Counter
from collections.abc import Iterable, Iterator, Sequence
from functools import cached_property, lru_cache
from typing import NamedTuple

from tml.tags.profile import IDENTIFIERS, ROOT, TABLE, WRAPPERS, Kind

SPACE = "[ \t\r\n]"
NAME = r"[A-Za-z_:\x80-\U0010ffff][\w:.\-\x80-\U0010ffff]*+"
VALUE = "(?:\"[^\"<]*+\"|'[^'<]*+')"
TAG = re.compile(f"</({NAME}){SPACE}*+>|<({NAME})((?:{SPACE}++{NAME}{SPACE}*+={SPACE}*+{VALUE})*){SPACE}*+(/?)>")
DOCTYPE = re.compile(f"<!DOCTYPE{SPACE}[^<>\\[]*+>")
NAMED = re.compile(f"{SPACE}({NAME}){SPACE}*+=")
COMMENT = re.compile("<!--.*?-->", re.DOTALL)
PAIR = re.compile(f"{SPACE}++({NAME}){SPACE}*+={SPACE}*+[\"']((?<=\")[^\"]*+|(?<=')[^']*+)[\"']")
TAKEN = TABLE.keys() | {ROOT, *WRAPPERS}
NOWHERE, BROKEN = 0, -1
"""The path outside the root, and that of a place before which tags do not nest."""


class Tag(NamedTuple):
    """A tag: where it is, its name, whether it is a start, an end or an empty tag, and its attributes in order."""

    start: int
    end: int
    name: str
    kind: str
    pairs: tuple[tuple[str, str], ...]

    def identifier(self) -> str:
        """Its identifier; nothing if it has none."""
        return dict(self.pairs).get(IDENTIFIERS.get(self.name, ""), "") if self.pairs else ""

    def references(self) -> Iterator[tuple[str, str]]:
        """The tags that it refers to, by their names and identifiers."""
        for name, value in self.pairs if self.name in TABLE and self.kind != "end" else ():
            row = TABLE[self.name].get(name)
            if row is not None and row.form.kind is Kind.REFERENCE:
                yield row.form.target, value

    def declares(self) -> tuple[str, str] | None:
        """Its name and identifier, by which others refer to it."""
        name = self.identifier() if self.kind != "end" else ""
        return (self.name, name) if name else None


def last_ends(text: str) -> tuple[int, int]:
    """Where the last comment and the last declaration may end."""
    return text.rfind("-->"), text.rfind("?>")


def end_of_other(text: str, at: int, last: tuple[int, int]) -> int:
    """Where a comment, a declaration or a doctype ends that begins at a `<`, if the last ends are these; 0 if none does."""
    if text.startswith("<!--", at):
        return text.find("-->", at + 4) + 3 if at + 4 <= last[0] else 0
    if text.startswith("<?xml", at):
        return text.find("?>", at) + 2 if at < last[1] else 0
    found = DOCTYPE.match(text, at)
    return found.end() if found is not None else 0


def tag_of(found: re.Match[str]) -> Tag:
    """A tag as it is written."""
    if found[1] is not None:
        return Tag(found.start(), found.end(), found[1], "end", ())
    return Tag(found.start(), found.end(), found[2], "empty" if found[4] else "start", tuple(PAIR.findall(found[3])))


def tags_of(text: str) -> Iterator[Tag]:
    """The tags of a text that are well formed."""
    at, last = text.find("<"), last_ends(text)
    while at >= 0:
        found = TAG.match(text, at)
        if found is not None:
            yield tag_of(found)
        at = text.find("<", found.end() if found is not None else end_of_other(text, at, last) or at + 1)


def tags_of_units(text: str) -> list[Tag] | None:
    """The tags of a text in which each `<` begins a tag, a comment, a declaration or a doctype; None if one does not."""
    tags, at, last = [], text.find("<"), last_ends(text)
    while at >= 0:
        found = TAG.match(text, at)
        if found is not None:
            tags.append(tag_of(found))
        end = found.end() if found is not None else end_of_other(text, at, last)
        if not end:
            return None
        at = text.find("<", end)
    return tags


def balance(tags: Iterable[Tag]) -> Counter[str]:
    """How many more start tags than end tags of each name some tags are."""
    found: Counter[str] = Counter()
    for tag in tags:
        found[tag.name] += (tag.kind == "start") - (tag.kind == "end")
    return found


class Draft:
    """A document that has a fault: its text, its tags, which tags are open where, and what refers to what."""

    def __init__(self, text: str) -> None:
        self.text = text
        self.tags = list(tags_of(text))
        self.starts = [tag.start for tag in self.tags]
        self.steps: dict[tuple[int, str], int] = {}
        self.above: list[tuple[int, str]] = [(BROKEN, "")]
        """For each path that is not empty the one without its last tag, and the name of that tag."""
        self.named: dict[tuple[int, int], list[tuple[int, int, str]]] = {}
        """For each stretch that was looked at from where to where the names of attributes are in it."""

    def entered(self, path: int, name: str) -> int:
        """A path with one more open tag."""
        if (path, name) not in self.steps:
            self.steps[path, name] = len(self.above)
            self.above.append((path, name))
        return self.steps[path, name]

    def after(self, path: int, tags: Sequence[Tag]) -> int:
        """The path after some tags; broken if they do not nest."""
        for tag in tags:
            if tag.kind == "start":
                path = self.entered(path, tag.name)
            elif tag.kind == "end":
                path, name = self.above[path] if path > NOWHERE else (BROKEN, "")
                if name != tag.name:
                    return BROKEN
        return path

    def names(self, path: int) -> list[str]:
        """The names of the tags of a path, the innermost one last."""
        found: list[str] = []
        while path > NOWHERE:
            path, name = self.above[path]
            found.append(name)
        return found[::-1]

    @cached_property
    def comments(self) -> list[tuple[int, int]]:
        """From where to where each comment is, after an empty one at the beginning."""
        return [(0, 0), *(found.span() for found in COMMENT.finditer(self.text, 0, max(self.text.rfind("-->"), 0) + 3))]

    @cached_property
    def before(self) -> list[int]:
        """The path before each tag, and after the last one, by the tags before it."""
        found = [NOWHERE]
        for tag in self.tags:
            found.append(self.after(found[-1], [tag]) if found[-1] != BROKEN else BROKEN)
        return found

    @cached_property
    def needed(self) -> list[int]:
        """The path before each tag, and after the last one, by the tags that follow."""
        found = [NOWHERE]
        for tag in reversed(self.tags):
            path = found[-1]
            if path != BROKEN and tag.kind == "end":
                path = self.entered(path, tag.name)
            elif path != BROKEN and tag.kind == "start":
                above, name = self.above[path] if path > NOWHERE else (BROKEN, "")
                path = above if name == tag.name else BROKEN
            found.append(path)
        return found[::-1]

    @cached_property
    def unbalanced(self) -> Counter[str]:
        """How many more start tags than end tags of each name there are."""
        return Counter({name: number for name, number in balance(self.tags).items() if number})

    @cached_property
    def strays(self) -> int:
        """How many tags without their other half have an unknown name, so that each may be the other half of any."""
        return sum(abs(number) for name, number in self.unbalanced.items() if name not in TAKEN)

    def comes_apart(self, first: int, last: int, tags: Sequence[Tag]) -> int:
        """How many more tags lack their other half with some tags in the place of others."""
        changed = balance(tags)
        changed.subtract(balance(self.tags[first:last]))
        return sum(abs(self.unbalanced[name] + number) - abs(self.unbalanced[name]) for name, number in changed.items())

    def within(self, start: int, end: int) -> tuple[int, int]:
        """The numbers of the first tag from a place on, and of the first one from another place on."""
        return bisect_left(self.starts, start), bisect_left(self.starts, end)

    @cached_property
    def declared(self) -> Counter[tuple[str, str]]:
        """How often each tag that others can refer to is there, by its name and identifier."""
        return Counter(filter(None, (tag.declares() for tag in self.tags)))

    @cached_property
    def referred(self) -> Counter[tuple[str, str]]:
        """How often each tag is referred to."""
        return Counter(reference for tag in self.tags for reference in tag.references())

    @cached_property
    def lacking(self) -> Counter[tuple[str, str]]:
        """What is referred to in vain, and how often."""
        return Counter({one: number for one, number in self.referred.items() if one not in self.declared})

    @cached_property
    def attributes(self) -> Counter[tuple[str, str]]:
        """How often each attribute is there that no table knows, by the name of its tag."""
        return Counter((tag.name, name) for tag in self.tags for name, _ in tag.pairs if name not in TABLE.get(tag.name, ()))

    def refers_well(self, first: int, last: int, tags: Sequence[Tag]) -> bool:
        """Whether each reference of the document names a tag, with some tags in the place of others."""
        old = self.tags[first:last]
        gone = Counter(filter(None, (tag.declares() for tag in old)))
        come = Counter(filter(None, (tag.declares() for tag in tags)))
        lost = {one for one, number in gone.items() if number >= self.declared[one] and one not in come}
        asked = Counter(reference for tag in old for reference in tag.references())
        still_lacking = any(one not in come and number > asked[one] for one, number in self.lacking.items())
        if still_lacking or any(self.referred[one] > asked[one] for one in lost):
            return False
        return all(one in come or (one in self.declared and one not in lost) for tag in tags for one in tag.references())

    @cached_property
    def repeated(self) -> list[tuple[str, str]]:
        """What more than one tag declares."""
        return [one for one, number in self.declared.items() if number > 1]

    def are_single(self, first: int, last: int, tags: Sequence[Tag], names: Iterable[tuple[str, str]]) -> bool:
        """Whether no two tags declare one of some names, or one that is new, with some tags in the place of others."""
        gone = Counter(filter(None, (tag.declares() for tag in self.tags[first:last])))
        come = Counter(filter(None, (tag.declares() for tag in tags)))
        return all(self.declared[one] - gone[one] + come[one] < 2 for one in (*names, *come))

    def is_known(self, tag: Tag, stretch: tuple[int, int], key: tuple[int, int]) -> bool:
        """Whether a tag may be one of a document in which a keystroke changed a stretch: it has no unknown attribute but those that
        such a tag has outside of the stretch, and those that the keystroke neither changes nor touches."""
        if not may_be(tag.name, tag.kind, tag.pairs):
            return False
        names = {name for name, _ in tag.pairs if name not in TABLE[tag.name]} if tag.name in TABLE else set()
        names -= self.calm_names(stretch, key) if names else set()
        if not names:
            return True
        first, last = self.within(*stretch)
        inside = Counter(name for old in self.tags[first:last] if old.name == tag.name for name, _ in old.pairs)
        return all(self.attributes[tag.name, name] > inside[name] for name in names)

    def calm_names(self, stretch: tuple[int, int], key: tuple[int, int]) -> set[str]:
        """The names of attributes in a stretch that a keystroke neither changes nor touches, nor the sign after them."""
        if stretch not in self.named:
            self.named[stretch] = [(one.start(), one.end(), one[1]) for one in NAMED.finditer(self.text, *stretch)]
        return {name for begin, until, name in self.named[stretch] if key[1] < begin or until < key[0]}


def may_be(name: str, kind: str, pairs: tuple[tuple[str, str], ...]) -> bool:
    """Whether a tag has a name that is known, all that it has to have, no attribute twice, and values of a known form."""
    if name not in TAKEN:
        return False
    rows, values = TABLE.get(name), dict(pairs)
    if kind == "end" or len(values) != len(pairs) or rows is None:
        return kind == "end" or len(values) == len(pairs)
    if not all(fits(name, one, value) for one, value in pairs if one in rows):
        return False
    return all(not row.needs or sum(one in values for one in row.needs) == 1 for row in rows.values())


@lru_cache(maxsize=1024)
def fits(tag: str, name: str, value: str) -> bool:
    """Whether a value has the form of an attribute of a tag."""
    return TABLE[tag][name].form.fits(value)
