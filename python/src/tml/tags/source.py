"""A document beside its units, as the words on a fault need it: values of tags, tags by their identifiers, and texts."""

from __future__ import annotations

import re
from collections.abc import Callable, Iterator
from functools import cached_property
from typing import Any, NamedTuple, TypeVar

from ..places import Places
from ..statuses import MOST_REMEMBERED
from .edits import Edit, Ways
from .profile import IDENTIFIERS, LEFT, RIGHT, ROOT, TABLE, Kind
from .units import END, START, TEXT, Attribute, Unit, Units
from .values import CALENDAR

Made = TypeVar("Made")

LONGEST, LONGEST_WORDS = 80, 400
TEXT_AND_END = bytes((TEXT, END))
VALUE = re.compile(r"""([^ \t\r\n=]++)[ \t\r\n]*+=[ \t\r\n]*+(?:"([^"]*+)"|'([^']*+)')""")
"""An attribute of a tag: its name, and its value between quotes of either kind."""

LONGEST_REMEMBERED = 256
"""Of how many bytes a tag is at most that is remembered as it is written."""

MANNERS = {"EVENT": "e", "MAKEINSTANCE": "ei", "TIMEX3": "t", "SIGNAL": "s"}
"""How identifiers mostly begin."""


class Note(NamedTuple):
    """A sentence on a fault, and the place that it speaks of."""

    offset: int
    text: str


class Suspect(NamedTuple):
    """What a warning is about: a tag, the sentence, the stretch that it speaks of where that is not the whole tag, and what mends it."""

    tag: Unit
    text: str
    stretch: tuple[int, int] | None = None
    edits: tuple[Edit, ...] = ()
    """What mends it, where there is one cure only."""
    choices: Ways = tuple
    """What the sentence offers, of which a person has to choose."""

    @classmethod
    def of_attribute(cls, tag: Unit, attribute: Attribute, text: str, edit: Edit | None = None, choices: Ways = tuple) -> Suspect:
        """What is suspect in an attribute of a tag."""
        return cls(tag, text, (attribute.start, attribute.end), () if edit is None else (edit,), choices)


class Explanation:
    """What a fault is about: the sentence, the stretch that it speaks of, further notes, and what to blank out to go on.

    Where nothing was found out the sentence is empty, and the general one of the fault has to do.
    """

    def __init__(self, start: int = 0, end: int = 0) -> None:
        self.text, self.start, self.end = "", start, end
        self.notes: list[Note] = []
        self.attributes: list[Attribute] = []
        self.edits: list[Edit] = []
        """What mends it, where there is one cure only."""
        self.offered: list[Ways] = []
        self.second: int | None = None
        """Where a second document begins, which is to be split off."""
        self.units: Units | None = None
        self.document = b""
        """The document in which it was found; of a further fault a copy, in which those before it are mended or blanked out."""

    def offer(self, *edits: Edit) -> None:
        """Adds some edits that the sentence offers."""
        self.offered.append(lambda: [edits])

    def choices(self) -> Iterator[tuple[Edit, ...]]:
        """What the sentence offers, of which a person has to choose."""
        return (way for find in self.offered for way in find())


class ValuesAsWritten(dict[bytes, dict[str, str]]):
    """The values of the attributes of tags as they are written; of several attributes with one name the first one counts."""

    def __missing__(self, tag: bytes) -> dict[str, str]:
        values = dict[str, str]()
        for found in VALUE.finditer(tag.decode("utf-8", "surrogateescape")):
            values.setdefault(found[1], found[2] or found[3] or "")
        if len(self) < MOST_REMEMBERED and len(tag) <= LONGEST_REMEMBERED:
            self[tag] = values
        return values


VALUES = ValuesAsWritten()


class Source:
    """A document, and its units where it could be cut into units."""

    def __init__(self, document: bytes, units: Units | None, places: Places | None = None) -> None:
        self.document, self.given_places = document, places
        self.units = Units() if units is None else units
        self.fresh_names: dict[str, str] = {}
        self.made: dict[tuple[str, str], Any] = {}
        self.known_values: dict[int, dict[str, str]] = {}
        self.known_identifiers: dict[str, dict[str, Unit]] = {}

    @cached_property
    def places(self) -> Places:
        """The places of the document."""
        return self.given_places or Places(self.document)

    def at(self, offset: int) -> str:
        """A place, as it is written in a sentence."""
        place = self.places.place(offset)
        return f"{place.line}:{place.column}"

    def value(self, tag: Unit, name: str) -> str:
        """The value of an attribute; nothing where it is not there."""
        return self.values(tag).get(name, "")

    def values(self, tag: Unit) -> dict[str, str]:
        """The values of the attributes of a tag, which are kept."""
        values = self.known_values.get(tag.start)
        if values is None:
            values = self.known_values[tag.start] = VALUES[self.document[tag.start : tag.end]]
        return values

    def valued(self, kind: str) -> Iterator[tuple[Unit, dict[str, str]]]:
        """The tags of a kind with their values."""
        return ((tag, self.values(tag)) for tag in self.tags(kind))

    @cached_property
    def links(self) -> list[tuple[str, str, str]]:
        """Of each TLINK the identifier of the one interval, the relation, and the identifier of the other interval."""
        (instance, time), (other_instance, other_time) = LEFT, RIGHT
        return [
            (one.get(instance, "") or one.get(time, ""), one.get("relType", ""), one.get(other_instance, "") or one.get(other_time, ""))
            for _, one in self.valued("TLINK")
        ]

    @cached_property
    def intervals(self) -> list[str]:
        """The names of the intervals by their numbers: they are the instances and times in the order of their tags."""
        tags = sorted(self.tags("MAKEINSTANCE") + self.tags("TIMEX3"), key=lambda tag: tag.start)
        return [self.value(tag, IDENTIFIERS[tag.name]) for tag in tags]

    def tags(self, kind: str) -> list[Unit]:
        """The start and empty tags of a kind."""
        return self.by_kind.get(kind, [])

    @cached_property
    def by_name(self) -> dict[str, list[Unit]]:
        """The start and empty tags of the profile that are not wrappers, by their names."""
        found: dict[str, list[Unit]] = {}
        for unit in self.units.opening(ROOT, *TABLE):
            found.setdefault(unit.name, []).append(unit)
        return found

    @cached_property
    def by_kind(self) -> dict[str, list[Unit]]:
        """Those that have a meaning: all but the root."""
        return {name: tags for name, tags in self.by_name.items() if name != ROOT}

    @cached_property
    def identifiers(self) -> dict[str, dict[str, Unit]]:
        """The tags of each kind by their identifiers; of several with one identifier the first one counts."""
        return {kind: self.identified(kind) for kind in TABLE}

    def identified(self, kind: str) -> dict[str, Unit]:
        """The tags of one kind by their identifiers, which are kept."""
        found = self.known_identifiers.get(kind)
        if found is None:
            found = {}
            attribute = IDENTIFIERS[kind]
            for tag, values in self.valued(kind):
                name = values.get(attribute, "")
                if name:
                    found.setdefault(name, tag)
            self.known_identifiers[kind] = found
        return found

    @cached_property
    def instances(self) -> dict[str, list[str]]:
        """The identifiers of the instances of each event."""
        found: dict[str, list[str]] = {}
        for _, values in self.valued("MAKEINSTANCE"):
            name = values.get("eiid", "")
            if name:
                found.setdefault(values.get("eventID", ""), []).append(name)
        return found

    @cached_property
    def referred(self) -> dict[str, dict[str, Unit]]:
        """By the kind that is asked for, the identifiers that tags refer to, each with the first tag that does."""
        found: dict[str, dict[str, Unit]] = {kind: {} for kind in TABLE}
        for kind, rows in TABLE.items():
            targets = {name: row.form.target for name, row in rows.items() if row.form.kind is Kind.REFERENCE}
            for tag, values in self.valued(kind) if targets else ():
                for name, target in targets.items():
                    value = values.get(name, "")
                    if value:
                        found[target].setdefault(value, tag)
        return found

    def once(self, what: str, kind: str, make: Callable[[], Made]) -> Made:
        """Something that is made once of the tags of a kind, and kept: of a document with many faults it is asked for again and again."""
        if (what, kind) not in self.made:
            self.made[what, kind] = make()
        made: Made = self.made[what, kind]
        return made

    def dangling(self, kind: str) -> dict[str, Unit]:
        """The identifiers that tags refer to as those of a kind and that no tag has, each with the first tag that refers to it."""
        return self.once("dangling", kind, lambda: {name: tag for name, tag in self.referred[kind].items() if self.bearer(name) is None})

    def without_instance(self) -> list[str]:
        """The identifiers of the events that no MAKEINSTANCE names."""
        return self.once("bare", "EVENT", lambda: [name for name in self.identified("EVENT") if name not in self.instances])

    def end_of(self, tag: Unit) -> Unit | None:
        """The end tag of a start tag."""
        number = self.once("ends", "", self.units.end_tags).get(tag.start) if tag.kind == "start" else None
        return None if number is None else self.units[number]

    def without(self, tag: Unit) -> tuple[Edit, ...]:
        """The edits that take a tag out, and its end tag, and leave what it holds."""
        return tuple(Edit(one.start, one.end, b"") for one in (tag, self.end_of(tag)) if one is not None)

    def bearer(self, name: str) -> Unit | None:
        """The first tag of whatever kind that has this identifier."""
        found = [tags[name] for tags in self.identifiers.values() if name in tags]
        return min(found, key=lambda tag: tag.start) if found else None

    @cached_property
    def points(self) -> set[str]:
        """The identifiers of the times that other times name."""
        return {
            value for tag in self.tags("TIMEX3") for name in ("anchorTimeID", "beginPoint", "endPoint") if (value := self.value(tag, name))
        }

    @cached_property
    def odd_times(self) -> list[tuple[Unit, str, str]]:
        """The times with a value, of which that is not a date of a DATE or TIME, with their types and values."""
        times = ((tag, values.get("type", ""), values.get("value", "")) for tag, values in self.valued("TIMEX3"))
        return [(tag, kind, value) for tag, kind, value in times if value and not (kind in ("DATE", "TIME") and CALENDAR.fullmatch(value))]

    @cached_property
    def creation_times(self) -> list[Unit]:
        """The times that say when the document was made."""
        return [tag for tag, values in self.valued("TIMEX3") if values.get("functionInDocument", "") == "CREATION_TIME"]

    def creation_value(self) -> str:
        """The value of the first creation time; nothing where there is none."""
        return self.value(self.creation_times[0], "value") if self.creation_times else ""

    def words_of(self, tag: Unit) -> str:
        """The text inside of a start tag, without the tags in it, and cut where it is long."""
        units, parts, depth, size = self.units, list[bytes](), 1, 0
        after = tag.row + 1
        if tag.kind == "start" and units.kinds[after : after + 2] == TEXT_AND_END:
            return self.document[units.starts[after] : min(units.ends[after], units.starts[after] + LONGEST_WORDS)].decode(
                "utf-8", "replace"
            )
        for row in range(tag.row + 1, len(units.kinds)) if tag.kind == "start" else ():
            kind = units.kinds[row]
            if kind == TEXT:
                parts.append(self.document[units.starts[row] : units.ends[row]])
                size += len(parts[-1])
            depth += (kind == START) - (kind == END)
            if depth == 0 or size > LONGEST_WORDS:
                break
        return b"".join(parts)[:LONGEST_WORDS].decode("utf-8", "replace")

    def has_text(self, tag: Unit) -> bool:
        """Whether a start tag has some text inside; mostly it follows at once."""
        units, after = self.units, tag.row + 1
        if tag.kind == "start" and after < len(units.kinds) and units.kinds[after] == TEXT:
            if not self.document[units.starts[after] : units.ends[after]].isspace():
                return True
        return tag.start in self.with_text

    @cached_property
    def with_text(self) -> set[int]:
        """The places of the start tags that have some text inside."""
        found: set[int] = set()
        open_tags: list[tuple[int, int]] = []
        texts, units = 0, self.units
        for row in units.rows:
            kind = units.kinds[row]
            if kind == TEXT:
                texts += not self.document[units.starts[row] : units.ends[row]].isspace()
            elif kind == START:
                open_tags.append((units.starts[row], texts))
            elif kind == END and open_tags:
                start, before = open_tags.pop()
                if texts > before:
                    found.add(start)
        return found

    def fresh(self, kind: str) -> str:
        """An identifier that no tag has, in the manner of those that tags of this kind have."""
        if kind not in self.fresh_names:
            taken = {name for names in self.identifiers.values() for name in names}
            begin, number = MANNERS.get(kind, "l"), len(self.tags(kind)) + (kind != "TIMEX3")
            while f"{begin}{number}" in taken:
                number += 1
            self.fresh_names[kind] = f"{begin}{number}"
        return self.fresh_names[kind]


def attributes_of(tag: Unit, name: str) -> Iterator[Attribute]:
    """The attributes of a tag with this name."""
    return (attribute for attribute in tag.attributes if attribute.name == name)


def attribute_of(tag: Unit, name: str) -> Attribute | None:
    """The first attribute of a tag with this name."""
    return next(attributes_of(tag, name), None)


def cut(text: str) -> str:
    """A text, cut where it is long."""
    return text if len(text) <= LONGEST else text[: LONGEST - 3] + "..."


def described(unit: Unit) -> str:
    """What a unit is, in words."""
    name = cut(unit.name)
    words = {"start": f"<{name}>", "end": f"</{name}>", "empty": f"<{name}/>"}
    return words.get(unit.kind, "a " + unit.kind)


def renamed(tag: Unit, name: str) -> Edit:
    """Another name for a tag."""
    start = tag.start + (2 if tag.kind == "end" else 1)
    return Edit(start, start + len(tag.name.encode("utf-8", "surrogateescape")), name.encode())
