"""One state of a document in an editor: its text, and what was asked about it, each question once."""

from __future__ import annotations

import os
from bisect import bisect_right
from collections.abc import Callable
from dataclasses import dataclass
from functools import cached_property
from urllib.parse import unquote, urlsplit

from tml.explaining.explain import explain
from tml.explaining.faults import BAD_MARKUP, Fault, read_fault
from tml.finding import find
from tml.places import Places
from tml.tags.cutting import units_of_whole
from tml.tags.profile import IDENTIFIERS, TABLE, Kind
from tml.tags.source import Explanation, Source
from tml.tags.units import Attribute, Unit, Units, end_of, open_tags, read_units

from ..asking.program import ACCEPTED, CLASH, FAULT, CannotRun, Program, Reply
from ..check.fix import Step, steps
from ..check.further import further_faults
from ..check.judgement import Judgement
from ..check.judging import judge_document, placed, placed_warnings
from ..check.tags import cut
from ..clash.clashes import is_timeline, read_clash
from ..clash.report import ClashReport, Wanted
from ..clash.search import ClashSearch
from ..clash.touching import Change, touching_changes
from ..document.reduced import read_reduced
from ..document.texts import cut as shortened
from ..document.texts import texts_of
from ..document.words import LONGEST, Link, Wording
from ..document.wrappers import Unwrapping
from ..files.finding import Found
from ..lint.kinds import Lint
from ..lint.warnings import Finding, warnings_of
from ..origins.restored import Found as Origin
from ..origins.restored import advise, found_origin
from .places import ClientPlaces


class Overtaken(Exception):
    """What was asked for is no longer wanted, or something else is wanted first."""


class Asked(Program):
    """`tml`, which looks before each question whether its answer is still wanted. The program is looked for until it is there."""

    chosen: str | None = None
    wanted: Callable[[], bool] = staticmethod(lambda: True)

    def ask(self, words: list[str], document: bytes, other: bytes | None = None) -> Reply:
        """Asks, where the answer is still wanted."""
        if not self.wanted():
            raise Overtaken
        self.path = self.path or find(self.chosen, "").needed()
        return super().ask(words, document, other)


class AskedUnwrapping(Asked, Unwrapping):
    """The same without the tags of the corpus's own wrappers."""


FURTHER = 10
"""How many further faults are looked for, and a third as many further clashes."""

OF_TEXT = ("EVENT", "TIMEX3", "SIGNAL")
"""The tags that stand around words of the text."""


@dataclass(frozen=True)
class Named:
    """An identifier at a place: the kind of tag that has it, itself, and the stretch of it."""

    kind: str
    name: str
    start: int
    end: int


def path_of(uri: str) -> str | None:
    """The path of a file that a URI names; None of another one."""
    try:
        parts = urlsplit(uri)
    except ValueError:
        return None
    return os.path.abspath(unquote(parts.path, errors="surrogateescape")) if parts.scheme == "file" and parts.path else None


class OpenDocument:
    """A state of a document. What `tml` answers on it is remembered, since several requests ask the same."""

    def __init__(self, program: Asked | AskedUnwrapping, uri: str, text: str, lint: Lint, encoding: str) -> None:
        self.program, self.uri, self.lint, self.encoding = program, uri, lint, encoding
        self.path = path_of(uri) or uri
        self.text = text.encode("utf-8", "surrogatepass")
        self.reports: dict[bool, ClashReport] = {}

    @cached_property
    def places(self) -> ClientPlaces:
        """Its places as the client has them."""
        return ClientPlaces(self.text, self.encoding)

    @cached_property
    def reply(self) -> Reply:
        """Whether some timeline fits, or which fault or clash there is."""
        return self.program.ask(["solve", "-"], self.text)

    @property
    def fault(self) -> Fault | None:
        """The first fault."""
        return read_fault(self.reply.text) if self.reply.status == FAULT else None

    def is_accepted(self) -> bool:
        """Whether it has no fault."""
        return self.fits() or self.reply.status == CLASH

    def fits(self) -> bool:
        """Whether some timeline fits."""
        return is_timeline(self.reply)

    @cached_property
    def units(self) -> Units:
        """Its units: where it cannot be cut whole those of a copy without what cannot be cut, or none."""
        fault = self.fault
        if self.is_accepted() or (fault is not None and fault.number > BAD_MARKUP):
            return units_of_whole(self.program, self.text)
        reply, _ = cut(self.program, self.text)
        return read_units(reply) if reply.status == ACCEPTED else Units()

    @cached_property
    def wording(self) -> Wording:
        """What can be said of its intervals and links. On dates only an accepted document is asked."""
        return Wording(self.program, self.text, self.units)

    @property
    def source(self) -> Source:
        """It beside its units."""
        return self.wording.source

    @cached_property
    def line_places(self) -> Places:
        """Its places as messages have them."""
        return Places(self.text)

    @cached_property
    def explained(self) -> list[tuple[Fault, Explanation, bool]]:
        """Its first fault, and what that is about."""
        if self.fault is None:
            return []
        found = explain(self.program, self.text, self.fault, self.line_places)
        advise(self.text, found, self.origin, self.line_places)
        return [(self.fault, found, False)]

    @cached_property
    def origin(self) -> Origin:
        """What one keystroke explains of its first fault."""
        return Origin() if self.fault is None else found_origin(self.program, self.text, self.fault)

    @cached_property
    def further(self) -> list[tuple[Fault, Explanation, bool]]:
        """The further faults, each with whether it may be only a consequence of those before it."""
        found: list[tuple[Fault, Explanation, bool]] = []
        for fault, about, _ in self.explained:
            found += further_faults(self.program, self.text, self.line_places, fault, about, FURTHER)
        return found

    @cached_property
    def steps(self) -> list[Step]:
        """What fixes its first fault: by one keystroke, or with all slips of its kind."""
        return [] if self.fault is None else list(steps(self.program, self.text, self.fault, lambda: self.origin, unsafe=True))

    def judgement(self, *, further: bool) -> Judgement:
        """Its fault, with further ones where they are wanted, or what is suspect in it."""
        if self.fits():
            return Judgement(self.path, warnings=placed_warnings(self.program, self.source, self.lint))
        if self.fault is None:
            return judge_document(self.program, self.path, self.text, True, 0)
        faults = self.explained + (self.further if further else [])
        return Judgement(self.path, [placed(self.line_places, fault, found, True, perhaps) for fault, found, perhaps in faults])

    @cached_property
    def suspects(self) -> list[Finding]:
        """What is suspect in it, with what mends that; nothing where it has a fault."""
        return list(warnings_of(self.program, self.source, self.lint)) if self.is_accepted() else []

    def clashes(self, *, further: bool) -> ClashReport:
        """The clash of a document that no timeline fits, with further ones where they are wanted, and what is suspect."""
        if further not in self.reports:
            wanted = Wanted(more=FURTHER // 3 if further else 0, lint=self.lint, every_clash=False)
            search = ClashSearch(self.program, Found(self.path), self.text, wanted, self.wording)
            self.reports[further] = search.report(read_clash(self.reply))
        return self.reports[further]

    @cached_property
    def touching(self) -> list[Change]:
        """The links between dates that touch; none where it has a fault."""
        return touching_changes(self.wording) if self.reply.status == CLASH else []

    @cached_property
    def following(self) -> list[Link]:
        """The links that follow from others, as `tml reduce` has it; none where it has a fault or a clash."""
        return read_reduced(self.program.ask(["reduce", "-"], self.text), self.wording).following if self.fits() else []

    @cached_property
    def relations(self) -> bytes:
        """What `tml relations` prints; nothing where it has a fault or a clash."""
        reply = self.program.ask(["relations", "-"], self.text) if self.fits() else None
        if reply is not None and reply.status != ACCEPTED:
            raise CannotRun("the answers of tml to `solve` and `relations` do not belong together")
        return reply.text if reply is not None else b""

    def unit_around(self, offset: int) -> Unit | None:
        """The unit in which a place lies."""
        units = self.units
        number = bisect_right(units.places, offset) - 1
        return units[number] if 0 <= number < len(units) and offset < units[number].end else None

    def tag_around(self, offset: int) -> Unit | None:
        """The start or empty tag in which a place lies, or the innermost one with a meaning that is open there."""
        unit = self.unit_around(offset)
        if unit is None or unit.opens():
            return unit
        return next((tag for tag in reversed(open_tags(self.units, unit.start)) if tag.name in TABLE), None)

    def attribute_around(self, offset: int) -> tuple[Unit, Attribute] | None:
        """The attribute in which a place lies, with its tag; a place right behind its last quote counts too."""
        unit = self.unit_around(offset)
        if unit is None or not unit.opens():
            return None
        return next(((unit, one) for one in unit.attributes if one.start <= offset <= one.end), None)

    def named_around(self, offset: int) -> Named | None:
        """The identifier at a place: that of an attribute there, or else that of the tag."""
        found = self.attribute_around(offset)
        named = self.named_by(*found) if found is not None else None
        tag = self.tag_around(offset) if named is None else None
        if tag is None or tag.name not in IDENTIFIERS:
            return named
        own = (self.named_by(tag, one) for one in tag.attributes if one.name == IDENTIFIERS[tag.name])
        return next(own, None)

    def named_by(self, tag: Unit, attribute: Attribute) -> Named | None:
        """The identifier that an attribute is, or refers to."""
        row = TABLE.get(tag.name, {}).get(attribute.name)
        if row is None or row.form.kind not in (Kind.IDENTIFIER, Kind.REFERENCE):
            return None
        name = attribute.value(self.text).decode("utf-8", "surrogateescape")
        kind = row.form.target if row.form.kind is Kind.REFERENCE else tag.name
        return Named(kind, name, attribute.end - 1 - len(name.encode("utf-8", "surrogateescape")), attribute.end - 1)

    def tag_named(self, named: Named) -> Unit | None:
        """The tag that has an identifier."""
        return self.source.identified(named.kind).get(named.name)

    @cached_property
    def texts(self) -> dict[int, str]:
        """The texts inside the events, times and signals, by the places of their tags."""
        tags = [tag for kind in OF_TEXT for tag in self.source.tags(kind)]
        return {at: shortened(text, LONGEST) for at, text in texts_of(self.units, self.text, {tag.start for tag in tags}).items()}

    def inner_text(self, tag: Unit) -> str:
        """The text inside an event, a time or a signal, as far as it stands in a sentence."""
        return self.texts[tag.start]

    def whole_tag(self, tag: Unit) -> tuple[int, int]:
        """The stretch of a tag with what it holds."""
        end = end_of(self.units, tag) if tag.kind == "start" else None
        return tag.start, end.end if end is not None else tag.end
