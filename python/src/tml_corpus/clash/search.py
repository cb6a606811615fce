"""The search for the clashes of one document that no timeline fits."""

from __future__ import annotations

import os
from functools import cached_property

from tml.statuses import STRICT_ORDERS
from tml.tags.cutting import units_of_whole
from tml.tags.source import Source

from ..asking.program import CLASH, FAULT, CannotRun, Program, Reply
from ..check.judgement import Judgement
from ..check.judging import judge_document, placed_warnings
from ..check.placed import PlacedNote
from ..document.words import Wording
from ..files.finding import Found
from .clashes import Clash, evidence_name, read_clash, verify_clash
from .hitting import TooMuch
from .leftout import Copies
from .repair import find_repair
from .report import ClashReport, PlacedChange, PlacedClash, PlacedLink, PlacedRepair, Wanted
from .touching import GAP, INCLUSIONS, Change, asks, touching_changes


def report_of_fitting(program: Program, found: Found, document: bytes, wanted: Wanted) -> ClashReport:
    """What there is to report of a document in memory that some timeline fits: what is suspect in it."""
    judgement = Judgement(found.path)
    if wanted.lint is not None:
        judgement.warnings = placed_warnings(program, Source(document, units_of_whole(program, document)), wanted.lint)
    return ClashReport(judgement)


def report_of(program: Program, found: Found, document: bytes, wanted: Wanted, reply: Reply) -> ClashReport:
    """What there is to report of a document in memory that no timeline fits, or that was not judged yet."""
    if reply.status == FAULT:
        return ClashReport(judge_document(program, found.path, document, wanted.explained, wanted.more, reply=reply))
    if reply.status != CLASH:
        raise CannotRun(reply.problem())
    return ClashSearch(program, found, document, wanted).report(read_clash(reply))


def placed_link(wording: Wording, number: int, *, numbered: bool = False) -> PlacedLink:
    """A link in words, with its line, in which its tag is marked."""
    link, tag, places = wording.link(number), wording.link_tags[number], wording.places
    return PlacedLink(link, wording.in_words(link, numbered=numbered), places.marked(places.place(tag.start), places.place(tag.end)))


class ClashSearch:
    """The search in one accepted document."""

    def __init__(self, program: Program, found: Found, document: bytes, wanted: Wanted, wording: Wording | None = None) -> None:
        self.program, self.found, self.document, self.wanted = program, found, document, wanted
        self.path = found.path
        self.wording = Wording(program, document) if wording is None else wording
        self.changes = touching_changes(self.wording)

    @cached_property
    def copies(self) -> Copies:
        """Copies of the document without some links, in which links between dates that touch are changed."""
        relations = {change.link.number: change.relation for change in self.changes}
        return Copies(self.program, self.wording.source, relations)

    def report(self, first: Clash) -> ClashReport:
        """All that was asked for."""
        left = self.left_by_touching(first)
        judgement = Judgement(self.path)
        if self.wanted.lint is not None:
            judgement.warnings = placed_warnings(self.program, self.wording.source, self.wanted.lint)
        report = ClashReport(judgement, read_touching=self.wanted.touching, fits_touching=left is None)
        report.touching = [self.placed_change(change) for change in self.changes]
        if left is not None:
            report.clashes.append(self.placed_clash(left, 1))
        elif self.wanted.every_clash and not self.wanted.touching:
            report.clashes.append(self.placed_clash(first, 1))
        if left is not None and self.wanted.more:
            report.clashes += self.further_clashes(left)
        if self.wanted.repair and (left is not None or not self.wanted.touching):
            report.repair = self.repair(left)
        return report

    def left_by_touching(self, first: Clash) -> Clash | None:
        """The clash that is left where links between dates that touch are read so; the first one where there are none."""
        if not self.changes:
            return first
        left = self.copies.clash_without(())
        if left is None:
            return None
        if {change.link.number for change in self.changes} & set(left.links):
            raise CannotRun("the answers of tml to `dates` and `solve` do not belong together")
        return left

    def further_clashes(self, first: Clash) -> list[PlacedClash]:
        """At most so many clashes as are wanted, each without the links of those before it."""
        found: list[PlacedClash] = []
        left_out = set(first.links)
        while len(found) < self.wanted.more:
            self.copies.renew()
            clash = self.copies.clash_without(left_out)
            if clash is None:
                break
            found.append(self.placed_clash(clash, len(found) + 2))
            left_out.update(clash.links)
        self.copies.renew()
        return found

    def repair(self, left: Clash | None) -> PlacedRepair:
        """The smallest set of links without which a timeline fits, with the timeline verified."""
        changes = 0 if self.wanted.touching else len(self.changes)
        if left is None:
            self.copies.verify_without(())
            return PlacedRepair([], True, True, 0, changes)
        repair = find_repair(self.copies, left)
        if repair.links:
            self.copies.verify_without(repair.links)
        choices = [[self.placed_link(number) for number in repair.choices(link)] for link in repair.links]
        is_of_dates = any(step.kind == "calendar" for step in left.walk)
        return PlacedRepair(choices, repair.smallest, repair.all_others, repair.at_least, changes, is_of_dates)

    def placed_link(self, number: int) -> PlacedLink:
        """A link in words, with its line; its number is there where the evidence is kept, which has it."""
        return placed_link(self.wording, number, numbered=self.wanted.folder is not None)

    def placed_change(self, change: Change) -> PlacedChange:
        """A link between dates that touch, with its line."""
        return PlacedChange(self.placed_link(change.link.number), change.relation, change.reason, asks(change.link.relation))

    def placed_clash(self, clash: Clash, number: int) -> PlacedClash:
        """A clash in words, once `tml verify` accepted it as one of the document."""
        folder, evidence = self.wanted.folder, None
        if folder is not None:
            evidence = os.path.join(folder, evidence_name(self.path if number == 1 else f"{self.path}.{number}"))
        verify_clash(self.program, self.document, clash, evidence and os.path.join(self.found.base, evidence))
        links = [self.placed_link(link) for link in clash.links]
        return PlacedClash(links, self.calendar_notes(clash), self.date_notes(clash), self.cures(clash), evidence, clash.walk)

    def calendar_notes(self, clash: Clash) -> list[PlacedNote]:
        """What the walk takes from the calendar; places are asked for in their order, since lines may be long."""
        steps = list(dict.fromkeys((step.first, step.second) for step in clash.walk if step.kind == "calendar"))
        notes = {step: PlacedNote(*self.wording.calendar(*step)) for step in sorted(steps)}
        return [notes[step] for step in steps]

    def date_notes(self, clash: Clash) -> list[PlacedNote]:
        """The dates on which the walk rests, each with its value: one of them may be wrong, and not a link."""
        points = sorted({point for step in clash.walk if step.kind == "calendar" for point in (step.first, step.second)})
        dates = dict.fromkeys(found for point in points if (found := self.wording.dated(point)) is not None)
        return [PlacedNote(place, f"{text}: correct a date, or leave out or mend a link") for place, text in dates]

    def cures(self, clash: Clash) -> list[PlacedNote]:
        """Of a clash of several links that stands on ends of dates that are equal: relations that do not clash with the other links.

        Of each `tml` is asked. Where a link between two dates clashes alone, it is one of the changes.
        """
        notes: list[PlacedNote] = []
        if len(clash.links) == 1:
            return notes
        try:
            for number, relation in self.candidates(clash).items():
                link = self.wording.link(number)
                if self.copies.fit_alone(clash.links, {number: relation}):
                    between = f"{self.wording.text_of(link.left)} and {self.wording.text_of(link.right)}"
                    nothing = "no gap" if link.relation in GAP else "no room at both ends"
                    text = (
                        f"the dates and the other links leave {nothing} between {between}: {relation} for "
                        f"{link.relation} would not clash with them"
                    )
                    notes.append(PlacedNote(link.place, text))
        except TooMuch:
            pass
        return notes

    def candidates(self, clash: Clash) -> dict[int, str]:
        """Other relations for links of a walk that has no strict step but over these, and an equal end of dates."""
        orders: dict[int, set[int]] = {}
        equal_ends = False
        for step in clash.walk:
            if step.kind == "calendar" and is_equal_end(self.wording, step.first, step.second):
                equal_ends = True
            elif step.kind != "via":
                return {}
            elif step.second in STRICT_ORDERS.get(relation := self.wording.relation(step.first), ()):
                if relation not in GAP and relation not in INCLUSIONS:
                    return {}
                orders.setdefault(step.first, set()).add(step.second)
        return {number: self.weaker(number, strict) for number, strict in orders.items()} if equal_ends else {}

    def weaker(self, number: int, orders: set[int]) -> str:
        """The relation of a link with some of its strict orders equal."""
        relation = self.wording.relation(number)
        return GAP.get(relation) or INCLUSIONS[relation][2 if len(orders) == 2 else min(orders)]


def is_equal_end(wording: Wording, first: int, second: int) -> bool:
    """Whether the calendar has two points no further apart than at one second."""
    upper, lower = (wording.dates.get(wording.intervals[point // 2], ["free"]) for point in (first, second))
    return upper[0] != "free" and lower[0] != "free" and number_at(upper, first, 2) == number_at(lower, second, 1)


def number_at(date: list[str], point: int, bound: int) -> int:
    """The second of a point: that of an exact date, or its bound of one within bounds."""
    return int(date[1 + point % 2] if date[0] == "exact" else date[bound])
