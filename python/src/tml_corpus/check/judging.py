"""The judgement of a document that is at fault, or in which something may be suspect, with places in lines and columns."""

from __future__ import annotations

from heapq import nsmallest

from tml.explaining.explain import explain
from tml.explaining.faults import Fault, read_fault
from tml.places import Places
from tml.tags.cutting import units_of_whole
from tml.tags.source import Explanation, Source

from ..asking.program import FAULT, Program, Reply
from ..lint.kinds import Lint
from ..origins.restored import advise, found_origin
from .judgement import Judgement, problem_of
from .placed import Mark, PlacedFault, PlacedNote, PlacedWarning


def judge_document(
    program: Program, path: str, document: bytes, explained: bool, more: int, lint: Lint | None = None, reply: Reply | None = None
) -> Judgement:
    """The judgement of a document in memory, by a reply that accepts it or tells its fault, if there is one."""
    if reply is None:
        reply = program.check(document)
    fault = read_fault(reply.text) if reply.status == FAULT else None
    if fault is None:
        judgement = Judgement(path, problem=problem_of(reply))
        if lint is not None and judgement.accepted():
            judgement.warnings = placed_warnings(program, Source(document, units_of_whole(program, document)), lint)
        return judgement
    places = Places(document)
    found = explain(program, document, fault, places) if explained or more else Explanation()
    if explained:
        advise(document, found, found_origin(program, document, fault), places)
    judgement = Judgement(path, [placed(places, fault, found, explained, False)])
    if more:
        from .further import further_faults

        for further, following, perhaps in further_faults(program, document, places, fault, found, more):
            judgement.faults.append(placed(places, further, following, explained, perhaps))
    return judgement


def placed_warnings(program: Program, source: Source, lint: Lint) -> list[PlacedWarning]:
    """What is suspect in an accepted document, with places in lines and columns."""
    from ..lint.warnings import MOST_WARNINGS, Finding, warnings_of

    found = nsmallest(MOST_WARNINGS, warnings_of(program, source, lint), key=Finding.order)
    return [PlacedWarning(one.name, one.text, mark_of(source.places, one.start, one.end), one.tag) for one in found]


def mark_of(places: Places, start: int, end: int) -> Mark:
    """A stretch with its lines and columns."""
    first, last = places.place(start), places.place(max(end, start))
    return Mark(first, last, places.marked(first, last))


def placed(places: Places, fault: Fault, found: Explanation, explained: bool, perhaps: bool) -> PlacedFault:
    """A fault with places in lines and columns."""
    place = places.place(fault.offset)
    if not explained or not found.text:
        return PlacedFault(fault, place, fault.sentence(), mark_of(places, fault.offset, fault.offset + 1), [], perhaps)
    notes = [PlacedNote(places.place(note.offset), note.text) for note in found.notes]
    return PlacedFault(fault, place, found.text, mark_of(places, found.start, found.end), notes, perhaps)
