"""The page of one document in a report: its text beside its timeline, its links, its clashes step by step, faults and warnings."""

from __future__ import annotations

import os
from collections.abc import Iterable, Iterator
from functools import partial

from tml.markup import NOTHING, Markup, Value, element, lined, together
from tml.places import Place

from ..check.formats import CONSEQUENCE
from ..check.placed import Mark, PlacedFault, PlacedWarning
from ..clash.report import PlacedClash, PlacedLink
from ..clash.walk_words import WalkStep, steps_in_words
from ..document.words import Wording
from ..figure import of_clash, of_timeline
from ..figure.draw import NARROW
from ..figure.html_form import in_page, in_words
from ..figure.svg_form import drawing
from ..files.finding import counted
from ..timeline.lettering import plain
from ..timeline.rows import Row, Timeline
from .documents import Entry, Examined, entry_of, free_dates
from .frame import coded, framed, isolated, listed, section
from .text import Words, marked_text

RING, BESIDE = 240.0, 450.0
"""How broad the ring of a clash is, and the picture of a timeline, in points."""


def page_of(examined: Examined) -> str:
    """The whole page of a document, as a file."""
    entry = entry_of(examined, None)
    title = os.path.basename(entry.path) or entry.path
    back = element("p", element("a", "All documents", href="../index.html"), class_="back")
    heading = [element("h1", isolated(title)), element("p", isolated(entry.path), class_="path"), summary(entry)]
    return framed(title, "document.js", back, *heading, *sections(examined), top="../")


def summary(entry: Entry) -> Markup:
    """What became of the document, and its counts, in one paragraph."""
    words: list[Markup | str] = [together(element("strong", entry.verdict), (": ", isolated(entry.said)) if entry.said else None)]
    counts = entry.counts
    if counts is not None:
        words += [counted(counts.intervals, "interval"), counted(counts.links, "link")]
        words.append(f"{counted(counts.free_dates, 'date')} without a calendar place")
    if counts is not None and counts.pairs is not None:
        words.append(f"{counts.decided:,} of {counted(counts.pairs, 'pair')} decided")
    words.append(counted(entry.warnings.total(), "warning"))
    return element("p", words[0], *((", ", word) for word in words[1:]), class_="summary")


def sections(examined: Examined) -> Iterator[Markup]:
    """The sections that there are."""
    report, wording = examined.report, examined.wording
    if report.judgement.problem is not None:
        yield section("faults", "Not judged", element("p", isolated(report.judgement.problem)))
    yield section("faults", "Faults", *map(fault_part, report.judgement.faults))
    if wording is not None:
        words = Words(wording)
        yield section("touching", "Dates that touch", touching_part(examined))
        yield reading(examined, wording, words)
        yield section("links", "Links", links_part(wording, words, notes_on_links(examined)))
        free = (element("li", isolated(f"{wording.text_of(name)} ({name})")) for name in free_dates(wording))
        yield section("free", "Dates without a calendar place", listed(*free))
    yield section("warnings", "Warnings", *map(warning_part, report.judgement.warnings))


def source_part(lines: Iterable[str]) -> Markup:
    """Lines of the document as they are written, with a mark below; their columns stay."""
    shown = "\n".join("".join(" " if character.isspace() else character for character in line) for line in lines)
    return element("pre", shown, dir="ltr")


def at(place: Place) -> Markup:
    """A place in the document."""
    return element("span", f"line {place.line:,}, column {place.column:,}", class_="place")


def marked_part(kind: str, text: Markup, mark: Mark) -> Markup:
    """A sentence on a stretch of the document, and that stretch."""
    return lined(element("p", at(mark.start), ": ", text, class_=kind), source_part(mark.source))


def fault_part(fault: PlacedFault) -> Markup:
    """A fault, what it is about, and the notes on it."""
    perhaps = f" {CONSEQUENCE}" if fault.perhaps_consequence else None
    text = together(element("strong", plain(fault.fault.title())), ": ", coded(fault.text), perhaps)
    sentence = fault.fault.sentence()
    meaning = NOTHING if fault.text == sentence else element("p", coded(sentence), class_="meaning")
    notes = (element("li", at(note.place), ": ", coded(note.text)) for note in fault.notes)
    return lined(marked_part("fault", text, fault.mark), meaning, listed(*notes))


def warning_part(warning: PlacedWarning) -> Markup:
    """A warning and what it is about."""
    return marked_part("warning", together(coded(warning.text), " ", element("code", warning.name)), warning.mark)


def clash_part(wording: Wording, words: Words, clash: PlacedClash, number: int) -> Markup:
    """A clash: its links, what is known of them besides, and the walk from a point to itself."""
    is_one = len(clash.links) == 1
    title = "This link cannot be true" if is_one else "These links cannot all be true"
    cure = "This link is wrong" if is_one else "Any one of these links, left out, lets the others be true; one of them is wrong"
    notes = (element("li", at(note.place), ": ", coded(note.text)) for note in clash.calendar + clash.dates + clash.cures)
    steps = steps_in_words(wording, clash.walk)
    first, ring = point_part(wording, steps[0].first), of_clash.figure_of(title, wording, steps, RING, has_words=False)
    content = lined(
        element("h3", f"Clash {number}: {title}"),
        listed(*(element("li", link_reference(link), source_part(link.source)) for link in clash.links), kind="cited"),
        listed(*notes),
        element("p", "Why: each step leads to a point that cannot be earlier.", class_="why"),
        element("div", drawing(ring), class_="ring") if ring.shapes else NOTHING,
        element("ol", "\n", lined(*(step_part(wording, words, step) for step in steps)), class_="walk"),
        element("p", "So ", first, f" would be before itself, which cannot be. {cure}, or a date that a step goes by is.", class_="end"),
    )
    return element("div", "\n", content, class_="clash", id=f"clash{number}")


def link_reference(link: PlacedLink) -> Markup:
    """A link in words, which leads to it in the list of all links."""
    return together(element("a", isolated(link.text), href=f"#link{link.link.number}"), " ", at(link.place()))


def step_part(wording: Wording, words: Words, step: WalkStep) -> Markup:
    """One step of a walk."""
    left, right = (words.identifier(wording.intervals[point // 2]) for point in (step.first, step.second))
    verb = " is before " if step.strict else " is no later than "
    sentence = (point_part(wording, step.first), verb, point_part(wording, step.second), ", ", isolated(step.reason))
    return element("li", *sentence, data_left=left, data_right=right, data_relation=step.relation)


def point_part(wording: Wording, point: int) -> Markup:
    """The start or the end of an interval, by its text and its name."""
    name = wording.intervals[point // 2]
    end = f'the {"end" if point % 2 else "start"} of '
    return together(end, element("em", isolated(wording.text_of(name))), " ", element("span", plain(name), class_="place"))


def touching_part(examined: Examined) -> Markup:
    """The links between dates that touch, each with its cure."""
    changes = examined.report.touching
    return listed(*(element("li", link_reference(one.link), ": ", coded(one.cure()), source_part(one.link.source)) for one in changes))


def reading(examined: Examined, wording: Wording, words: Words) -> Markup:
    """The text, and beside it the timeline, or the clashes where no timeline fits."""
    timeline = examined.timeline
    bars = {row.name: place for place, row in enumerate(timeline.rows)} if timeline else {}
    signs = (("an event", "event"), ("a date or time", "time"), ("a signal", "signal"))
    named = [(", ", element("span", name, class_=f"mark {kind}")) for name, kind in signs]
    legend = element("p", "In the text: ", named[0][1], *named[1:], ".", class_="legend")
    text = section("text", "Text", legend, element("div", marked_text(wording, words, bars), class_="text", dir="auto"))
    if timeline is None:
        clashes = enumerate(examined.report.shown_clashes(), 1)
        beside = section("clashes", "Clashes", *(clash_part(wording, words, clash, number) for number, clash in clashes))
    else:
        beside = timeline_part(timeline, words, bool(examined.report.touching))
    return element("div", "\n", lined(text, beside), class_="reading")


def timeline_part(timeline: Timeline, words: Words, touching: bool) -> Markup:
    """The timeline, and its intervals, each of which leads to its word."""
    note = element("p", "Links between dates that touch are read here as the relation that holds.") if touching else NOTHING
    figures = (of_timeline.figure_of(timeline, width, with_said=True) for width in (NARROW, BESIDE))
    return section("timeline", "Timeline", note, in_page(*figures), in_words(timeline, "a", partial(leading, words)))


def leading(words: Words, place: int, row: Row) -> dict[str, Value]:
    """What makes an interval of the timeline lead to its word in the text."""
    word = words.identifier(row.name)
    leads = {"class_": "leading", "href": f"#{word}", "data_word": word}
    return {"id": f"bar{place}", **leads, "data_links": len(row.linked()), "aria_label": plain(row.heading())}


def notes_on_links(examined: Examined) -> dict[int, list[str]]:
    """What is known of links: the clashes that they are part of, and the relation that holds of dates that touch."""
    found: dict[int, list[str]] = {}
    for number, clash in enumerate(examined.report.shown_clashes(), 1):
        for link in clash.links:
            found.setdefault(link.link.number, []).append(f"part of clash {number}")
    for change in examined.report.touching:
        found.setdefault(change.link.link.number, []).append(f"the dates touch: {change.relation}")
    return found


def links_part(wording: Wording, words: Words, notes: dict[int, list[str]]) -> Markup:
    """All links, in their order."""
    return listed(*(link_part(wording, words, number, notes.get(number, [])) for number in range(len(wording.link_tags))), kind="links")


def link_part(wording: Wording, words: Words, number: int, notes: list[str]) -> Markup:
    """One link by its name, of which each end leads to its word."""
    link = wording.link(number)
    ends = [words.identifier(name) for name in (link.left, link.right)]
    left, right = (
        element("a", isolated(wording.text_of(name)), href=f"#{word}") for word, name in zip(ends, (link.left, link.right), strict=True)
    )
    called = wording.name_of(link, False)
    names = element("span", plain(f"({link.left}, {link.right}; line {link.place.line:,})"), class_="place")
    noted = [together(" ", element("strong", note, class_="noted")) for note in notes]
    sentence = together(left, " ", link.relation, " ", right, " ", names, noted)
    shared = {"data_left": ends[0], "data_right": ends[1], "data_relation": link.relation}
    return element("li", element("span", isolated(called), ": ", class_="called"), sentence, id=f"link{number}", **shared)
