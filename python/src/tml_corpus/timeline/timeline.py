"""The timeline of one document: what is known of it by `tml matrix`, with its rows in words.

The rows have the order of the least timeline that `tml solve` printed, once `tml verify` accepted it.
"""

from __future__ import annotations

import os
import sys
from collections.abc import Callable, Sequence
from dataclasses import dataclass, replace
from functools import partial

from tml.lines import Evidence

from ..asking.program import ACCEPTED, CannotRun, Program, Reply
from ..asking.room import room_for
from ..clash.clashes import verify_timeline
from ..clash.fitting import Unfit, fitting
from ..clash.report import PlacedClash
from ..clash.walk_words import steps_in_words
from ..command_line.statuses import Status
from ..document.around import Around, Text, text_around
from ..document.asserted import AssertedCopy, asserted_copy, unasserted
from ..document.words import Wording
from ..figure import of_clash, of_fault, of_placing, of_timeline
from ..figure.draw import FORMS, NARROW, PAGE, SCREEN, UNITS, Paper, on_pages, written
from ..figure.shapes import Figure
from ..files.finding import CannotRead, counted, read_document, shown
from ..files.replacing import replace_file
from ..matrix.orders import PointOrders, base_relation
from ..matrix.reading import NOT_FITTING, matrix_of
from ..seconds.formats import change_lines, unplaced_lines
from ..seconds.placed import Unplaced, document_placed
from .known import Known
from .page import page
from .rows import Row, Timeline
from .scaled import in_seconds
from .sentences import neighbours, sentences

Ranks = tuple[int, int]
"""Where the start and the end of an interval are: ranks of a timeline, or seconds of a placing."""

PAGES = (".html", ".htm")
"""How the name of a page ends."""

STANDARD_OUTPUT = "-"


@dataclass(frozen=True)
class Choices:
    """How a timeline is asked for: dates that touch may be read so, what is not asserted left out, and rows put as in the text."""

    touching: bool = False
    asserted: bool = False
    in_text_order: bool = False
    rows: tuple[str, ...] = ()
    """The names of intervals that are drawn."""

    around: str = ""
    """The name of one that is drawn with those that say when it is."""

    between: tuple[str, ...] = ()
    """The names of two that are drawn with all that lies from the start of the first to the end of the second. Without names all are."""

    context: bool = True
    """Whether the words around events stand beside them."""

    paper: Paper = SCREEN
    """What the picture is for."""


@dataclass(frozen=True)
class Drawn:
    """What is printed of a document, its status, and the picture where there is one."""

    text: str
    status: int
    picture: str | bytes | None = None


def form_of(target: str) -> str:
    """The end of a file's name that says how to draw; other ends are refused. Standard output is SVG."""
    end = os.path.splitext(target)[1].lower() if target != STANDARD_OUTPUT else ".svg"
    if end not in {*PAGES, *FORMS}:
        raise ValueError(f"{target} ends in none of .svg, .html, .pdf and .tex")
    return end


def draw(program: Program, path: str, target: str, choices: Choices) -> Drawn:
    """The picture of the timeline of one file, or why there is none."""
    document = readable(path, target)
    with room_for(document):
        return draw_document(program, path, document, target, choices)


def readable(path: str, target: str) -> bytes:
    """The document of a file, over which the picture is not to be written."""
    document = read_document(path)
    if os.path.exists(target) and os.path.samefile(path, target):
        raise CannotRead("the picture would be written over it")
    return document


def undrawn(unfit: Unfit) -> Drawn:
    """What is printed of a document that is not drawn."""
    return Drawn(unfit.text, unfit.status)


def draw_placing(program: Program, path: str, target: str, choices: Choices) -> Drawn:
    """The picture of a placing of one file in whole seconds, or why there is none."""
    document, copy = chosen(program, readable(path, target), choices)
    found = document_placed(program, path, document, choices.touching)
    if isinstance(found, Unfit):
        return drawn_instead(program, path, target, found, choices.paper)
    if isinstance(found, Unplaced):
        return Drawn(change_lines(path, found) + unplaced_lines(path, found), Status.FINDING)
    intervals = found.by_number()
    ranks = [(intervals[number].start, intervals[number].end) for number in range(len(intervals))]
    timeline = in_seconds(timeline_of(program, os.path.basename(path), found.wording, ranks, choices), found)
    drawing = partial(of_placing.figure_of, timeline, intervals, one_each=choices.in_text_order)
    said = change_lines(path, found) + drawn_line(path, target, f"{found.counts()}, in seconds", copy)
    return Drawn(said, Status.SUCCESS, picture_of(drawing, target, SCREEN, timeline))


def draw_document(program: Program, path: str, document: bytes, target: str, choices: Choices) -> Drawn:
    """The picture of a document in memory, or its fault, or the links that clash."""
    document, copy = chosen(program, document, choices)
    found = fitting(program, path, document, "drawn", choices.touching)
    if isinstance(found, Unfit):
        return drawn_instead(program, path, target, found, choices.paper)
    timeline, paper = verified(program, path, found.document, found.reply, choices), choices.paper
    drawing = partial(of_timeline.figure_of, timeline, one_each=choices.in_text_order, with_said=paper.is_for_screen)
    places, left_out = counted(len(timeline.known.axis), "place"), len(timeline.matrix.intervals) - len(timeline.rows)
    counts = f"{counted(len(timeline.rows), 'interval')}, {counted(len(timeline.ends), 'link')}, an axis of {places}"
    counts += f"; {counted(left_out, 'interval')} left out" if left_out else ""
    said = found.text + drawn_line(path, target, counts, copy)
    if paper.is_for_screen:
        return Drawn(said, Status.SUCCESS, picture_of(drawing, target, paper, timeline))
    figure = on_pages(lambda pitch: drawing(paper.width, pitch=pitch))
    return Drawn(said + too_high(path, figure), Status.SUCCESS, written(figure, paper))


def too_high(path: str, figure: Figure) -> str:
    """What is said of a picture for a paper that no page has room for."""
    if figure.height <= PAGE:
        return ""
    high = f"{figure.height / UNITS['mm']:.0f} mm"
    return f"{shown(path)}: {high} are more than a page has: choose intervals by --rows ei1,t1 or --around ei1 or --between t1 t2\n"


def picture_of(drawing: Callable[[float], Figure], target: str, paper: Paper, timeline: Timeline | None = None) -> str | bytes:
    """A picture by its width as a page with a layout for narrow windows too, or as a file of its own."""
    return page(drawing(NARROW), drawing(SCREEN.width), timeline) if form_of(target) in PAGES else written(drawing(paper.width), paper)


def drawn_instead(program: Program, path: str, target: str, unfit: Unfit, paper: Paper) -> Drawn:
    """What is drawn of a document that no timeline fits: its first clash, or the place of its fault."""
    title = os.path.basename(path)
    match unfit.shown:
        case None:
            return undrawn(unfit)
        case PlacedClash(walk=walk):
            wording = Wording(program, unfit.document)
            what, drawing = "first clash", partial(of_clash.figure_of, title, wording, steps_in_words(wording, walk))
        case fault:
            what, drawing = "fault", partial(of_fault.figure_of, title, unfit.document, fault)
    said = f"{shown(path)}: its {what} is drawn in {shown(target)}\n"
    return Drawn(unfit.text + said, unfit.status, picture_of(drawing, target, paper))


def chosen(program: Program, document: bytes, choices: Choices) -> tuple[bytes, AssertedCopy | None]:
    """The document that is asked about: the whole one, or a copy of what it asserts. Of a fault the whole one tells."""
    if not choices.asserted or program.check(document).status != ACCEPTED:
        return document, None
    copy = asserted_copy(program, document)
    return copy.document, copy


def drawn_line(path: str, target: str, counts: str, copy: AssertedCopy | None) -> str:
    """What is printed of a document that was drawn."""
    left_out = f"; {copy.said()}" if copy is not None else ""
    return f"{shown(path)}: drawn in {shown(target)}: {counts}{left_out}\n"


def verified(program: Program, path: str, document: bytes, reply: Reply, choices: Choices = Choices()) -> Timeline:
    """The timeline of a document, once `tml verify` said that what `tml solve` printed is one."""
    verify_timeline(program, document, reply)
    ranks = [(int(start), int(end)) for _, start, end in Evidence(reply.text).counted()]
    # Each rank of a least timeline is forced by a point at the rank before it, so none is left out.
    points = {point for pair in ranks for point in pair}
    if points and len(points) != max(points) + 1:
        raise CannotRun("the timeline that tml solve printed is not the least one")
    return timeline_of(program, os.path.basename(path), Wording(program, document), ranks, choices)


def timeline_of(program: Program, title: str, wording: Wording, ranks: Sequence[Ranks], choices: Choices) -> Timeline:
    """What is known of the chosen intervals of a document, in rows that have the order of some ranks, or of the text."""
    if len(ranks) != len(wording.intervals):
        raise CannotRun("the answers of tml to `check` and `solve` do not belong together")
    matrix, rows = matrix_of(program, wording.document, wording.intervals), rows_of(wording, ranks)
    orders = PointOrders.of(matrix)
    if any(base_relation(ranks[left], ranks[right]) not in matrix.sets[number] for left, right, number in matrix.pairs()):
        raise CannotRun(NOT_FITTING)
    wanted = chosen_rows(rows, orders, choices)
    known = known_of(rows, orders, wanted)
    said = sentences(known, {number: rows[number] for number in wanted})
    listed = set(known.listed)
    rows = [replace(row, said=said.get(number, ()), is_tied=number not in listed) for number, row in enumerate(rows)]
    rows = rows if choices.context else [replace(row, around=Around()) for row in rows]
    order = sorted(wanted, key=lambda number: sorting(rows[number], number, choices.in_text_order))
    return linked(Timeline(title, [rows[number] for number in order], matrix, known, tuple(order)), wording)


def known_of(rows: Sequence[Row], orders: PointOrders, wanted: Sequence[int]) -> Known:
    """What is known of some intervals."""
    return Known.of(orders, [number for number in wanted if rows[number].kind == "exact"], wanted)


def chosen_rows(rows: Sequence[Row], orders: PointOrders, choices: Choices) -> list[int]:
    """The numbers of the intervals that are drawn."""
    numbers = {row.name: number for number, row in enumerate(rows)}
    names = {*choices.rows, *choices.between, *filter(None, [choices.around])}
    unknown = sorted(names - numbers.keys())
    if unknown:
        raise CannotRun(f"no interval is called {', '.join(unknown)}")
    everything = range(len(rows))
    found = {numbers[name] for name in names} if names else set(everything)
    if choices.around:
        found |= neighbours(known_of(rows, orders, everything), dict(enumerate(rows)), numbers[choices.around])
    if choices.between:
        first, last = (numbers[name] for name in choices.between)
        later, earlier = orders.not_before[2 * first], orders.not_after[2 * last + 1]
        found |= {number for number in everything if later >> 2 * number & 1 and earlier >> (2 * number + 1) & 1}
    return sorted(found)


def linked(timeline: Timeline, wording: Wording) -> Timeline:
    """The same with the links between its rows."""
    places = {row.name: place for place, row in enumerate(timeline.rows)}
    ends = []
    for link in map(wording.link, range(len(wording.link_tags))):
        if link.left in places and link.right in places:
            left, right = places[link.left], places[link.right]
            ends.append((left, link.relation, right))
            for place in {left, right}:
                timeline.rows[place].links.append(wording.in_words(link))
    return replace(timeline, ends=tuple(ends))


def sorting(row: Row, number: int, in_text_order: bool) -> tuple[bool, int, int, int]:
    """Where a row is among the others: those that are listed come last."""
    return (False, row.start, -row.finish, number) if row.is_tied and not in_text_order else (not row.is_tied, row.place, 0, number)


def rows_of(wording: Wording, ranks: Sequence[Ranks]) -> list[Row]:
    """The rows of the intervals by their numbers, without their links."""
    tags = {tag.start for tag in map(wording.tag_of, wording.intervals) if tag is not None}
    text, reasons = text_around(wording.units, wording.document, tags), unasserted(wording)
    return [row_of(wording, name, *pair, text, reasons.get(name, "")) for name, pair in zip(wording.intervals, ranks, strict=True)]


def row_of(wording: Wording, name: str, start: int, finish: int, text: Text, reason: str) -> Row:
    """The row of one interval, without its links. An event has the words around it, and perhaps a reason why it is not asserted."""
    tag, date = wording.tag_of(name), wording.dates.get(name)
    if date is None and name in wording.tags["TIMEX3"]:
        raise CannotRun("the answers of tml to `check` and `dates` do not belong together")
    kind, *numbers = date or ["event"]
    if date and (kind, len(numbers)) not in (("exact", 4), ("within", 4), ("free", 0)):
        raise CannotRun("the answer of tml to `dates` cannot be read")
    around = text.around(tag.start) if tag is not None and kind == "event" else Around()
    place, civil = tag.start if tag is not None else 0, tuple(numbers[2:])
    return Row(name, wording.whole_text_of(name), kind, start, finish, civil, place=place, around=around, unasserted=reason)


def write_picture(target: str, picture: str | bytes) -> None:
    """Writes a picture."""
    content = picture.encode("utf-8") if isinstance(picture, str) else picture
    if target == STANDARD_OUTPUT:
        sys.stdout.flush()
        sys.stdout.buffer.write(content)
        return
    replace_file(target, content)
