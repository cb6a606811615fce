"""The picture of what is known of a document: dates on an axis, bars in lanes below it, lines between bars, a list, and a legend.

It states only what `timeline.known` holds, by these conventions, which its legend says in words:

- An upright line is a place of the axis. Bars stop short of the position of a strict bound, as `timeline.extents` has it.
- A line between two bars begins and ends in the third of a bar that is for its start, on the left, or for its end, on the right. An
  arrow from the middle third of one bar to that of another is from the end of the first one to the start of the second one.
- Lanes have no meaning, and neither has the place of a label.
"""

from __future__ import annotations

from collections.abc import Collection, Mapping, Sequence
from dataclasses import dataclass, field, replace
from graphlib import TopologicalSorter
from itertools import accumulate, pairwise

from ..timeline.extents import Extent, Positions
from ..timeline.known import Known, Order
from ..timeline.lettering import fitted, is_turned, measured, plain, told_apart
from ..timeline.rows import KINDS, NO_INTERVAL, Row, Timeline
from ..timeline.sentences import named, order_said, place_called, said_of
from .dates import Dated, dated, name_of
from .layout import Stretch, packed, spread
from .shapes import BLACK, EDGE, GREY, LABEL, SKIP, SMALL, Box, Figure, Line, Shape, Text

PITCH, CLOSE = 15.0, 10.5
"""How far apart two lanes are, and how far they are at least if there is little room. A bar is two thirds of that high."""

BRIEF = 90.0
"""How broad the text of an interval is at most if it is named to say when another one is."""

PALE, LIGHT = "#D5D5D5", "#A8A8A8"

LINES = {
    "<": ("before", Line((), arrow=True)),
    "≤": ("never-after", Line((), 0.7, GREY, dashed=True, arrow=True)),
    "=": ("together", Line((), 1.7, GREY)),
}
"""Of each sign of an order the class and the look of its line."""

LINES_SAID = ("before", "before or at once", "at once")
"""What the lines mean."""


@dataclass
class Drawing:
    """A picture as it is made: what is drawn, where places and bars are, and its shapes from the lowest on."""

    timeline: Timeline
    width: float
    places: Sequence[float]
    """Where the places of the axis are."""

    extents: Mapping[int, Extent]
    rows: Mapping[int, Row]
    """The rows that are drawn, by the numbers of their intervals."""

    with_said: bool = False
    pitch: float = PITCH
    bars: dict[int, Box] = field(default_factory=dict)
    behind: list[Shape] = field(default_factory=list)
    lines: list[Shape] = field(default_factory=list)
    front: list[Shape] = field(default_factory=list)

    def said(self, row: Row) -> str:
        """What is shown where a bar is pointed at."""
        return row.description() if self.with_said else ""


def figure_of(timeline: Timeline, width: float, *, one_each: bool = False, with_said: bool = False, pitch: float = PITCH) -> Figure:
    """The picture in a width, perhaps with a lane for each bar, and with what is known of each bar where it is pointed at."""
    known, every = timeline.known, timeline.by_number()
    rows = {number: row for number, row in every.items() if row.is_tied}
    dates = dated(known, rows)
    positions = positions_of(known, rows, dates, width)
    extents = {number: positions.extent(known, number) for number in rows}
    drawing = Drawing(timeline, width, positions.places, extents, rows, with_said, pitch)
    top = put_dates(drawing, dates)
    bottom = put_bars(drawing, top, one_each)
    put_places(drawing, every, top, bottom)
    for order in known.orders:
        drawing.lines += line_of(drawing, order)
    figure = Figure(width, f"Timeline of {plain(timeline.title)}", said=described(timeline, every), axis=top + 4)
    figure.shapes = [*drawing.behind, *drawing.lines, *drawing.front]
    put_legend(figure, drawing, put_list(figure, drawing, every, bottom))
    return figure


def described(timeline: Timeline, every: dict[int, Row]) -> str:
    """What the picture states, in sentences."""
    places = [place_called(timeline.known, every, place) for place in range(len(timeline.known.axis))]
    said = [f"In this order: {', '.join(places)}." if places else "Nothing has a place on an axis."]
    bounds = [(row, [one for one in row.said if one.startswith(("starts", "ends"))]) for row in timeline.rows]
    said += [f"{named(row)}: {'; '.join(some)}." for row, some in bounds if some]
    said += [f"Also, {order_said(order, every)}." for order in timeline.known.orders]
    said += [f"Nothing says when: {', '.join(named(every[number]) for number in timeline.known.listed)}."] if timeline.known.listed else []
    return " ".join(said)


def positions_of(known: Known, rows: Mapping[int, Row], dates: Sequence[Dated], width: float) -> Positions:
    """Where the places are, with a stretch before the first and after the last one if some bar reaches there."""
    before = int(any(known.lower[2 * number] is None for number in rows))
    after = int(any(known.upper[2 * number + 1] is None for number in rows))
    count = before + len(known.axis) + after
    # Gaps have room for their names only if dates have it too, and these are set in two lines if that helps.
    own = [one for one in dates if one.number is not None]
    for some, lines in ((dates, 1), (own, 1), (own, 2)):
        needs = [(before + one.start, before + one.end, one.room(lines)) for one in some]
        found = [EDGE + place for place in spread(needs, count, width - 2 * EDGE)]
        if all(found[end] - found[start] > need - 0.1 for start, end, need in needs):
            break
    return Positions(found[before : before + len(known.axis)], EDGE, width - EDGE)


def put_dates(drawing: Drawing, dates: Sequence[Dated]) -> float:
    """The dates in lanes, the longest ones above, and the gaps of the calendar between them. Answers where the axis is."""
    stretches = [(drawing.places[one.start], drawing.places[one.end]) for one in dates]
    names = [name_of(one, *stretch, drawing.width) for one, stretch in zip(dates, stretches, strict=True)]
    lanes = packed([name.reach(*stretch) for name, stretch in zip(names, stretches, strict=True)])
    highs = {lane: max(name.high() for name, other in zip(names, lanes, strict=True) if other == lane) for lane in sorted(lanes)}
    *tops, bottom = accumulate(highs.values(), initial=EDGE)
    for one, name, lane, (x, right) in zip(dates, names, lanes, stretches, strict=True):
        box = Box(x, tops[lane], right - x, highs[lane], "exact")
        if one.number is not None:
            row = drawing.rows[one.number]
            box = drawing.bars[one.number] = replace(box, name=row.name, said=drawing.said(row))
        drawing.front += [box] if one.number is not None else broken((x + right) / 2, bottom + 2)
        drawing.front += name.shapes(box, GREY if one.number is None else BLACK)
    if drawing.places:
        drawing.behind.append(Line(((EDGE, bottom + 2), (drawing.width - EDGE, bottom + 2)), 0.6, arrow=True))
    return bottom + 2


def broken(x: float, y: float) -> list[Shape]:
    """The sign of a break of the axis."""
    return [Line(((x - 2 + by, y + 3), (x + 1 + by, y - 3)), 0.6, kind="break") for by in (0.0, 2.0)]


def put_places(drawing: Drawing, every: dict[int, Row], top: float, bottom: float) -> None:
    """An upright line for each place; that of a date is darker, and reaches up to it."""
    known, dates = drawing.timeline.known, [(number, bar) for number, bar in drawing.bars.items() if bar.filling == "exact"]
    ends = [(bar.y + bar.height, known.place(point)) for number, bar in dates for point in (2 * number, 2 * number + 1)]
    # Of several dates at a place the highest one comes last.
    tops = {place: high for high, place in sorted(ends, key=lambda end: -end[0])}
    for place, (x, points) in enumerate(zip(drawing.places, known.axis, strict=True)):
        said = " ".join(f"{every[point // 2].name}{'+' if point % 2 else '-'}" for point in points)
        width, colour = (0.5, LIGHT) if place in tops else (0.35, PALE)
        drawing.behind.insert(0, Line(((x, tops.get(place, top)), (x, bottom)), width, colour, kind="place", points=said))


def put_bars(drawing: Drawing, top: float, one_each: bool) -> float:
    """The bars in lanes below a height, each with its label in it, or next to it. Answers where they end."""
    before = ended_before([number for number in drawing.rows if number not in drawing.bars], drawing.timeline.known.orders)
    numbers = list(before) if one_each else in_order(before)
    extents, every = [drawing.extents[number] for number in numbers], (EDGE, drawing.width - EDGE)
    texts = [plain(drawing.rows[number].text) or drawing.rows[number].name for number in numbers]
    others = neighbours(texts)
    labels = [placed_label(*one, others, every, drawing.width / 3) for one in zip(extents, texts, strict=True)]
    reaches = list(map(reach, extents, labels))
    places = {number: place for place, number in enumerate(numbers)}
    below = [[places[other] for other in before[number]] for number in numbers]
    lanes = list(range(len(numbers))) if one_each else packed(reaches, below)
    for place in (place for place, text in enumerate(texts) if text != labels[place][0]):
        free = free_around(reaches[place], [one for one, lane in zip(reaches, lanes, strict=True) if lane == lanes[place]], every)
        broader = placed_label(extents[place], texts[place], others, free)
        labels[place] = max(labels[place], broader, key=lambda one: measured(one[0], LABEL))
        reaches[place] = reach(extents[place], labels[place])
    first = top + 7
    for number, lane, label in zip(numbers, lanes, labels, strict=True):
        put_bar(drawing, number, first + lane * drawing.pitch, *label)
    return first + (max(lanes, default=-1) + 1) * drawing.pitch - drawing.pitch / 3 + 4


def neighbours(texts: Sequence[str]) -> dict[str, list[str]]:
    """Of each text the two others that begin most like it."""
    row = sorted({*texts})
    return {text: [*row[max(place - 1, 0) : place], *row[place + 1 : place + 2]] for place, text in enumerate(row)}


def reach(extent: Extent, label: tuple[str, float]) -> Stretch:
    """From where to where a bar and its label have to be alone in a lane."""
    text, begin = label
    return min(extent.outer[0], begin) - 1, max(extent.outer[1], begin + measured(text, LABEL)) + 1


def free_around(own: Stretch, lane: Sequence[Stretch], every: Stretch) -> Stretch:
    """From where to where nothing but one bar is in its lane."""
    left = max([every[0], *(end + 1 for _, end in lane if end < own[0] + 0.02)])
    return left, min([every[1], *(begin - 1 for begin, _ in lane if begin > own[1] - 0.02)])


def ended_before(numbers: Sequence[int], orders: Collection[Order]) -> dict[int, set[int]]:
    """Of each of some intervals those that end before it starts, as far as orders say."""
    found: dict[int, set[int]] = {number: set() for number in numbers}
    for one in orders:
        first, second = one.first // 2, one.second // 2
        if one.is_whole() and first in found and second in found:
            found[second].add(first)
    return found


def in_order(before: Mapping[int, set[int]]) -> list[int]:
    """Intervals so that each comes after those that end before it starts, and else early if it came early."""
    numbers, places = list(before), {number: place for place, number in enumerate(before)}
    sorter, ready = TopologicalSorter(before), list[int]()
    sorter.prepare()
    found: list[int] = []
    while sorter.is_active():
        first, *ready = sorted([*ready, *(places[number] for number in sorter.get_ready())])
        found.append(numbers[first])
        sorter.done(numbers[first])
    return found


def placed_label(extent: Extent, label: str, others: Mapping[str, Sequence[str]], free: Stretch, most: float = 0.0) -> tuple[str, float]:
    """A label and where it begins: in the broadest part of the bar, or in the whole, or next to it, or at the edge of the picture.

    It is as long as the bar, or as some length, or else as what is free next to the bar.
    """
    begin, end = extent.outer
    text = told_apart(label, others[label], max(end - begin - 2, most or max(free[1] - end, begin - free[0]) - 2), LABEL)
    broad = measured(text, LABEL)
    cuts = sorted({begin, end, *(extent.solid or ()), *(x for x in (extent.begun, extent.not_ended) if x is not None)})
    for left, right in (max((right - left, left, right) for left, right in pairwise(cuts))[1:], (begin, end)):
        if broad + 3 <= right - left:
            return text, (left + right - broad) / 2
    if end + 2 + broad <= free[1]:
        return text, end + 2
    return text, begin - 2 - broad if begin - 2 - broad >= free[0] else free[1] - broad


def put_bar(drawing: Drawing, number: int, y: float, text: str, begin: float) -> None:
    """One bar: its outline, its solid part, its marks, and its label."""
    row, extent = drawing.rows[number], drawing.extents[number]
    (left, right), high, filling = extent.outer, 2 * drawing.pitch / 3, row.filling()
    rounded = min(high / 2, (right - left) / 2) if row.kind == "event" else 0.0
    corner = 0.0 if any(extent.is_open) else min(rounded, 2.5)
    outline = Box(left, y, right - left, high, filling, corner, True, extent.is_open, row.name, drawing.said(row))
    drawing.bars[number] = outline
    is_exact = extent.solid == extent.outer and not any(extent.is_open)
    parts: list[Shape] = [] if is_exact else [outline]
    if extent.solid is not None:
        begun, ended = extent.solid
        solid = replace(outline, x=begun, width=ended - begun, round=rounded if is_exact else 0.0, hollow=False, is_open=(False, False))
        parts.append(solid)
    if extent.begun is not None:
        parts.append(Line(((extent.begun, y), (extent.begun, y + 0.4 * high)), 1.4, kind="begun"))
    if extent.not_ended is not None:
        parts.append(Line(((extent.not_ended, y + high), (extent.not_ended, y + 0.6 * high)), 1.4, kind="not-ended"))
    drawing.behind += parts
    is_inside = extent.solid is not None and extent.solid[0] <= begin and begin + measured(text, LABEL) <= extent.solid[1]
    halo = not (is_inside and filling == "event")
    drawing.front.append(Text(begin, y + high / 2 + 0.36 * LABEL, text, LABEL, slanted=bool(row.unasserted), halo=halo, own=True))


def line_of(drawing: Drawing, order: Order) -> list[Shape]:
    """The line of an order between two bars that are drawn: straight down or up if there is room for that."""
    if order.first // 2 not in drawing.bars or order.second // 2 not in drawing.bars:
        return []
    kind, look = LINES[order.sign]
    look = replace(look, kind=kind, bent=True, arrow=look.arrow or order.is_whole())
    one, other = drawing.bars[order.first // 2], drawing.bars[order.second // 2]
    start, end = anchors(third(one, order.first, order), third(other, order.second, order), len(drawing.lines))
    if one.y == other.y:
        lift = min(drawing.pitch / 3, 2 + abs(end - start) * 0.06)
        return [replace(look, way=((start, one.y), (start, one.y - lift), (end, other.y - lift), (end, other.y)))]
    is_below = other.y > one.y
    from_y, to_y = one.y + (one.height if is_below else 0), other.y + (0 if is_below else other.height)
    bend = min(abs(to_y - from_y) * 0.6, 14.0) * (1 if is_below else -1)
    return [replace(look, way=((start, from_y), (start, from_y + bend), (end, to_y - bend), (end, to_y)))]


def third(bar: Box, point: int, order: Order) -> tuple[float, float]:
    """Where a line may meet a bar: in the middle third for a whole interval, else in the third that is for the point."""
    place = 1 if order.is_whole() else 2 * (point % 2)
    margin = bar.width / 12
    return bar.x + place * bar.width / 3 + margin, bar.x + (place + 1) * bar.width / 3 - margin


def anchors(one: tuple[float, float], other: tuple[float, float], number: int) -> tuple[float, float]:
    """Where a line meets two bars: at one position if it may, which differs for lines that follow each other; else as near as it may."""
    left, right = max(one[0], other[0]), min(one[1], other[1])
    if left <= right:
        middle = (left + right) / 2 + min(right - left, 24.0) * ((0.5 + number * 0.382) % 1 - 0.5)
        return middle, middle
    return (one[1], other[0]) if one[1] < other[0] else (one[0], other[1])


def put_list(figure: Figure, drawing: Drawing, every: Mapping[int, Row], y: float) -> float:
    """The intervals that have no bound, each with its orders, in lines; or that there is none. Answers how far down the lines reach."""
    known = drawing.timeline.known
    if not known.listed:
        return y if every else figure.write(EDGE, EDGE + LABEL, NO_INTERVAL)
    y = figure.write(EDGE, y + 9, "Nothing says when:", bold=True)
    said, indent = of_listed(known, every), EDGE + 4
    x = indent
    for number in known.listed:
        text = f"{named(every[number])}{': ' if said[number] else ''}{'; '.join(said[number])}"
        broad = measured(text, LABEL) + 8
        if x > indent and x + broad > figure.width - EDGE:
            x, y = indent, y + LABEL + SKIP
        below = figure.write(x, y, text, name=every[number].name)
        x, y = (x + broad, y) if below - y < LABEL + SKIP + 1 else (indent, below)
    return y + LABEL + SKIP if x > indent else y


def of_listed(known: Known, every: Mapping[int, Row]) -> dict[int, list[str]]:
    """Of each listed interval its orders in words; one of two that are listed is said of the first."""
    found: dict[int, list[str]] = {number: [] for number in known.listed}
    # One that goes from right to left is whole, since the sign of a cut would be at its beginning.
    every = {
        number: row if is_turned(row.text) else replace(row, text=fitted(plain(row.text), BRIEF, LABEL)) for number, row in every.items()
    }
    for order in known.orders:
        ends = found.keys() & {order.first // 2, order.second // 2}
        if ends:
            found[min(ends)].append(said_of(min(ends), order, every))
    return found


def kinds_in(figure: Figure) -> list[tuple[Shape, str]]:
    """The kinds of bars that there are, each with a sign."""
    kinds = {
        one.filling: one.hollow for one in sorted(figure.shapes, key=lambda one: not getattr(one, "hollow", False)) if isinstance(one, Box)
    }
    said = KINDS | {"unasserted": "not asserted"}
    return [(Box(0, -5, 9, 6, kind, hollow=kinds[kind]), words) for kind, words in said.items() if kind in kinds]


def put_legend(figure: Figure, drawing: Drawing, y: float) -> None:
    """What there is in the picture means in words; and how far down the picture reaches."""
    boxes = [one for one in figure.shapes if isinstance(one, Box)]
    kinds = {one.kind for one in figure.shapes if isinstance(one, Line)}
    bar = Box(0, -5, 9, 6, "event")
    table: tuple[tuple[bool, Shape, str], ...] = (
        (bool(drawing.places), Line(((4.5, -5), (4.5, 1)), 0.5, LIGHT), "start or end, before all to its right; width says nothing"),
        (any(one.filling != "exact" and not one.hollow for one in boxes), bar, "lasts"),
        (any(one.hollow for one in boxes), replace(bar, hollow=True), "may last, up to a line only if it touches it"),
        (any(any(one.is_open) for one in boxes), replace(bar, hollow=True, is_open=(False, True)), "no limit"),
        ("begun" in kinds, Line(((4.5, -5), (4.5, -1)), 1.4), "has begun"),
        ("not-ended" in kinds, Line(((4.5, -3), (4.5, 1)), 1.4), "has not ended"),
        *(
            (kind in kinds, replace(look, way=((0, -2), (9, -2))), said)
            for (kind, look), said in zip(LINES.values(), LINES_SAID, strict=True)
        ),
    )
    items = kinds_in(figure) + [(sign, said) for is_there, sign, said in table if is_there]
    y = put_items(figure, items, y + 6)
    are_whole = {one.is_whole() for one in drawing.timeline.known.orders if {one.first // 2, one.second // 2} <= drawing.bars.keys()}
    ends = [
        said
        for whole, said in ((False, "left third of a bar: its start; right: its end"), (True, "middle: end to start"))
        if whole in are_whole
    ]
    if ends:
        y = figure.write(EDGE, y + 9.5, f"Lines at the {'; '.join(ends)}.", size=SMALL) - SMALL - SKIP
    figure.height = y + 4


def put_items(figure: Figure, items: Sequence[tuple[Shape, str]], y: float) -> float:
    """Signs and what they mean, as many in a line as have room. Answers how far down they reach."""
    x = EDGE
    for shape, said in items:
        broad = 12 + measured(said, SMALL)
        if x > EDGE and x + broad > figure.width - EDGE:
            x, y = EDGE, y + 9.5
        figure.shapes.append(moved(shape, x, y))
        y = figure.write(x + 12, y, said, size=SMALL) - SMALL - SKIP
        x += broad + 7
    return y


def moved(shape: Shape, x: float, y: float) -> Shape:
    """A box or a line at another place."""
    if isinstance(shape, Line):
        return replace(shape, way=tuple((x + one, y + other) for one, other in shape.way))
    return replace(shape, x=x + shape.x, y=y + shape.y)
