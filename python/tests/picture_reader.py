"""Reads a picture of a timeline as its legend says, from its geometry alone: what it states of the starts and ends of intervals.

A point is the name of an interval with `-` for its start or `+` for its end.
"""

from __future__ import annotations

import re
import xml.etree.ElementTree as ElementTree
from collections.abc import Iterator
from dataclasses import dataclass, field
from itertools import pairwise

SVG = "{http://www.w3.org/2000/svg}"
Path = list[list[tuple[float, float]]]
"""The parts of a path, each by its points."""

NUMBER = re.compile(r"-?[\d.]+")
SIGNS = {"before": "<", "never-after": "≤", "together": "=", "is before": "<", "is never after": "≤", "is": "="}
ORDER = re.compile(r"the (start|end) of .*?\(?([^ ()]+)\)? (is before|is never after|is) the (start|end) of .*?\(?([^ ()]+)\)?")
"""An order as the page for browsers lists it."""

SAID = re.compile(r"(?:(starts|ends) )?(before|after|not after|not before|at) (?:the (start|end) of )?(?:.* )?\(?([^ ()]+)\)?")
SAID_SIGNS = {"before": "<", "after": ">", "not after": "≤", "not before": "≥", "at": "="}
TURNED = {">": "<", "≥": "≤"}


@dataclass(frozen=True)
class Statement:
    """What a picture states: its kind, and that a point is before another one, never after it, together with it, or may be before it."""

    kind: str
    first: str
    sign: str
    second: str


@dataclass(frozen=True)
class Bar:
    """A rectangle of the picture that is a part of the bar of an interval."""

    name: str
    left: float
    right: float
    top: float
    bottom: float
    classes: tuple[str, ...]

    def point_at(self, x: float, whole: str) -> str:
        """The point that a line means which meets the bar there; in the middle third it is the end where a line begins, or the start."""
        share = (x - self.left) / (self.right - self.left)
        return self.name + ("-" if share < 1 / 3 else "+" if share > 2 / 3 else whole)


def path_of(way: str) -> Path:
    """The parts of a path of straight lines, each by its points."""
    found: Path = []
    for step, *numbers in (re.findall(r"[MLHV]|-?[\d.]+", one) for one in re.findall("[MLHV][^MLHV]*", way)):
        one = [float(number) for number in numbers]
        last = found[-1][-1] if found else (0.0, 0.0)
        point = (one[0], last[1]) if step == "H" else (last[0], one[0]) if step == "V" else (one[0], one[1])
        found += [[]] if step == "M" else []
        found[-1].append(point)
    return found


def sides_of(group: ElementTree.Element) -> set[str]:
    """The sides at which the frame of a bar is closed."""
    frames = [path_of(path.attrib["d"]) for path in group.iter(SVG + "path") if path.get("stroke") == "#595959"]
    if not frames:
        return {"left", "right"} if any(rect.get("stroke") for rect in group.iter(SVG + "rect")) else set()
    upright = {one[0] for part in frames[0] for one, other in pairwise(part) if one[0] == other[0]}
    xs = [x for part in frames[0] for x, _ in part]
    return {side for side, x in (("left", min(xs)), ("right", max(xs))) if x in upright}


@dataclass
class Picture:
    """What is seen in a picture: the places of its axis, its bars, its marks and lines, its list and its other texts."""

    width: float
    height: float
    places: list[tuple[float, list[str]]] = field(default_factory=list)
    bars: list[Bar] = field(default_factory=list)
    marks: list[tuple[str, float, float]] = field(default_factory=list)
    lines: list[tuple[str, tuple[float, float], tuple[float, float]]] = field(default_factory=list)
    leaders: list[tuple[float, float, float]] = field(default_factory=list)
    """How far down each line is that leads to a name, and from where to where it is."""

    listed: dict[str, str] = field(default_factory=dict)
    texts: list[tuple[float, float, str, float, str]] = field(default_factory=list)
    """Of each text its place, its anchor, its size and its words."""

    @classmethod
    def read(cls, source: str) -> Picture:
        """What is seen in a file of SVG, or in the last picture of a page."""
        *_, root = ElementTree.fromstring(source.encode()).iter(SVG + "svg")
        _, _, width, height = map(float, root.attrib["viewBox"].split(" "))
        found = cls(width, height)
        for group in root.iter(SVG + "g"):
            if "data-interval" in group.attrib:
                rect, classes = next(group.iter(SVG + "rect")), tuple(group.attrib["class"].split(" "))
                assert sides_of(group) == {"left", "right"} - {one.removeprefix("open-") for one in classes}
                x, y, broad, high = (float(rect.attrib[key]) for key in ("x", "y", "width", "height"))
                found.bars.append(Bar(group.attrib["data-interval"], x, x + broad, y, y + high, classes))
        for path in root.iter(SVG + "path"):
            found.see(path)
        for text in root.iter(SVG + "text"):
            if text.get("class") == "listed":
                said = found.listed.get(name := text.attrib["data-interval"])
                found.listed[name] = text.text or "" if said is None else f"{said} {text.text}"
            if text.get("fill") != "none":
                x, y, size = (float(text.attrib[key]) for key in ("x", "y", "font-size"))
                found.texts.append((x, y, text.get("text-anchor", "start"), size, text.text or ""))
        found.places.sort()
        return found

    def see(self, path: ElementTree.Element) -> None:
        """Takes a line of the picture."""
        kind, ends = path.get("class", ""), [float(one) for one in NUMBER.findall(path.attrib["d"])]
        if kind == "place":
            assert ends[0] == ends[2]
            self.places.append((ends[0], path.attrib["data-point"].split(" ")))
        elif kind == "leader":
            self.leaders.append((ends[1], ends[0], ends[2]))
        elif kind in ("begun", "not-ended"):
            self.marks.append((kind, ends[0], ends[1]))
        elif kind in ("before", "never-after", "together"):
            self.lines.append((kind, (ends[0], ends[1]), (ends[-2], ends[-1])))

    def tolerance(self) -> float:
        """How far a bar may be from a line that it touches."""
        edges = sorted({3.0, *(x for x, _ in self.places), self.width - 3.0})
        gaps = [(later - earlier) / 4 for earlier, later in zip(edges, edges[1:], strict=False) if later - earlier > 0.1]
        return min([1.5, *gaps]) / 2

    def statements(self) -> Iterator[Statement]:
        """All that the picture states."""
        for number, (x, points) in enumerate(self.places):
            yield from (Statement("places at once", points[0], "=", other) for other in points[1:])
            for later_x, others in self.places[number + 1 :]:
                assert later_x > x + 0.1, "two places are at one position"
                yield Statement("places in order", points[0], "<", others[0])
        for bar in self.bars:
            yield from self.of_bar(bar)
        for kind, x, y in self.marks:
            [bar] = [bar for bar in self.bars if bar.left <= x <= bar.right and abs(y - (bar.top if kind == "begun" else bar.bottom)) < 0.1]
            yield self.at_most(f"mark {kind}", bar.name + "-", x) if kind == "begun" else self.at_least(f"mark {kind}", bar.name + "+", x)
        for kind, start, end in self.lines:
            yield Statement(f"line {kind}", self.met(start, "+"), SIGNS[kind], self.met(end, "-"))
        yield from self.of_list()

    def of_bar(self, bar: Bar) -> Iterator[Statement]:
        """What a part of a bar states."""
        start, end, part = bar.name + "-", bar.name + "+", bar.classes[0]
        alone = sum(other.name == bar.name for other in self.bars) == 1
        if part == "full":
            yield self.at_most("full from", start, bar.left)
            yield self.at_least("full to", end, bar.right)
        if part == "hollow" or alone:
            if "open-left" in bar.classes:
                yield from (Statement("open side", start, "may be <", points[0]) for _, points in self.places)
            else:
                yield self.at_least("reaches from", start, bar.left)
                yield from (
                    Statement("may reach", start, "may be <", points[0]) for x, points in self.places if x > bar.left + self.tolerance()
                )
            if "open-right" in bar.classes:
                yield from (Statement("open side", points[0], "may be <", end) for _, points in self.places)
            else:
                yield self.at_most("reaches to", end, bar.right)
                yield from (
                    Statement("may reach", points[0], "may be <", end) for x, points in self.places if x < bar.right - self.tolerance()
                )

    def at_least(self, kind: str, point: str, x: float) -> Statement:
        """That a point is no earlier than a position: the last place there or before it."""
        place, points = max(one for one in self.places if one[0] <= x + self.tolerance())
        return Statement(kind, points[0], "<" if x > place + self.tolerance() else "≤", point)

    def at_most(self, kind: str, point: str, x: float) -> Statement:
        """That a point is no later than a position: the first place there or after it."""
        place, points = min(one for one in self.places if one[0] >= x - self.tolerance())
        return Statement(kind, point, "<" if x < place - self.tolerance() else "≤", points[0])

    def met(self, end: tuple[float, float], whole: str) -> str:
        """The point that an end of a line means."""
        x, y = end
        found = {
            bar.point_at(x, whole)
            for bar in self.whole_bars()
            if bar.left <= x <= bar.right and min(abs(y - bar.top), abs(y - bar.bottom)) < 0.1
        }
        [point] = found
        return point

    def whole_bars(self) -> list[Bar]:
        """Of each interval its bar as far as it reaches."""
        hollow = {bar.name for bar in self.bars if bar.classes[0] == "hollow"}
        return [bar for bar in self.bars if bar.classes[0] == "hollow" or bar.name not in hollow]

    def of_list(self) -> Iterator[Statement]:
        """What the list states: that its intervals have no bound, and orders in words."""
        for name, said in self.listed.items():
            for _, points in self.places:
                yield Statement("listed", name + "-", "may be <", points[0])
                yield Statement("listed", points[0], "may be <", name + "+")
                yield Statement("listed", points[0], "may be <", name + "-")
                yield Statement("listed", name + "+", "may be <", points[0])
            for part in said.partition("): ")[2].split("; "):
                if part:
                    yield self.in_words(name, part)

    def in_words(self, name: str, said: str) -> Statement:
        """An order of an interval in words: of one of its ends, or that it is before or after another interval as a whole."""
        if found := ORDER.fullmatch(said):
            first, second = (found[place + 1] + "+-"[found[place] == "start"] for place in (1, 4))
            return Statement("in words", first, SIGNS[found[3]], second)
        match = SAID.fullmatch(said)
        assert match is not None and (match[1] is None) == (match[3] is None), said
        sign, whole = SAID_SIGNS[match[2]], match[1] is None
        own = name + ("+-"[match[2] == "after"] if whole else "+-"[match[1] == "starts"])
        other = match[4] + ("-+"[match[2] == "after"] if whole else "+-"[match[3] == "start"])
        first, second = (other, own) if sign in TURNED else (own, other)
        return Statement("in words", first, TURNED.get(sign, sign), second)
