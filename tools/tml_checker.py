#!/usr/bin/env python3
"""Checks evidence about a document in TimeML: `python3 tml_checker.py DOC EVIDENCE`.

`tml solve`, `tml ask` and `tml seconds` print evidence: a timeline, a proof that a relation follows, a counterexample, a clash of links, a
placing in whole seconds, or a cycle that no placing meets. This file says whether such a text shows what it claims about a document. It
does not search, and it takes nothing on trust: not the program that wrote the evidence, not the numbers in it, not the document.

It is one file, needs Python 3.9 or later and nothing else, and can be read from top to bottom. It was written from the page
docs/DEFINITIONS.md of the project, in the terms of that page. The parts are: a document and whether it is accepted, the calendar, the
relations and the net of a document, the lines of a text, evidence, seconds, and the command.

What it prints, and its exit status:

    0  verified ..., a line for each claim; or confirmed placing, confirmed cycle
    1  not accepted: the document breaks a rule (this file does not say which)
    3  usage: there are not two arguments
    4  read fault: a file cannot be read
    5  the lines of status 0 cannot be written
    6  out of memory; nothing is printed
    7  evidence line K, evidence claim C part P REASON, or seconds REASON: the text is malformed, or shows nothing
    9  too long DOC, too long EVIDENCE: a file has more bytes than it may

A file named `-` is standard input. Texts are read line by line, so a text of 64 MiB needs little memory.
"""

from __future__ import annotations

import io
import re
import sys
from array import array
from bisect import bisect_left, bisect_right
from calendar import isleap
from collections.abc import Iterable, Iterator, Mapping, Sequence
from datetime import date
from itertools import accumulate, islice
from typing import BinaryIO, NamedTuple

MOST_DOCUMENT, MOST_EVIDENCE = 4_194_304, 67_108_864
"""The most bytes of a document, and of the other file."""
MOST_OPEN, MOST_INTERVALS, MOST_LINKS = 32, 1_024, 4_096
"""The most tags that are open at once, intervals, and links of a document."""


# A document: units
#
# The bytes of a document are cut into units: a byte order mark, declarations, doctypes, comments, texts and tags. Nothing is decoded:
# `&lt;` stays as it is.


class NotAccepted(Exception):
    """The document breaks a rule."""


def require(condition: object) -> None:
    """Refuses the document unless the condition is true."""
    if not condition:
        raise NotAccepted


class Unit(NamedTuple):
    """A unit: its kind, the name of a tag or the bytes of a text, and the attributes of a start or an empty tag, in order."""

    kind: str
    """bom, declaration, doctype, comment, text, start, end, or empty"""
    text: bytes = b""
    attributes: Sequence[tuple[bytes, bytes]] = ()


BYTE_ORDER_MARK = b"\xef\xbb\xbf"
SPACE = rb"[ \t\r\n]"
NAME = rb"[A-Za-z_:\x80-\xff][A-Za-z_:\x80-\xff0-9.-]*"
ATTRIBUTE = re.compile(SPACE + rb"+(" + NAME + rb")" + SPACE + rb"*=" + SPACE + rb"*(?:\"([^<\"]*)\"|'([^<']*)')")
TAG_BEGINS = re.compile(rb"<(" + NAME + rb")")
TAG_ENDS = re.compile(SPACE + rb"*(/?)>")
END_TAG = re.compile(rb"</(" + NAME + rb")" + SPACE + rb"*>")
DECLARATION_BEGINS = re.compile(rb"<\?xml" + SPACE)
DOCTYPE = re.compile(rb"<!DOCTYPE" + SPACE + rb"[^\[<>]*>")
BAD_REFERENCE = re.compile(rb"&(?!(?:lt|gt|amp|quot|apos|#[0-9]{1,7}|#x[0-9A-Fa-f]{1,6});)")
"""An `&` with which no reference begins. None of these patterns takes more than a few looks at each byte."""


def past(source: bytes, closing: bytes, place: int) -> int:
    """The place after the first closing bytes from a place on."""
    found = source.find(closing, place)
    require(found >= 0)
    return found + len(closing)


def checked(text: bytes) -> bytes:
    """A text or a value, in which each `&` begins a reference."""
    require(not BAD_REFERENCE.search(text))
    return text


def attributes_at(source: bytes, place: int) -> tuple[list[tuple[bytes, bytes]], int]:
    """The attributes of a tag from the end of its name on, each a name and a value, and the place after them."""
    attributes = []
    found = ATTRIBUTE.match(source, place)
    while found:
        attributes.append((found[1], checked(found[3] if found[2] is None else found[2])))
        place = found.end()
        found = ATTRIBUTE.match(source, place)
    return attributes, place


def tag_at(source: bytes, place: int) -> tuple[Unit, int]:
    """The start tag or the empty tag at a place, and the place after it."""
    begins = TAG_BEGINS.match(source, place)
    if not begins:
        raise NotAccepted
    attributes, place = attributes_at(source, begins.end())
    ends = TAG_ENDS.match(source, place)
    if not ends:
        raise NotAccepted
    return Unit("empty" if ends[1] else "start", begins[1], attributes), ends.end()


def unit_at(source: bytes, place: int) -> tuple[Unit, int]:
    """The unit at a place of a document, and the place after it."""
    if not source.startswith(b"<", place):
        end = source.find(b"<", place)
        end = len(source) if end < 0 else end
        return Unit("text", checked(source[place:end])), end
    if source.startswith(b"<!--", place):
        return Unit("comment"), past(source, b"-->", place + 4)
    end_tag = END_TAG.match(source, place)
    if end_tag:
        return Unit("end", end_tag[1]), end_tag.end()
    declaration = DECLARATION_BEGINS.match(source, place)
    if declaration:
        return Unit("declaration"), past(source, b"?>", declaration.end())
    doctype = DOCTYPE.match(source, place)
    if doctype:
        return Unit("doctype"), doctype.end()
    return tag_at(source, place)


def units_of(source: bytes) -> Iterator[Unit]:
    """The units of a document, from its first byte to its last."""
    place = 0
    if source.startswith(BYTE_ORDER_MARK):
        place = len(BYTE_ORDER_MARK)
        yield Unit("bom")
    while place < len(source):
        unit, place = unit_at(source, place)
        yield unit


# A document: the nesting of its tags

LINK_TAGS = (b"MAKEINSTANCE", b"TLINK", b"ALINK", b"SLINK")
"""Tags in which there is nothing but comments and white space."""
KNOWN_TAGS = frozenset(
    (
        b"TimeML EVENT TIMEX3 SIGNAL MAKEINSTANCE TLINK ALINK SLINK DOCID DOCNO DOC DCT TITLE EXTRAINFO TEXT BODY HEADLINE P p S s ENAMEX "
        b"NUMEX CONFIDENCE TIMEX3INTERVAL"
    ).split()
)


class Nesting:
    """The tags that are open, and what was there before."""

    def __init__(self) -> None:
        """Begins before the first unit."""
        self.open: list[bytes] = []
        self.root_seen = False
        self.kinds: set[str] = set()

    def take(self, unit: Unit) -> None:
        """Takes the next unit, and requires that it may be at its place."""
        if unit.kind == "declaration":
            require(self.kinds <= {"bom"})
        elif unit.kind == "doctype":
            require(self.kinds.isdisjoint(("doctype", "start", "end", "empty")))
        elif unit.kind == "text":
            in_text = self.open and self.open[-1] not in LINK_TAGS
            require(in_text or not unit.text.strip(b" \t\r\n"))
        elif unit.kind == "end":
            require(self.open and self.open.pop() == unit.text)
            self.root_seen = not self.open
        elif unit.kind in ("start", "empty"):
            self.begin(unit)
        self.kinds.add(unit.kind)

    def begin(self, tag: Unit) -> None:
        """Takes a start tag or an empty tag."""
        require(tag.text in KNOWN_TAGS and not self.root_seen and len(self.open) < MOST_OPEN)
        require((tag.text == b"TimeML") == (not self.open))
        require(not self.open or self.open[-1] not in LINK_TAGS)
        if tag.kind == "start":
            self.open.append(tag.text)
        else:
            self.root_seen = not self.open


# A document: the attributes of its tags

TABLE_OF_ATTRIBUTES = """
EVENT eid! identifier
EVENT class! OCCURRENCE PERCEPTION REPORTING ASPECTUAL STATE I_STATE I_ACTION
MAKEINSTANCE eiid! identifier
MAKEINSTANCE eventID! -> EVENT
MAKEINSTANCE tense PAST PRESENT FUTURE INFINITIVE PRESPART PASTPART NONE
MAKEINSTANCE aspect PROGRESSIVE PERFECTIVE PERFECTIVE_PROGRESSIVE NONE
MAKEINSTANCE pos ADJECTIVE NOUN VERB PREPOSITION OTHER PREP UNKNOWN
MAKEINSTANCE polarity POS NEG
MAKEINSTANCE signalID -> SIGNAL
TIMEX3 tid! identifier
TIMEX3 type! DATE TIME DURATION SET
TIMEX3 value date
TIMEX3 mod BEFORE AFTER ON_OR_BEFORE ON_OR_AFTER LESS_THAN MORE_THAN EQUAL_OR_LESS EQUAL_OR_MORE START MID END APPROX
TIMEX3 functionInDocument CREATION_TIME EXPIRATION_TIME MODIFICATION_TIME PUBLICATION_TIME RELEASE_TIME RECEPTION_TIME NONE
TIMEX3 temporalFunction true false
TIMEX3 anchorTimeID -> TIMEX3
TIMEX3 beginPoint -> TIMEX3
TIMEX3 endPoint -> TIMEX3
SIGNAL sid! identifier
TLINK relType! BEFORE AFTER INCLUDES IS_INCLUDED DURING DURING_INV SIMULTANEOUS IDENTITY IBEFORE IAFTER BEGINS BEGUN_BY ENDS ENDED_BY \
OVERLAPS OVERLAPPED_BY
TLINK eventInstanceID -> MAKEINSTANCE
TLINK timeID -> TIMEX3
TLINK relatedToEventInstance -> MAKEINSTANCE
TLINK relatedToTime -> TIMEX3
TLINK lid identifier
TLINK signalID -> SIGNAL
ALINK eventInstanceID! -> MAKEINSTANCE
ALINK relatedToEventInstance! -> MAKEINSTANCE
ALINK relType! INITIATES CULMINATES TERMINATES CONTINUES REINITIATES
ALINK lid identifier
ALINK signalID -> SIGNAL
SLINK subordinatedEventInstance! -> MAKEINSTANCE
SLINK relType! MODAL EVIDENTIAL NEG_EVIDENTIAL FACTIVE COUNTER_FACTIVE CONDITIONAL INTENSIONAL
SLINK eventInstanceID -> MAKEINSTANCE
SLINK lid identifier
SLINK signalID -> SIGNAL
"""
"""A tag, an attribute (`!` if it is required), and its value: an identifier, a reference to a tag, a date, or one of a list.

All other attributes are carried, and mean nothing. If the value of an attribute is empty, the attribute counts as absent.
"""

IDENTIFIER = re.compile(rb"[A-Za-z0-9_.-]{1,64}")


class Rule(NamedTuple):
    """What an attribute may be: whether it is required, and the words of its value in the table."""

    required: bool
    words: Sequence[bytes]

    def allows(self, value: bytes) -> bool:
        """Whether an attribute may have a value."""
        if self.words[0] in (b"identifier", b"->"):
            return IDENTIFIER.fullmatch(value) is not None
        return not is_bad_date(value) if self.words[0] == b"date" else value in self.words


def read_table(table: str) -> dict[bytes, dict[bytes, Rule]]:
    """The rule of each attribute of each tag."""
    rules: dict[bytes, dict[bytes, Rule]] = {}
    for line in table.encode().splitlines()[1:]:
        tag, attribute, *words = line.split()
        rules.setdefault(tag, {})[attribute.rstrip(b"!")] = Rule(attribute.endswith(b"!"), words)
    return rules


RULES = read_table(TABLE_OF_ATTRIBUTES)

Fields = Mapping[bytes, bytes]
"""The attributes of a tag that the table has and that are not empty."""


def fields_of(tag: Unit) -> Fields:
    """The fields of a start or an empty tag. It requires that no attribute is repeated, and that the table allows them."""
    require(len({name for name, _ in tag.attributes}) == len(tag.attributes))
    rules = RULES.get(tag.text, {})
    fields = {name: value for name, value in tag.attributes if value and name in rules}
    require(all(name in fields or not rule.required for name, rule in rules.items()))
    require(all(rules[name].allows(value) for name, value in fields.items()))
    return fields


# A document: what it says


class Interval(NamedTuple):
    """An interval: its identifier, and the fields of a TIMEX3; an instance has none."""

    name: bytes
    time: Fields | None


class Link(NamedTuple):
    """A TLINK: its relation, and the numbers of its two intervals."""

    left: int
    relation: bytes
    right: int


class Document(NamedTuple):
    """What an accepted document says: its intervals and its links, in order, each numbered from 0."""

    intervals: Sequence[Interval]
    links: Sequence[Link]


def one_of(fields: Fields, *names: bytes) -> bytes:
    """The value of the one of two attributes that is there. There must not be both, nor none."""
    values = [fields[name] for name in names if name in fields]
    require(len(values) == 1)
    return values[0]


class Contents:
    """What the tags of a document say, one after another."""

    def __init__(self) -> None:
        """Begins before the first tag."""
        self.identifiers: dict[bytes, bytes] = {}
        self.references: set[tuple[bytes, bytes]] = set()
        self.intervals: list[Interval] = []
        self.links: list[tuple[bytes, bytes, bytes]] = []

    def take(self, tag: Unit) -> None:
        """Takes a start or an empty tag. No two tags have one identifier."""
        fields = fields_of(tag)
        for name, value in fields.items():
            words = RULES[tag.text][name].words
            if words[0] == b"identifier":
                require(value not in self.identifiers)
                self.identifiers[value] = tag.text
            elif words[0] == b"->":
                self.references.add((value, words[1]))
        if tag.text == b"MAKEINSTANCE":
            self.intervals.append(Interval(fields[b"eiid"], None))
        elif tag.text == b"TIMEX3":
            self.intervals.append(Interval(fields[b"tid"], fields))
        elif tag.text == b"TLINK":
            left = one_of(fields, b"eventInstanceID", b"timeID")
            self.links.append((left, fields[b"relType"], one_of(fields, b"relatedToEventInstance", b"relatedToTime")))
        require(len(self.intervals) <= MOST_INTERVALS and len(self.links) <= MOST_LINKS)

    def document(self) -> Document:
        """The document, after the last tag. Each reference is to a tag of its kind, before or after it."""
        require(all(self.identifiers.get(name) == tag for name, tag in self.references))
        numbers = {interval.name: number for number, interval in enumerate(self.intervals)}
        return Document(self.intervals, [Link(numbers[left], relation, numbers[right]) for left, relation, right in self.links])


def document_of(source: bytes) -> Document:
    """The document whose bytes these are. It raises NotAccepted if they break a rule."""
    try:
        source.decode("utf-8")
    except UnicodeDecodeError as error:
        raise NotAccepted from error
    nesting, contents = Nesting(), Contents()
    for unit in units_of(source):
        nesting.take(unit)
        if unit.kind in ("start", "empty"):
            contents.take(unit)
    require(nesting.root_seen)
    return contents.document()


# The calendar: values of times
#
# The calendar is the proleptic Gregorian one, with the weeks of ISO 8601. Days have the numbers of Python's `date.toordinal`.

TWO, ONE = rb"[0-9]{2}|XX", rb"[0-9]|X"
SHAPE = re.compile(
    rb"(?P<short>[0-9]{2,3})|(?P<year>[0-9]{4}|[0-9]{3}X|[0-9]{2}XX|XXXX)(?:"
    rb"-(?P<month>%b)(?:-(?P<day>%b)(?:T(?P<hour>%b)(?::(?P<minute>%b)(?::(?P<second>%b))?)?)?)?"
    rb"|-W(?P<week>%b)(?:-(?P<weekday>%b))?|-Q(?P<quarter>%b)|-H(?P<half>%b))?" % (TWO, TWO, TWO, TWO, TWO, TWO, ONE, ONE, ONE)
)
"""The calendar shapes: a century or a decade, or a year and what may come after it."""


class CalendarValue(NamedTuple):
    """A text with a calendar shape."""

    is_short: bool
    """whether it is a century or a decade"""
    year: bytes
    """the digits of the year, century or decade before an X"""
    fields: Mapping[str, int | None]
    """the further fields that it has, in order; None for one that is X"""
    is_whole: bool
    """whether there is no X in it"""

    def years(self) -> range:
        """The years from 1 to 9999 that begin with the digits."""
        return range(max(int(self.year.ljust(4, b"0")), 1), int(self.year.ljust(4, b"9")) + 1)

    def known(self) -> Mapping[str, int]:
        """The further fields before the first X."""
        known: dict[str, int] = {}
        if len(self.year) < 4:
            return known
        for name, field in self.fields.items():
            if field is None:
                break
            known[name] = field
        return known


def calendar_value(text: bytes) -> CalendarValue | None:
    """What a text with a calendar shape says; None for any other text."""
    found = SHAPE.fullmatch(text)
    if found is None:
        return None
    digits = found["short"] or found["year"]
    further = {name: field for name, field in found.groupdict().items() if name not in ("short", "year") and field is not None}
    fields = {name: None if b"X" in field else int(field) for name, field in further.items()}
    return CalendarValue(found["short"] is not None, digits.rstrip(b"X"), fields, b"X" not in text)


def days_in_month(years: Iterable[int], month: int | None) -> int:
    """The most days of a month, or of any month, in one of these years."""
    if month == 2:
        return 29 if any(map(isleap, years)) else 28
    return 30 if month in (4, 6, 9, 11) else 31


def weeks_in_year(year: int) -> int:
    """How many weeks a year has: the week of 28 December is its last."""
    return date(year, 12, 28).isocalendar()[1]


def is_bad_date(text: bytes) -> bool:
    """Whether a text has a calendar shape, and no digits for its X make a date and a time of it."""
    value = calendar_value(text)
    if value is None or value.is_short:
        return False
    years, fields = value.years(), value.fields

    def is_within(name: str, least: int, most: int) -> bool:
        """Whether a field is in range, or absent, or an X."""
        number = fields.get(name)
        return number is None or least <= number <= most

    is_midnight = fields.get("hour") == 24 and is_within("minute", 0, 0) and is_within("second", 0, 0)
    return not (
        len(years) > 0
        and is_within("month", 1, 12)
        and is_within("day", 1, days_in_month(years, fields.get("month")))
        and is_within("week", 1, 53 if any(weeks_in_year(year) == 53 for year in years) else 52)
        and is_within("weekday", 1, 7)
        and is_within("quarter", 1, 4)
        and is_within("half", 1, 2)
        and (is_midnight or (is_within("hour", 0, 23) and is_within("minute", 0, 59) and is_within("second", 0, 59)))
    )


# The calendar: intervals, in seconds
#
# Seconds are counted from 1970-01-01T00:00:00, without zones and leap seconds.

DAY = 86_400
EPOCH = date(1970, 1, 1).toordinal() * DAY


def monday(year: int, week: int) -> int:
    """The first day of a week."""
    return date.fromisocalendar(year, week, 1).toordinal()


def days_of(value: CalendarValue) -> tuple[int, int]:
    """The first of the days that belong to a value, by its known part, and the day after the last one."""
    first, last, known = value.years()[0], value.years()[-1], value.known()
    if "weekday" in known:
        day = monday(first, known["week"]) + known["weekday"] - 1
        return day, day + 1
    if "week" in known:
        return monday(first, known["week"]), monday(first, known["week"]) + 7
    if "week" in value.fields:
        return monday(first, 1), monday(last, weeks_in_year(last)) + 7
    if "day" in known:
        day = date(first, known["month"], known["day"]).toordinal()
        return day, day + 1
    begin, end = 1, 12
    if "month" in known:
        begin, end = known["month"], known["month"]
    elif "quarter" in known:
        begin, end = 3 * known["quarter"] - 2, 3 * known["quarter"]
    elif "half" in known:
        begin, end = 6 * known["half"] - 5, 6 * known["half"]
    return date(first, begin, 1).toordinal(), date(last, end, days_in_month([last], end)).toordinal() + 1


def seconds_of(value: CalendarValue) -> tuple[int, int]:
    """The first of the seconds that belong to a value, and the one after the last. Hour 24 begins 24 hours after its day does."""
    low, high = (day * DAY - EPOCH for day in days_of(value))
    known = value.known()
    for name, seconds in (("hour", 3_600), ("minute", 60), ("second", 1)):
        if name in known:
            low += known[name] * seconds
            high = low + seconds
    return low, high


class Bounds(NamedTuple):
    """The seconds between which an interval is: it is exactly from the low one to the high one, or within them."""

    is_exact: bool
    low: int
    high: int


def bounds_of(time: Fields | None) -> Bounds | None:
    """The bounds of an interval by the calendar, if it has any."""
    if time is None or time[b"type"] in (b"DURATION", b"SET") or time.get(b"mod") not in (None, b"START", b"MID", b"END"):
        return None
    value = calendar_value(time.get(b"value", b""))
    if value is None or not value.year:
        return None
    return Bounds(value.is_whole and b"mod" not in time, *seconds_of(value))


# The calendar: lengths, in seconds

COUNT = rb"(?:([0-9]{1,9})%b)?"
LENGTH = re.compile(rb"P(?=[0-9T])" + COUNT % b"W" + COUNT % b"D" + rb"(?:T(?=[0-9])" + COUNT % b"H" + COUNT % b"M" + COUNT % b"S" + rb")?")
"""A duration of weeks, days, hours, minutes and seconds, each a number. One with years, months or an X has no length."""


def is_within(least: int | None, number: int, most: int | None) -> bool:
    """Whether a number is no less than the least and no more than the most, if these are there."""
    return (least is None or least <= number) and (most is None or number <= most)


class Limits(NamedTuple):
    """How long an interval lasts, in seconds: no less than the least number, and no longer than the most, of those that are there."""

    least: int | None = None
    most: int | None = None

    def allow(self, length: int) -> bool:
        """Whether an interval may last so long."""
        return is_within(self.least, length, self.most)


def limits_of(time: Fields | None) -> Limits:
    """The limits of an interval: those of a time of type DURATION that has a length."""
    found = LENGTH.fullmatch(time.get(b"value", b"")) if time and time[b"type"] == b"DURATION" else None
    if time is None or found is None:
        return Limits()
    length = sum(int(count or 0) * seconds for count, seconds in zip(found.groups(), (7 * DAY, DAY, 3_600, 60, 1)))
    limits = {
        b"": Limits(length, length),
        b"LESS_THAN": Limits(None, length - 1),
        b"EQUAL_OR_LESS": Limits(None, length),
        b"MORE_THAN": Limits(length + 1, None),
        b"EQUAL_OR_MORE": Limits(length, None),
    }
    return limits.get(time.get(b"mod", b""), Limits())


# Relations
#
# Interval i has two points: it starts at point 2i, and ends at point 2i + 1.


class Order(NamedTuple):
    """Of two points the first is before the second if the order is strict; else it is not after it."""

    first: int
    second: int
    is_strict: bool

    def is_true(self, ranks: Sequence[int]) -> bool:
        """Whether it is true if each point has its rank."""
        return ranks[self.first] < ranks[self.second] or (not self.is_strict and ranks[self.first] == ranks[self.second])


TABLE_OF_RELATIONS = {
    b"BEFORE": "a.finish < b.start",
    b"AFTER": "b.finish < a.start",
    b"INCLUDES": "a.start < b.start, b.finish < a.finish",
    b"IS_INCLUDED": "b.start < a.start, a.finish < b.finish",
    b"DURING": "b.start <= a.start, a.finish <= b.finish",
    b"DURING_INV": "a.start <= b.start, b.finish <= a.finish",
    b"SIMULTANEOUS": "a.start <= b.start, b.start <= a.start, a.finish <= b.finish, b.finish <= a.finish",
    b"IDENTITY": "a.start <= b.start, b.start <= a.start, a.finish <= b.finish, b.finish <= a.finish",
    b"IBEFORE": "a.finish <= b.start, b.start <= a.finish",
    b"IAFTER": "b.finish <= a.start, a.start <= b.finish",
    b"BEGINS": "a.start <= b.start, b.start <= a.start, a.finish < b.finish",
    b"BEGUN_BY": "a.start <= b.start, b.start <= a.start, b.finish < a.finish",
    b"ENDS": "a.finish <= b.finish, b.finish <= a.finish, b.start < a.start",
    b"ENDED_BY": "a.finish <= b.finish, b.finish <= a.finish, a.start < b.start",
    b"OVERLAPS": "a.start < b.start, b.start < a.finish, a.finish < b.finish",
    b"OVERLAPPED_BY": "b.start < a.start, a.start < b.finish, b.finish < a.finish",
}
"""The orders of each relation between two intervals a and b. The relation holds exactly if all of them are true."""
RELATIONS = tuple(TABLE_OF_RELATIONS)
PARSED = {relation: [order.split() for order in orders.split(", ")] for relation, orders in TABLE_OF_RELATIONS.items()}


def orders_of(left: int, relation: bytes, right: int) -> tuple[Order, ...]:
    """The orders of a relation between two intervals, numbered from 0."""
    points = {"a.start": 2 * left, "a.finish": 2 * left + 1, "b.start": 2 * right, "b.finish": 2 * right + 1}
    return tuple(Order(points[first], points[second], sign == "<") for first, sign, second in PARSED[relation])


def are_true(orders: Iterable[Order], ranks: Sequence[int]) -> bool:
    """Whether all orders are true of ranks."""
    return all(order.is_true(ranks) for order in orders)


# The net of a document


class Followers(NamedTuple):
    """A point, and all points that some link has after it, or at least not before it if that is not strict."""

    point: int
    is_strict: bool
    after: Sequence[int]

    def are_after(self, ranks: Sequence[int]) -> bool:
        """Whether they are there by their ranks."""
        least = min(map(ranks.__getitem__, self.after))
        return ranks[self.point] < least or (not self.is_strict and ranks[self.point] == least)


def followers_in(orders: Iterable[Order]) -> list[Followers]:
    """The followers of each point that has some. They say what the orders say, and no order twice."""
    after: dict[tuple[int, bool], set[int]] = {}
    for order in orders:
        after.setdefault((order.first, order.is_strict), set()).add(order.second)
    return [Followers(point, is_strict, tuple(points)) for (point, is_strict), points in after.items()]


class Net:
    """What a document says of the order of its points."""

    def __init__(self, document: Document) -> None:
        """The net of a document."""
        self.names = [interval.name for interval in document.intervals]
        self.intervals = len(self.names)
        self.points = 2 * self.intervals
        self.links = [orders_of(*link) for link in document.links]
        self.limits = [limits_of(interval.time) for interval in document.intervals]
        self.lower: list[int | None] = []
        self.upper: list[int | None] = []
        for interval in document.intervals:
            self.add_bounds(bounds_of(interval.time))
        self.followers = followers_in(order for orders in self.links for order in orders)
        bounded = sorted((number, point) for point, number in enumerate(self.lower) if number is not None)
        numbers = [number for number, _ in bounded]
        self.latest = [point for _, point in reversed(bounded)]
        """The points that have a lower number, from the greatest number on."""
        self.uppers = [
            (point, len(numbers) - bisect_left(numbers, upper), len(numbers) - bisect_right(numbers, upper))
            for point, upper in enumerate(self.upper)
            if upper is not None
        ]
        """The points that have an upper number, each with how many of `latest` it is not after, and how many of these it is before."""

    def add_bounds(self, bounds: Bounds | None) -> None:
        """Adds the numbers of a start and an end: a point is not before its lower number, and not after its upper one, if it has one."""
        self.lower += [bounds.low if bounds else None, bounds.high if bounds and bounds.is_exact else None]
        self.upper += [bounds.low if bounds and bounds.is_exact else None, bounds.high if bounds else None]

    def link_order(self, link: int, number: int) -> Order | None:
        """An order of a link, if it is there."""
        return self.links[link][number] if link < len(self.links) and number < len(self.links[link]) else None

    def span(self, interval: int) -> Order | None:
        """That an interval starts before it ends, if it is there."""
        return Order(2 * interval, 2 * interval + 1, True) if interval < self.intervals else None

    def calendar_order(self, first: int, second: int) -> Order | None:
        """The order of two points by the calendar, if they are there and it has one for them."""
        if first >= self.points or second >= self.points:
            return None
        upper, lower = self.upper[first], self.lower[second]
        if upper is None or lower is None or upper > lower:
            return None
        return Order(first, second, upper < lower)

    def false_in_calendar(self, ranks: Sequence[int]) -> Order | None:
        """The order by the calendar that is false of ranks, if there is one: that of the least first point, and then of the least second.

        `least[k]` is the least rank of the first k points of `latest`, so there is no need to look at each two points.
        """
        least = [*accumulate(map(ranks.__getitem__, self.latest), min, initial=max(ranks, default=0) + 1)]
        for first, not_after, before in self.uppers:
            if ranks[first] > least[not_after] or ranks[first] >= least[before]:
                orders = (self.calendar_order(first, second) for second in range(self.points))
                return next(order for order in orders if order and not order.is_true(ranks))
        return None


def why_unfit(net: Net, ranks: Sequence[int], links: Sequence[int] | None = None) -> str | None:
    """Why ranks, two for each interval of the net, do not fit it with some of its links in order, or with all; None if they fit.

    The first reason counts: an interval that does not start before it ends, a link that does not hold, the calendar.
    """
    interval = next((one for one in range(net.intervals) if ranks[2 * one] >= ranks[2 * one + 1]), None)
    if interval is not None:
        return f"Order {interval}"
    if links is not None or not all(followers.are_after(ranks) for followers in net.followers):
        chosen = range(len(net.links)) if links is None else links
        link = next((one for one in chosen if not are_true(net.links[one], ranks)), None)
        if link is not None:
            return f"Link {link}"
    order = net.false_in_calendar(ranks)
    return f"Calendar {order.first} {order.second}" if order else None


class Step(NamedTuple):
    """A step from one point to another, with a weight: that of an order is -1 if it is strict, and else 0."""

    begin: int
    end: int
    weight: int


class Steps:
    """Steps that are taken one after another, each of which is to begin at the end of the one before it."""

    def __init__(self, begin: int | None = None) -> None:
        """Begins before step 0, which is to begin at a point, or may begin anywhere."""
        self.taken = 0
        self.begin = begin
        self.end = begin
        self.weight = 0
        self.wrong: int | None = None
        """the number of the first step that is not there, or does not begin at the end of the one before it"""

    def take(self, step: Step | None) -> None:
        """Takes a step; None if what it goes by is not there."""
        if self.wrong is None and (step is None or self.end not in (None, step.begin)):
            self.wrong = self.taken
        if self.wrong is None and step is not None:
            self.begin = step.begin if self.begin is None else self.begin
            self.end = step.end
            self.weight += step.weight
        self.taken += 1

    def why_not(self, end: int | None, is_negative: bool, otherwise: str) -> str | None:
        """Why they do not lead to a point, with a weight below 0 if it is to be; what is said if it is not below 0."""
        if self.wrong is not None:
            return f"Step {self.wrong}"
        if self.end != end:
            return "End"
        return otherwise if is_negative and self.weight >= 0 else None


def step_by(order: Order | None) -> Step | None:
    """The step by an order."""
    return Step(order.first, order.second, -1 if order.is_strict else 0) if order else None


# The lines of a text
#
# Each line ends with a line feed, and one space separates its words. A number is decimal, without sign and without leading zeros.

BUFFER, LONGEST_LINE = 65_536, 128
"""How many bytes of a file are read at once, and of a line. No line of a right text is longer: what is read of a longer line is bad."""
GREATEST = 2**32 - 1
"""The greatest number in a text, except for seconds."""
LEAST_SECOND, GREATEST_SECOND = -(2**63), 2**63 - 1
NUMBER = rb"(0|[1-9][0-9]{0,9})"
SECOND = rb"(0|-?[1-9][0-9]{0,18})"


class BadLine(Exception):
    """The lines up to the one that was taken last do not begin a text."""


def number_of(word: bytes) -> int:
    """The number that a word of at most ten digits is; it raises BadLine for one that is too great."""
    number = int(word)
    if number > GREATEST:
        raise BadLine
    return number


def form_of(pattern: bytes) -> re.Pattern[bytes]:
    """The form of a line with its line feed: N is a number, S a second, and R a relation."""
    relation = rb"(" + rb"|".join(RELATIONS) + rb")"
    return re.compile(b"(?:" + pattern.replace(b"N", NUMBER).replace(b"S", SECOND).replace(b"R", relation) + b")\n")


FIRST = form_of(b"(tml-evidence [12]|tml-seconds 1)")
CLAIMS, END = form_of(b"claims N"), form_of(b"end")
BODY = form_of(b"(timeline|clash) N|(entails|counter) N R N")
TIMELINE, RANKS = form_of(b"timeline N"), form_of(b"at N N")
CITE = form_of(b"cite N")
WALK, STEP = form_of(b"walk N"), form_of(b"(via|span|calendar) N(?: N)?")
PLACING_OR_CYCLE = form_of(b"(placing|cycle) N")
SECONDS, LINE = form_of(b"at S S"), form_of(b"(via|span|lower|upper|least|most) N(?: N)?")


class Text:
    """The lines of a text as they are taken one after another. No line is kept."""

    def __init__(self, stream: BinaryIO) -> None:
        """Begins before the first line."""
        self.stream = stream
        self.taken = 0

    def take(self, form: re.Pattern[bytes]) -> re.Match[bytes]:
        """Takes a line of a form; it raises BadLine for any other line."""
        self.taken += 1
        found = form.fullmatch(self.stream.readline(LONGEST_LINE))
        if found is None:
            raise BadLine
        return found

    def number(self, form: re.Pattern[bytes]) -> int:
        """Takes a line of a form with one number."""
        return number_of(self.take(form)[1])

    def ranks(self, count: int, wanted: int) -> list[int]:
        """Takes so many lines of a timeline: their ranks, if there are as many as wanted. Else none are kept."""
        kept: list[int] = []
        for _ in range(count):
            found = self.take(RANKS)
            start, end = number_of(found[1]), number_of(found[2])
            if count == wanted:
                kept += (start, end)
        return kept

    def step(self, form: re.Pattern[bytes]) -> tuple[bytes, int, int]:
        """Takes a line of a walk or of a cycle: its word and its numbers. If it has only one, the other is 0."""
        found = self.take(form)
        if (found[3] is not None) != (found[1] in (b"via", b"calendar")):
            raise BadLine
        return found[1], number_of(found[2]), number_of(found[3] or b"0")

    def finish(self) -> None:
        """Takes the last line. Any byte after it is on a line that is bad."""
        self.take(END)
        if self.stream.read(1):
            self.taken += 1
            raise BadLine

    def read_rest(self) -> None:
        """Reads to the end of the file, which may turn out to be too long, or not to be readable."""
        while self.stream.read(BUFFER):
            pass


# Evidence
#
# Claims are judged as their lines are read. After a refusal lines are still read, as a bad line anywhere counts before a refusal.

KINDS = (b"timeline", b"entails", b"counter", b"clash")


class Claims:
    """The claims of a text, one after another: the first refusal, or what all of them show."""

    def __init__(self, net: Net, text: Text) -> None:
        """Begins after the first line."""
        self.net = net
        self.text = text
        self.claim = 0
        self.refusal: str | None = None
        self.shown: array[int] = array("I")
        """Of each claim its kind, by its place in `KINDS`. After an entailment or a counterexample come the number of the left interval,
        the place of the relation in `RELATIONS`, and the number of the right interval; after a clash how many links it cites, and which."""

    def refuse(self, part: int, reason: str | None) -> None:
        """Refuses the claim for what is wrong with a part of it, if there is a reason, and nothing was refused before."""
        if reason and self.refusal is None:
            self.refusal = f"evidence claim {self.claim} part {part} {reason}"

    def show(self, kind: bytes, *numbers: int) -> None:
        """Keeps what the claim shows, if nothing was refused."""
        if self.refusal is None:
            self.shown.append(KINDS.index(kind))
            self.shown.extend(numbers)

    def take_all(self, count: int) -> None:
        """Takes so many claims, and the last line."""
        for claim in range(count):
            self.claim = claim
            self.take_claim()
        self.text.finish()

    def take_claim(self) -> None:
        """Takes the body of a claim."""
        found = self.text.take(BODY)
        if found[1] == b"timeline":
            self.take_timeline(1, number_of(found[2]))
            self.show(b"timeline")
        elif found[1] == b"clash":
            self.take_clash(number_of(found[2]))
        else:
            self.take_relation(found[3], number_of(found[4]), found[5], number_of(found[6]))

    def take_timeline(self, part: int, count: int, links: Sequence[int] | None = None) -> Sequence[int]:
        """Takes the ranks of a timeline of so many intervals, which is to fit with some links, in order, or with all."""
        ranks = self.text.ranks(count, self.net.intervals)
        if self.refusal is None:
            self.refuse(part, why_unfit(self.net, ranks, links) if count == self.net.intervals else f"Size {count}")
        return ranks

    def take_walk(self, begin: int | None = None) -> tuple[Steps, set[int]]:
        """Takes a walk that is to begin at a point, or may begin anywhere: its steps, and the links that they go over."""
        steps, links = Steps(begin), set()
        for _ in range(self.text.number(WALK)):
            word, first, second = self.text.step(STEP)
            if word == b"via":
                order = self.net.link_order(first, second)
                if order:
                    links.add(first)
            else:
                order = self.net.span(first) if word == b"span" else self.net.calendar_order(first, second)
            steps.take(step_by(order))
        return steps, links

    def take_relation(self, kind: bytes, left: int, relation: bytes, right: int) -> None:
        """Takes an entailment or a counterexample, after its first line."""
        self.refuse(0, next((f"Number {number}" for number in (left, right) if number >= self.net.intervals), None))
        orders = orders_of(left, relation, right)
        if kind == b"counter":
            ranks = self.take_timeline(1, self.text.number(TIMELINE))
            if self.refusal is None:
                self.refuse(2, "Holds" if are_true(orders, ranks) else None)
        else:
            for part, order in enumerate(orders, 1):
                steps, _ = self.take_walk(order.first)
                self.refuse(part, steps.why_not(order.second, order.is_strict, "Weak"))
        self.show(kind, left, RELATIONS.index(relation), right)

    def take_cites(self, count: int) -> list[int]:
        """Takes the cites of a clash: those that are numbers of links. They rise, and each leaves room for those to come."""
        cites: list[int] = []
        last = -1
        for coming in reversed(range(count)):
            cite = self.text.number(CITE)
            if not last < cite <= GREATEST - coming:
                raise BadLine
            last = cite
            if cite < len(self.net.links):
                cites.append(cite)
            else:
                self.refuse(0, f"Number {cite}")
        return cites

    def take_clash(self, count: int) -> None:
        """Takes a clash of so many links: the closed walk, which nothing fits, and for each link ranks that fit with the others."""
        cites = self.take_cites(count)
        steps, links = self.take_walk()
        self.refuse(1, steps.why_not(steps.begin, True, "Weak"))
        self.refuse(1, next((f"Cited {link}" for link in sorted(links.symmetric_difference(cites))), None))
        for number in range(count):
            others = [cite for cite in cites if cite != cites[number]] if self.refusal is None else []
            self.take_timeline(2 + number, self.text.number(TIMELINE), others)
        self.show(b"clash", len(cites), *cites)

    def lines(self) -> Iterator[str]:
        """What the claims show, a line for each."""
        numbers = iter(self.shown)
        for kind in numbers:
            words = [KINDS[kind].decode()]
            if words == ["clash"]:
                words += map(str, islice(numbers, next(numbers)))
            elif words != ["timeline"]:
                left, relation, right = islice(numbers, 3)
                words += (word.decode() for word in (self.net.names[left], RELATIONS[relation], self.net.names[right]))
            yield "verified " + " ".join(words)


# Placings and cycles in seconds


def why_not_placed(net: Net, seconds: Sequence[int]) -> str | None:
    """Why seconds, two for each interval of the net, are no placing of it: the first reason, in this order; None if they are one."""
    intervals, points = range(net.intervals), range(net.points)
    reasons: tuple[tuple[str, Iterator[int]], ...] = (
        ("Order", (one for one in intervals if seconds[2 * one] >= seconds[2 * one + 1])),
        ("Link", (number for number, orders in enumerate(net.links) if not are_true(orders, seconds))),
        ("Bound", (point for point in points if not is_within(net.lower[point], seconds[point], net.upper[point]))),
        ("Length", (one for one in intervals if not net.limits[one].allow(seconds[2 * one + 1] - seconds[2 * one]))),
    )
    return next((f"{word} {number}" for word, numbers in reasons for number in numbers), None)


def constraint_of(net: Net, word: bytes, first: int, second: int) -> Step | None:
    """The constraint that a line of a cycle names: its end is at most so many seconds after its begin. None if there is none.

    The origin, which is second 0, is the point after those of the net.
    """
    origin = net.points
    if word == b"via":
        order = net.link_order(first, second)
        return Step(order.second, order.first, -1 if order.is_strict else 0) if order else None
    if word in (b"lower", b"upper"):
        seconds = net.lower if word == b"lower" else net.upper
        second_of_point = seconds[first] if first < net.points else None
        if second_of_point is None:
            return None
        return Step(first, origin, -second_of_point) if word == b"lower" else Step(origin, first, second_of_point)
    if first >= net.intervals:
        return None
    if word == b"most":
        most = net.limits[first].most
        return None if most is None else Step(2 * first, 2 * first + 1, most)
    least = 1 if word == b"span" else net.limits[first].least
    return None if least is None else Step(2 * first + 1, 2 * first, -least)


def why_no_placing(net: Net, text: Text, count: int) -> str | None:
    """Takes the lines of a placing of so many intervals: why it is none of the net, if it is not."""
    seconds: list[int] = []
    for _ in range(count):
        pair = [int(word) for word in text.take(SECONDS).groups()]
        if not all(LEAST_SECOND <= second <= GREATEST_SECOND for second in pair):
            raise BadLine
        if count == net.intervals:
            seconds += pair
    text.finish()
    return why_not_placed(net, seconds) if count == net.intervals else f"Size {count}"


def why_no_cycle(net: Net, text: Text, count: int) -> str | None:
    """Takes so many lines of a cycle: why it is no cycle of constraints whose weights have a sum below 0, if it is not."""
    steps = Steps()
    for _ in range(count):
        steps.take(constraint_of(net, *text.step(LINE)))
    text.finish()
    return steps.why_not(steps.begin, True, "Sum")


# The command

DONE, NOT_ACCEPTED, USAGE, READ_FAULT, WRITE_FAULT, NO_MEMORY, EVIDENCE_FAULT, TOO_LONG = 0, 1, 3, 4, 5, 6, 7, 9


def reply_of_text(net: Net, text: Text) -> tuple[int, Iterable[str]]:
    """What a text shows about a net. It raises BadLine for a bad line, the one that was taken last."""
    first = text.take(FIRST)[1]
    if first == b"tml-seconds 1":
        found = text.take(PLACING_OR_CYCLE)
        kind, why_not = found[1].decode(), why_no_placing if found[1] == b"placing" else why_no_cycle
        reason = why_not(net, text, number_of(found[2]))
        return (EVIDENCE_FAULT, [f"seconds {reason}"]) if reason else (DONE, [f"confirmed {kind}"])
    claims = Claims(net, text)
    count = 1 if first == b"tml-evidence 1" else text.number(CLAIMS)
    if count == 0:
        raise BadLine
    claims.take_all(count)
    return (EVIDENCE_FAULT, [claims.refusal]) if claims.refusal else (DONE, claims.lines())


def reply_of_stream(net: Net, stream: BinaryIO) -> tuple[int, Iterable[str]]:
    """What the bytes of a stream show about a net: the exit status, and the lines that are printed."""
    text = Text(stream)
    try:
        return reply_of_text(net, text)
    except BadLine:
        text.read_rest()
        return EVIDENCE_FAULT, [f"evidence line {text.taken}"]


class TooLong(Exception):
    """A file has more bytes than it may have."""


class Limited(io.RawIOBase):
    """The bytes of a file; it raises TooLong if there are more than there may be."""

    def __init__(self, file: io.FileIO, most: int) -> None:
        """Begins at the first byte of a file of at most so many bytes."""
        self.file = file
        self.left = most

    def readable(self) -> bool:
        """It can be read."""
        return True

    def readinto(self, buffer: bytearray | memoryview) -> int:  # type: ignore[override]
        """Reads what comes next into a buffer: how many bytes, and 0 at the end."""
        count = self.file.readinto(buffer)
        if count is None:
            raise BlockingIOError
        self.left -= count
        if self.left < 0:
            raise TooLong
        return count


def opened(name: str) -> io.FileIO:
    """The file of a name; `-` is standard input."""
    return open(0 if name == "-" else name, "rb", buffering=0, closefd=name != "-")


def reply_to(arguments: Sequence[str]) -> tuple[int, Iterable[str]]:
    """The reply to the arguments of a command line. The other file is opened only if the document is accepted."""
    if len(arguments) != 2:
        return USAGE, ["usage:", "python3 tml_checker.py DOC EVIDENCE", "python3 tml_checker.py DOC SECONDS"]
    reading = "DOC"
    try:
        with opened(arguments[0]) as file:
            net = Net(document_of(io.BufferedReader(Limited(file, MOST_DOCUMENT)).read()))
        reading = "EVIDENCE"
        with opened(arguments[1]) as file:
            return reply_of_stream(net, io.BufferedReader(Limited(file, MOST_EVIDENCE), BUFFER))
    except NotAccepted:
        return NOT_ACCEPTED, ["not accepted"]
    except TooLong:
        return TOO_LONG, [f"too long {reading}"]
    except OSError:
        return READ_FAULT, ["read fault"]
    except MemoryError:
        return NO_MEMORY, []


def main(arguments: Sequence[str]) -> int:
    """Prints the reply to the arguments: its exit status."""
    status, lines = reply_to(arguments)
    try:
        with open(1, "w", encoding="utf-8", newline="\n", closefd=False) as output:
            output.writelines(line + "\n" for line in lines)
    except OSError:
        return WRITE_FAULT if status == DONE else status
    return status


if __name__ == "__main__":
    sys.exit(main(sys.argv[1:]))
