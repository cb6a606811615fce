"""What is answered: a class for each kind of answer. Intervals and links go by the names and numbers that `check` has for them.

Each has itself as a dictionary that `json` takes, by `to_dict()`; and those that are drawn in notebooks have `_repr_html_` or `_repr_svg_`.
"""

from __future__ import annotations

from collections.abc import Mapping
from dataclasses import astuple, dataclass, field
from fractions import Fraction
from functools import cached_property
from typing import TYPE_CHECKING, Any, Literal, NamedTuple, NoReturn

from .lines import Evidence, Ranks, Step
from .saying import cut_short

if TYPE_CHECKING:
    from .asking import Answerer
    from .explaining.telling import Told

__all__ = [
    "Accepted", "Attribute", "Claim", "Clash", "Confirmed", "Consistent", "Counterexample", "Cycle", "Date", "Drill", "Fault", "KeyClash",
    "Link", "Malformed", "Placing", "Possible", "Proof", "Reduced", "Refused", "Relation", "Result", "Row", "Score", "Seconds", "Timeline",
    "TooLong", "Unit", "Verified",
]  # fmt: skip

LONGEST = 300
"""How many characters of a sentence stand in a `repr`."""

NOT_SHOWN = {"not shown": True}
"""What is noted of a field that is for later questions, and no part of an answer."""


class Part:
    """What answers and their parts have."""

    def to_dict(self) -> dict[str, Any]:
        """This as a dictionary of what `json` takes: its fields by their names, and the name of its class as `result`."""
        from .dictionaries import dictionary_of

        return dictionary_of(self)


class Result(Part):
    """What every answer has. It has no truth value: `if answer` raises a `TypeError`, so that no clash is taken for a yes."""

    @property
    def ok(self) -> bool:
        """Whether the answer says yes. Faults, clashes, counterexamples and what is refused say no."""
        return True

    def __bool__(self) -> NoReturn:
        raise TypeError(
            f"{type(self).__name__} has no truth value: .ok is whether the answer says yes, and match or isinstance tell answers apart"
        )

    def __str__(self) -> str:
        from .sentences import sentence

        return sentence(self)

    def __repr__(self) -> str:
        return f"<{type(self).__name__}: {cut_short(str(self), LONGEST)}>"


class Negative(Result):
    """What every answer has that says no."""

    @property
    def ok(self) -> bool:
        """False: the answer says no."""
        return False


class Relation(NamedTuple):
    """Two intervals and a relation of TLINK between them."""

    first: str
    relation: str
    second: str

    def __str__(self) -> str:
        return " ".join(self)

    def to_dict(self) -> dict[str, Any]:
        """The relation as a dictionary."""
        return self._asdict()


class Link(NamedTuple):
    """A TLINK of a document: its number, counted from 0, what it says, and its `lid` where it has one."""

    number: int
    first: str
    relation: str
    second: str
    lid: str | None = None

    def says(self) -> Relation:
        """What it says, without its number."""
        return Relation(self.first, self.relation, self.second)

    def called(self) -> str:
        """How it is called: by its lid, or by its number where it has none."""
        return self.lid or f"link {self.number}"

    def __str__(self) -> str:
        return f"{self.called()}: {self.says()}"

    def to_dict(self) -> dict[str, Any]:
        """The link as a dictionary."""
        return self._asdict()


class Seconds(NamedTuple):
    """The seconds at which an interval starts and ends, counted from 1970-01-01T00:00:00."""

    start: int
    end: int


@dataclass(frozen=True)
class Fault(Negative):
    """The first fault of a document, or of a key: its number and name, the byte where it is, from 0, and the line and column, from 1.

    What is wrong and how it is mended is found once it is asked for, by `message`, `mark` or `str`.
    """

    number: int
    name: str
    byte: int
    line: int
    column: int
    file: Literal["document", "key"] = "document"
    content: bytes = field(default=b"", repr=False, compare=False, metadata=NOT_SHOWN)
    """The bytes of the file."""

    @cached_property
    def told(self) -> Told:
        """The fault in words, with the stretch of the file that they speak of."""
        from .explaining.telling import told

        return told(self.content, self.number, self.name, self.byte)

    @property
    def message(self) -> str:
        """What is wrong: the attribute and its value, and the cure where one is known."""
        return self.told.message

    @property
    def mark(self) -> tuple[str, ...]:
        """The line of the file that the message speaks of, and below it a line with a mark under the words."""
        return self.told.mark

    @property
    def where(self) -> str:
        """The place and the kind of the fault, and whether it is one of the key."""
        return f"{'key ' * (self.file == 'key')}{self.line}:{self.column}: {self.number} {self.name}"

    def __str__(self) -> str:
        return f"{self.where}: {self.message}"

    def _repr_html_(self) -> str:
        from .notebooks import html_of_fault

        return html_of_fault(self)


@dataclass(frozen=True)
class TooLong(Negative):
    """A file has more bytes than it may."""

    file: Literal["document", "key", "evidence", "second", "seconds"]


@dataclass(frozen=True, repr=False)
class Accepted(Result):
    """A document that keeps the rules: how many tags it has of each kind, and its intervals and links in their order."""

    events: int
    instances: int
    times: int
    signals: int
    tlinks: int
    alinks: int
    slinks: int
    intervals: tuple[str, ...]
    links: tuple[Link, ...]


@dataclass(frozen=True)
class Date(Part):
    """What the calendar says of a time.

    It is `exact`, with the second at which it starts and the first one after it; or `within` two such seconds; or `free`, with none.
    Seconds are counted from 1970-01-01T00:00:00, and the texts say the same two as `1998-01-08T00:00:00`.
    """

    kind: Literal["exact", "within", "free"]
    start: int | None = None
    end: int | None = None
    start_text: str | None = None
    end_text: str | None = None


@dataclass(frozen=True)
class Attribute(Part):
    """An attribute of a tag: from the first byte of its name to the one after its closing quote."""

    start: int
    end: int
    name: str


@dataclass(frozen=True)
class Unit(Part):
    """A unit of a document: its first byte, the one after it, its kind, and of a tag the name and the attributes."""

    start: int
    end: int
    kind: Literal["bom", "declaration", "doctype", "comment", "text", "start", "end", "empty"]
    name: str | None = None
    attributes: tuple[Attribute, ...] = ()


class Row(NamedTuple):
    """An interval of a timeline: its name, its words, its kind, its ranks, and of a time what the calendar says of it."""

    name: str
    text: str
    kind: Literal["event", "time"]
    start: int
    end: int
    date: Date | None = None

    def to_dict(self) -> dict[str, Any]:
        """The row as a dictionary."""
        return {**self._asdict(), "date": None if self.date is None else self.date.to_dict()}


@dataclass(frozen=True, repr=False)
class Timeline(Result):
    """The least timeline that fits a document, by the names of its intervals: each start and end has a rank, and only their order counts.

    From `tml.timeline` it has rows too, in the order of the ranks, with the words and the dates of the document.
    """

    ranks: Mapping[str, Ranks]
    evidence: bytes
    rows: tuple[Row, ...] = field(default=(), compare=False)
    content: bytes = field(default=b"", compare=False, metadata=NOT_SHOWN)
    """The bytes of the document."""

    by: Answerer | None = field(default=None, compare=False, metadata=NOT_SHOWN)
    """Who was asked for it, if somebody was named."""

    def _repr_svg_(self) -> str:
        from .notebooks import svg_of_timeline

        return svg_of_timeline(self)


@dataclass(frozen=True, repr=False)
class Clash(Negative):
    """Links that cannot all be true, as the walk shows, though any one of them left out, the others can."""

    links: tuple[Link, ...]
    walk: tuple[Step, ...]
    intervals: tuple[str, ...]
    evidence: bytes
    content: bytes = field(default=b"", compare=False, metadata=NOT_SHOWN)
    """The bytes of the document."""

    def _repr_html_(self) -> str:
        from .notebooks import html_of_clash

        return html_of_clash(self)

    @cached_property
    def spares(self) -> tuple[Mapping[str, Ranks], ...]:
        """For each of the links a timeline in which the others are true. All of them may be long, so they are read once they are asked
        for."""
        lines = Evidence(self.evidence)
        lines.counted()
        lines.counted()
        return tuple(lines.ranks(self.intervals) for _ in self.links)


@dataclass(frozen=True, repr=False)
class Proof(Result):
    """A relation holds in every timeline that fits: a walk for each of its orders."""

    relation: Relation
    walks: tuple[tuple[Step, ...], ...]
    evidence: bytes
    content: bytes = field(default=b"", compare=False, metadata=NOT_SHOWN)


@dataclass(frozen=True, repr=False)
class Counterexample(Negative):
    """A relation need not hold: a timeline that fits, in which it is false."""

    relation: Relation
    ranks: Mapping[str, Ranks]
    evidence: bytes
    content: bytes = field(default=b"", compare=False, metadata=NOT_SHOWN)


@dataclass(frozen=True, repr=False)
class Possible(Result):
    """The base relations of Allen that are possible between two intervals, each with a timeline that fits and has it."""

    timelines: Mapping[str, Mapping[str, Ranks]]


@dataclass(frozen=True, repr=False)
class Reduced(Result):
    """The links that stay where those that follow from others are left out, and how many links there are in all."""

    links: tuple[Link, ...]
    total: int


@dataclass(frozen=True, repr=False)
class Consistent(Result):
    """Relations without the least confident one of each clash: those that are kept, in the order in which they were given, those that were
    dropped, from the most confident one on, and the document with the ones that are kept."""

    kept: tuple[Relation, ...]
    dropped: tuple[Relation, ...]
    document: bytes


@dataclass(frozen=True)
class Score(Result):
    """How many links of a document without redundancy follow in the key, of how many; and the same the other way round."""

    matched: int = 0
    document_links: int = 0
    found: int = 0
    key_links: int = 0

    def __add__(self, other: Score) -> Score:
        """The score of two pairs of documents together."""
        return Score(*(one + another for one, another in zip(astuple(self), astuple(other), strict=True)))

    def __radd__(self, other: Literal[0]) -> Score:
        """The score itself, where `sum` begins with 0."""
        return self if other == 0 else NotImplemented

    @property
    def precision(self) -> Fraction | None:
        """The share of the document's links that follow in the key; none where it has no links."""
        return Fraction(self.matched, self.document_links) if self.document_links else None

    @property
    def recall(self) -> Fraction | None:
        """The share of the key's links that follow in the document; none where it has no links."""
        return Fraction(self.found, self.key_links) if self.key_links else None

    @property
    def f1(self) -> Fraction | None:
        """The harmonic mean of both, which is 0 where both are; none where one of them is not there."""
        precision, recall = self.precision, self.recall
        if precision is None or recall is None:
            return None
        return 2 * precision * recall / (precision + recall) if precision or recall else Fraction(0)


@dataclass(frozen=True)
class KeyClash(Negative):
    """No timeline fits the key."""


@dataclass(frozen=True, repr=False)
class Placing(Result):
    """Seconds for the intervals of a document that meet its links, its dates and its durations; with the text for `confirm`."""

    seconds: Mapping[str, Seconds]
    text: bytes


@dataclass(frozen=True, repr=False)
class Cycle(Negative):
    """Constraints on seconds that cannot all be met; with the text for `confirm`."""

    steps: tuple[Step, ...]
    text: bytes
    content: bytes = field(default=b"", compare=False, metadata=NOT_SHOWN)


@dataclass(frozen=True)
class Claim(Part):
    """What a claim of evidence shows: of an entailment or a counterexample the relation, of a clash the numbers of its links."""

    kind: Literal["timeline", "entails", "counter", "clash"]
    relation: Relation | None = None
    links: tuple[int, ...] = ()


@dataclass(frozen=True, repr=False)
class Verified(Result):
    """Evidence that is right, and what each of its claims shows."""

    claims: tuple[Claim, ...]


@dataclass(frozen=True)
class Confirmed(Result):
    """A placing or a cycle that is right."""

    kind: Literal["placing", "cycle"]


@dataclass(frozen=True)
class Malformed(Negative):
    """A text of evidence or of seconds is malformed: its first bad line, from 1."""

    file: Literal["evidence", "second", "seconds"]
    line: int


@dataclass(frozen=True)
class Refused(Negative):
    """Evidence, a placing or a cycle is wrong: the first reason. Of evidence also the claim, from 0, and the part of it."""

    reason: str
    claim: int | None = None
    part: int | None = None


@dataclass(frozen=True)
class Drill(Result):
    """What the program found of the document of a drill, once the timeline was written as evidence, read again and verified."""

    number: int
    bytes: int
    links: int
    greatest: int
    relations: int
