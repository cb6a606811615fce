"""How many bytes a reply of `tml` may have at most, by the forms of its lines and by what its files may have.

The forms are those of docs/COMMANDS.md. Where it says how great a number is, the longest number stands in its place.
"""

from __future__ import annotations

from collections.abc import Callable, Iterable, Mapping
from functools import cache
from typing import NamedTuple

from .statuses import BASE_RELATIONS, DOCUMENT_LIMIT, EVIDENCE_LIMIT, IDENTIFIER_LIMIT, INTERVAL_LIMIT, LINK_LIMIT, RELATIONS


class Limits(NamedTuple):
    """What files have at most: bytes of a document and of evidence, intervals, links, and characters of a name."""

    document: int = DOCUMENT_LIMIT
    evidence: int = EVIDENCE_LIMIT
    intervals: int = INTERVAL_LIMIT
    links: int = LINK_LIMIT
    name: int = IDENTIFIER_LIMIT

    @property
    def names(self) -> str:
        """The names of two intervals, with a space between them."""
        return " ".join(("n" * self.name,) * 2)

    @property
    def pairs(self) -> int:
        """How many pairs of intervals there are."""
        return self.intervals * (self.intervals - 1) // 2

    @property
    def points(self) -> int:
        """How many points a net has: the start and the end of each interval."""
        return 2 * self.intervals


SHORT = 1024
"""How many bytes a reply has at most that is one line, as that of a fault or of what is refused, or the usage text."""

LONGEST_RELATION = max(RELATIONS, key=len)
BESIDE_BASE = tuple(relation for relation in RELATIONS if relation not in BASE_RELATIONS)
"""The relations that can hold beside a base relation, of which exactly one holds of two intervals."""

SECOND, CIVIL = str(-(2**63)), "10000-01-01T00:00:00"
"""The longest number of a second, and the longest civil text."""

CLAIM = "tml-evidence 2\nclaims 1\n"
"""How the text of one claim begins."""

START_TAG, TEXT, ATTRIBUTE = "<p>", "x", ' a=""'
"""The shortest tag, the shortest text, which does not meet another one, and the shortest attribute."""

LEAST_CLAIM = "entails 0 ENDS 0\nwalk 0\n"
"""The shortest lines with which a claim about two intervals can begin: there is one walk at least, or else a timeline."""


def lengths(lines: Iterable[str]) -> int:
    """How many bytes some lines have, each with its line feed."""
    return sum(len(line) + 1 for line in lines)


def of_timeline(limits: Limits) -> int:
    """Of the lines of a timeline, of which no rank is as great as there are points."""
    last = limits.points - 1
    return lengths([f"timeline {limits.intervals}"]) + limits.intervals * lengths([f"at {last} {last}"])


def of_walk(limits: Limits) -> int:
    """Of the lines of a walk that is printed: it has at most twice as many steps as there are points."""
    steps, last = 2 * limits.points, limits.points - 1
    return lengths([f"walk {steps}"]) + steps * max(lengths([f"calendar {last} {last}"]), lengths([f"via {limits.links} 3"]))


def of_clash(limits: Limits) -> int:
    """Of a minimal clash: each link that it cites is a step of its walk, and has a timeline."""
    cites = min(limits.links, 2 * limits.points)
    cited = cites * lengths([f"cite {limits.links}"])
    return lengths([f"clash {cites}"]) + cited + of_walk(limits) + cites * of_timeline(limits)


def of_claim(*bodies: int) -> int:
    """Of a text of one claim, which has one of these bodies."""
    return len(CLAIM) + max(bodies) + lengths(["end"])


def of_links(limits: Limits) -> int:
    """Of a line for each link."""
    return limits.links * lengths([f"tlink {limits.links} {limits.names} {LONGEST_RELATION}"])


def of_check(limits: Limits) -> int:
    """Of the counts, the intervals and the links of a document."""
    counts = ("events", "instances", "timex", "signals", "tlinks", "alinks", "slinks")
    intervals = limits.intervals * lengths([f"interval {limits.intervals} {'n' * limits.name}"])
    return lengths(["accepted", *(f"{name} {limits.document}" for name in counts)]) + intervals + of_links(limits)


def of_dates(limits: Limits) -> int:
    """Of a line for each time."""
    return limits.intervals * lengths([f"{'n' * limits.name} within {SECOND} {SECOND} {CIVIL} {CIVIL}"])


def of_spans(limits: Limits) -> int:
    """Of a line for each unit and each attribute: the shortest tags and texts by turns are the most lines for so many bytes."""
    at = f"{limits.document} {limits.document}"
    of_attribute = lengths([f"{at} attribute "]) / len(ATTRIBUTE)
    of_units = lengths([f"{at} start ", f"{at} text"]) / len(START_TAG + TEXT)
    # The names stand in the document too.
    return int(max(of_attribute, of_units) * limits.document) + lengths([at]) + limits.document


def of_canon(limits: Limits) -> int:
    """Of a document in which each byte is a quotation mark, and a line feed."""
    return len("&quot;") * limits.document + 1


def of_relations(limits: Limits) -> int:
    """Of all relations that hold at once, for each pair."""
    return limits.pairs * lengths(f"{limits.names} {relation}" for relation in (max(BASE_RELATIONS, key=len), *BESIDE_BASE))


def of_matrix(limits: Limits) -> int:
    """Of all base relations, for each pair."""
    return limits.pairs * lengths([f"{limits.names} {' '.join(BASE_RELATIONS)}"])


def of_ask(limits: Limits) -> int:
    """Of a proof of four orders at most, or of a counterexample."""
    last = limits.intervals - 1
    return of_claim(
        lengths([f"entails {last} {LONGEST_RELATION} {last}"]) + max(4 * of_walk(limits), of_timeline(limits)), of_clash(limits)
    )


def of_possible(limits: Limits) -> int:
    """Of a timeline for each base relation."""
    timelines = lengths(f"relation {relation}" for relation in BASE_RELATIONS) + len(BASE_RELATIONS) * of_timeline(limits)
    return max(lengths([f"possible {len(BASE_RELATIONS)}"]) + timelines, of_claim(of_clash(limits)))


def of_reduce(limits: Limits) -> int:
    """Of all links."""
    return max(lengths([f"reduced {limits.links} of {limits.links}"]) + of_links(limits), of_claim(of_clash(limits)))


def of_seconds(limits: Limits) -> int:
    """Of a placing, or of a cycle of as many lines as there are points and one more."""
    placing = lengths([f"placing {limits.intervals}"]) + limits.intervals * lengths([f"at {SECOND} {SECOND}"])
    lines = limits.points + 1
    cycle = lengths([f"cycle {lines}"]) + lines * max(lengths([f"via {limits.links} 3"]), lengths([f"lower {limits.points}"]))
    return lengths(["tml-seconds 1", "end"]) + max(placing, cycle)


def of_verify(limits: Limits) -> int:
    """Of a line for each claim, of which there are most where they are shortest: then the line of each is longer than its claim."""
    shown = lengths([f"verified entails {limits.names} {LONGEST_RELATION}"])
    return (limits.evidence // len(LEAST_CLAIM) + 1) * shown


LONGEST: Mapping[str, Callable[[Limits], int]] = {
    "spans": of_spans,
    "check": of_check,
    "dates": of_dates,
    "solve": lambda limits: of_claim(of_timeline(limits), of_clash(limits)),
    "ask": of_ask,
    "relations": lambda limits: max(of_relations(limits), of_claim(of_clash(limits))),
    "canon": of_canon,
    "verify": of_verify,
    "renew": lambda limits: limits.evidence + len(CLAIM),
    "join": lambda limits: 2 * limits.evidence + len(CLAIM),
    "possible": of_possible,
    "matrix": lambda limits: max(of_matrix(limits), of_claim(of_clash(limits))),
    "reduce": of_reduce,
    "score": lambda limits: max(lengths([f"precision {limits.links} of {limits.links}"] * 2), of_claim(of_clash(limits))),
    "seconds": of_seconds,
}
"""How many bytes the replies of a command have at most, where they may be long."""


OF_PRODUCT = Limits()


@cache
def longest(command: str, limits: Limits = OF_PRODUCT) -> int:
    """How many bytes a reply to a command has at most: more of it is not read."""
    return max(SHORT, LONGEST[command](limits) if command in LONGEST else 0)
