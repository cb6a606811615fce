"""Placings and cycles as texts: the section *The text of seconds, and checking it* of docs/DEFINITIONS.md."""

from __future__ import annotations

import re

from .checking import Reason
from .evidence import NUMBER, BadLineError, Reading
from .nets import keeps_link
from .placings import Constraint, Cycle, Line, Placing, Seconds, Timed, constraint_of, is_negative, is_placed, keeps_bounds, keeps_limits

SIGNED = rb"(0|-?[1-9][0-9]{0,18})"
AT = re.compile(rb"at " + SIGNED + rb" " + SIGNED)
LEAST, GREATEST = -(2**63), 2**63 - 1
"""Seconds are from the one to the other."""

ONE_NUMBER = (b"span", b"lower", b"upper", b"least", b"most")
HEAD = b"tml-seconds 1\n"


class SecondsReading(Reading):
    """The lines of a text as they are taken one after another."""

    def pair(self) -> tuple[int, int]:
        """Takes the seconds of an interval."""
        line = self.line()
        found = AT.fullmatch(line) if line is not None else None
        if found is None or not all(LEAST <= int(word) <= GREATEST for word in found.groups()):
            raise BadLineError
        return int(found[1]), int(found[2])

    def cycle_line(self) -> Line:
        """Takes a line of a cycle."""
        forms = (b"via " + NUMBER + b" " + NUMBER, *(word + b" " + NUMBER for word in ONE_NUMBER))
        form, words = self.take(*forms)
        return Line((b"via", *ONE_NUMBER)[form], tuple(int(word) for word in words))

    def evidence(self) -> Placing | Cycle:
        """Takes a whole text."""
        self.take(re.escape(HEAD[:-1]))
        form, [count] = self.take(b"placing " + NUMBER, b"cycle " + NUMBER)
        found: Placing | Cycle
        if form == 0:
            found = Placing(tuple(second for _ in range(int(count)) for second in self.pair()))
        else:
            found = Cycle(tuple(self.cycle_line() for _ in range(int(count))))
        self.end()
        return found


def read_seconds(text: bytes) -> Placing | Cycle | int:
    """The placing or the cycle whose text it is; or else its *bad line*, counted from 1."""
    reading = SecondsReading(text)
    try:
        return reading.evidence()
    except BadLineError:
        return reading.taken


def seconds_text(evidence: Placing | Cycle) -> bytes:
    """The text of a placing or a cycle."""
    if isinstance(evidence, Placing):
        pairs = [evidence.seconds[one : one + 2] for one in range(0, len(evidence.seconds), 2)]
        lines = [b"placing %d" % len(pairs), *(b"at %d %d" % (start, end) for start, end in pairs)]
    else:
        lines = [b"cycle %d" % len(evidence.lines), *(line.text() for line in evidence.lines)]
    return HEAD + b"".join(line + b"\n" for line in [*lines, b"end"])


def why_not_placed(timed: Timed, seconds: Seconds) -> Reason | None:
    """The first reason to refuse a placing: its size, an interval, a link, a point, a length."""
    net = timed.net
    if len(seconds) != net.points():
        return Reason("Size", (len(seconds) // 2,))
    for one in range(net.intervals()):
        if seconds[2 * one] >= seconds[2 * one + 1]:
            return Reason("Order", (one,))
    for link in range(len(net.links)):
        if not keeps_link(net, seconds, link):
            return Reason("Link", (link,))
    for point in range(net.points()):
        if not keeps_bounds(timed, seconds, point):
            return Reason("Bound", (point,))
    return next((Reason("Length", (one,)) for one in range(net.intervals()) if not keeps_limits(timed, seconds, one)), None)


def why_no_cycle(timed: Timed, lines: tuple[Line, ...]) -> Reason | None:
    """The first reason to refuse a cycle: a step, its end, its sum."""
    constraints: list[Constraint] = []
    for number, line in enumerate(lines):
        constraint = constraint_of(timed, line)
        if constraint is None or (constraints and constraints[-1].end != constraint.begin):
            return Reason("Step", (number,))
        constraints.append(constraint)
    if constraints and constraints[-1].end != constraints[0].begin:
        return Reason("End")
    return Reason("Sum") if sum(one.weight for one in constraints) >= 0 else None


def why_refused(timed: Timed, evidence: Placing | Cycle) -> Reason | None:
    """Why a placing or a cycle is refused, if it is."""
    if isinstance(evidence, Placing):
        reason, is_right = why_not_placed(timed, evidence.seconds), is_placed(timed, evidence.seconds)
    else:
        reason, is_right = why_no_cycle(timed, evidence.lines), is_negative(timed, evidence.lines)
    assert is_right == (reason is None)
    return reason


def wrong_seconds(timed: Timed, has_placing: bool, text: bytes) -> str | None:
    """What is wrong with a text of `seconds`, of a document that has a placing or has none."""
    evidence = read_seconds(text)
    if isinstance(evidence, int):
        return f"it is the text of neither a placing nor a cycle: line {evidence} is bad"
    if isinstance(evidence, Placing) != has_placing:
        return "it is the text of a cycle, and there is a placing" if has_placing else "it is the text of a placing, and there is none"
    if isinstance(evidence, Cycle) and len(evidence.lines) > timed.origin() + 1:
        return f"the cycle has {len(evidence.lines)} lines, and there are {timed.origin()} points"
    reason = why_refused(timed, evidence)
    return f"it is refused: {reason.text().decode()}" if reason else None
