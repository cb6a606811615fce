"""Draws nets of dates and durations near each other. The length of a duration is mostly that of its hidden interval."""

from __future__ import annotations

from random import Random

from differential.chances import chance
from differential.dates import MODIFIERS, Time, draw_time, duration
from differential.nets import Net, draw_hidden, draw_size, with_links

UNITS = (("W", 604_800), ("D", 86_400), ("H", 3_600), ("M", 60), ("S", 1))
CLOCK = "HMS"


def spelled(random: Random, seconds: int) -> str:
    """A duration of so many seconds, by some of the units."""
    counts = []
    for unit, length in UNITS:
        if unit == "S" or chance(random, 0.5):
            counts.append((unit, seconds // length))
            seconds %= length
    shown = [(unit, f"{count:0{random.choice((1, 1, 1, 2, 9))}}") for unit, count in counts if count or chance(random, 0.2)] or [("D", "0")]
    days = "".join(count + unit for unit, count in shown if unit not in CLOCK)
    hours = "".join(count + unit for unit, count in shown if unit in CLOCK)
    return f"P{days}T{hours}" if hours else f"P{days}"


def lasting(random: Random, seconds: int) -> Time:
    """A duration that an interval of so many seconds has, or in one case of twenty almost has."""
    spare = random.choice((0, 0, 1, 3600))
    lengths = {"": seconds, "LESS_THAN": seconds + 1 + spare, "EQUAL_OR_LESS": seconds + spare, "MORE_THAN": seconds - 1 - spare}
    lengths["EQUAL_OR_MORE"] = seconds - spare
    modifier = random.choice((*lengths, *lengths, random.choice(MODIFIERS), ""))
    length = lengths.get(modifier, seconds + random.choice((-1, 0, 1)))
    if chance(random, 0.05):
        length += random.choice((-2, -1, 1, 2))
    value = duration(random) if chance(random, 0.04) else spelled(random, max(length, 0))
    return Time("DURATION" if chance(random, 0.97) else "SET", modifier, value)


def draw_timed_net(random: Random, size: int | None = None) -> Net:
    """A net of so many intervals: dates, durations and instances."""
    count = draw_size(random) if size is None else size
    kinds = [random.choice(("date", "duration", "duration", "instance")) for _ in range(count)]
    times = [draw_time(random, near=True) if kind == "date" else None for kind in kinds]
    hidden = draw_hidden(random, tuple(times))
    for number, kind in enumerate(kinds):
        if kind == "duration":
            start, end = hidden[number]
            times[number] = lasting(random, end - start)
    return with_links(random, tuple(times), hidden)
