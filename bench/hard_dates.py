"""Hard nets with dates and durations."""

from __future__ import annotations

import datetime
import random
from collections.abc import Callable, Sequence
from dataclasses import replace

from hard_nets import NET_COMMANDS, chain, in_a_ring
from hard_shapes import NETS, Case, Links, Shape, net

Times = Callable[[int], list[str]]
DATED = ("solve", "relations", "matrix", "possible", "ask", "reduce", "score", "seconds")
RINGED = ("solve", "ask", "relations", "matrix", "reduce", "score", "seconds", "verify")
DAY = datetime.datetime(1990, 1, 1)


def dates(values: Sequence[str]) -> list[str]:
    """Times of type DATE with these values."""
    return [f'type="DATE" value="{value}"' for value in values]


def months(count: int) -> list[str]:
    """Days of months that follow each other."""
    return dates([f"{1900 + one // 12}-{one % 12 + 1:02}-XX" for one in range(count)])


def years(count: int) -> list[str]:
    """Days of years that follow each other."""
    return dates([f"{1 + one:04}-XX-XX" for one in range(count)])


def hours(count: int) -> list[str]:
    """Hours of days that follow each other."""
    return dates([(DAY + datetime.timedelta(days=one)).strftime("%Y-%m-%dTXX") for one in range(count)])


def exact_days(count: int) -> list[str]:
    """Days that follow each other."""
    return dates([(DAY + datetime.timedelta(days=one)).strftime("%Y-%m-%d") for one in range(count)])


def mixed(count: int) -> list[str]:
    """Days of years and of months, hours of days and minutes of hours, in turn and further and further on."""
    forms = ("%Y-XX-XX", "%Y-%m-XX", "%Y-%m-%dTXX", "%Y-%m-%dT%H:XX")
    return dates([(DAY + datetime.timedelta(hours=37 * one)).strftime(forms[one % 4]) for one in range(count)])


def mixed_with_exact(count: int) -> list[str]:
    """The same, with each eighth one a day."""
    days = exact_days(count)
    return [days[one] if one % 8 == 0 else other for one, other in enumerate(mixed(count))]


def two_years(count: int) -> list[str]:
    """Two years that follow each other, each as often as the other, with no day."""
    return dates(["1998-XX-XX"] * (count // 2) + ["1999-XX-XX"] * (count - count // 2))


def two_years_in_turn(count: int) -> list[str]:
    """The same in turn."""
    return dates([f"{1998 + one % 2}-XX-XX" for one in range(count)])


def one_day(count: int) -> list[str]:
    """The same day again and again."""
    return dates(["1998-01-08"] * count)


def in_no_order(times: Times) -> Times:
    """The same times in no order."""

    def drawn(count: int) -> list[str]:
        made = times(count)
        return random.Random(81).sample(made, len(made))

    return drawn


def years_and_days(count: int) -> list[str]:
    """A year with no day, and the first day after it, each as often as the other."""
    return dates(["1998-XX-XX"] * (count // 2) + ["1999-01-01"] * (count - count // 2))


def alone(times: Times) -> Callable[[int], Case]:
    """Times without a link."""
    return lambda size: net([], 0, times(size))


def and_ring(times: Times, *pattern: str, share: float = 0.5) -> Callable[[int], Case]:
    """Times, which are this share of the intervals, and instances in a ring, by these relations in turn."""

    def make(size: int) -> Case:
        count = int(size * share)
        return net(in_a_ring(range(count, size), *pattern), size - count, times(count))

    return make


def and_free_pair(times: Times) -> Callable[[int], Case]:
    """Times, and two instances without a link, which the query is about."""

    def make(size: int) -> Case:
        case = net([], 2, times(size - 2))
        return replace(case, asked=(f"i{size - 2}", "BEFORE", f"i{size - 1}"))

    return make


def some_and_ring(times: Times, count: int) -> Callable[[int], Case]:
    """So many times, and the rest instances in a ring."""

    def make(size: int) -> Case:
        some = min(count, size // 2)
        return net(in_a_ring(range(some, size), "BEFORE"), size - some, times(some))

    return make


def tied_ring(times: Times) -> Callable[[int], Case]:
    """Times, and as many instances in a chain that begins after the last time and ends before the first one."""

    def make(size: int) -> Case:
        count = size // 2
        links: Links = [(count, "AFTER", count - 1), *chain("BEFORE", range(count, size)), (size - 1, "BEFORE", 0)]
        return net(links, size - count, times(count))

    return make


def tied_by_pairs(times: Times) -> Callable[[int], Case]:
    """Times, and for each of them an instance that is before it and after the next one."""

    def make(size: int) -> Case:
        half = size // 2
        links: Links = []
        for one in range(half - 1):
            links += [(half + one, "BEFORE", one), (half + one, "AFTER", one + 1)]
        return net(links, half, times(half))

    return make


def within_days(size: int) -> Case:
    """Instances, each within one of as many times, and a chain through all of them."""
    half = size // 2
    links: Links = [(half + one, "IS_INCLUDED", one) for one in range(half)]
    return net(links + chain("BEFORE", range(half, 2 * half)), half, mixed_with_exact(half))


def lengths(count: int) -> list[str]:
    """Durations of one to thirty days."""
    return [f'type="DURATION" value="P{one % 30 + 1}D"' for one in range(count)]


def of_lengths(name: str, order: Callable[[int], Sequence[int]]) -> Callable[[int], Case]:
    """A chain of durations, through the intervals in this order."""
    return lambda size: net(chain(name, order(size)), 0, lengths(size))


def onward(size: int) -> Sequence[int]:
    """The intervals in their order."""
    return range(size)


def back(size: int) -> Sequence[int]:
    """The intervals from the last one on."""
    return range(size)[::-1]


def by_turns(size: int) -> Sequence[int]:
    """The first interval, the last one, the second one, and so on."""
    return [one // 2 if one % 2 == 0 else size - 1 - one // 2 for one in range(size)]


def anyhow(size: int) -> Sequence[int]:
    """The intervals in no order."""
    return random.Random(82).sample(range(size), size)


def closed_lengths(size: int) -> Case:
    """Durations: each meets the next, and the last one meets the first one."""
    return net(chain("IBEFORE", [*range(size), 0]), 0, lengths(size))


def slow_cycle(size: int) -> Case:
    """Two chains of durations between two instances, one of them a second longer."""
    half = size // 2 - 1
    long = ['type="DURATION" value="P1D"'] * (half - 1) + ['type="DURATION" value="PT86401S"']
    short = ['type="DURATION" value="P1D"'] * half
    first, last = 2 * half, 2 * half + 1
    links = chain("IBEFORE", [first, *range(half), last]) + chain("IBEFORE", [first, *range(half, 2 * half), last])
    return net(links, 2, long + short)


def capped(name: str, order: Callable[[int], Sequence[int]]) -> Callable[[int], Case]:
    """A long duration, and a chain of short ones from its start, through the intervals in this order."""

    def make(size: int) -> Case:
        links = chain(name, order(size - 1))
        first = order(size - 1)[0 if name == "IBEFORE" else -1]
        return net([*links, (size - 1, "BEGUN_BY", first)], 0, [*lengths(size - 1), 'type="DURATION" value="P100000D"'])

    return make


def overlapping(size: int) -> Case:
    """A long duration, and a chain of longer and longer ones that overlap, by turns. The last one ends it."""
    order = by_turns(size - 1)
    some = [f'type="DURATION" value="PT{10 + one}S"' for one in range(size - 1)]
    links = [*chain("OVERLAPPED_BY", order), (size - 1, "ENDED_BY", order[0])]
    return net(links, 0, [*some, 'type="DURATION" value="P100000D"'])


def with_selves(case: Callable[[int], Case]) -> Callable[[int], Case]:
    """The same with as many more links as there may be, each of an interval with itself."""

    def make(size: int) -> Case:
        made = case(size).document
        link = b'<TLINK timeID="t%d" relatedToTime="t%d" relType="SIMULTANEOUS"/>'
        selves = (link % (one % size, one % size) for one in range(4 * size - made.count(b"<TLINK ")))
        return Case(made.removesuffix(b"</TimeML>") + b"".join(selves) + b"</TimeML>")

    return make


def at_most(size: int) -> Case:
    """Durations that last at most so long: each includes the next, with instances between them in a chain."""
    half = size // 2
    some = [f'type="DURATION" mod="EQUAL_OR_LESS" value="PT{10 * (half - one)}S"' for one in range(half)]
    links = chain("INCLUDES", range(half)) + chain("IBEFORE", range(half, 2 * half))
    links += [(half, "BEGINS", half - 1)]
    return net(links, half, some)


WITHOUT_LINKS: dict[str, Times] = {
    "months XX": months,
    "months XX, in no order": in_no_order(months),
    "years XX": years,
    "hours XX": hours,
    "mixed XX": mixed,
    "mixed XX and days": mixed_with_exact,
    "two years XX": two_years,
    "two years XX in turn": two_years_in_turn,
    "a year XX and the day after it": years_and_days,
    "days": exact_days,
    "one day": one_day,
}
WITH_RING: dict[str, Callable[[int], Case]] = {
    "months XX and a ring": and_ring(months, "BEFORE"),
    "months XX and a ring of a third": and_ring(months, "BEFORE", share=2 / 3),
    "months XX and a ring by IBEFORE, ENDED_BY": and_ring(months, "IBEFORE", "ENDED_BY"),
    "years XX and a ring": and_ring(years, "BEFORE"),
    "hours XX and a ring": and_ring(hours, "BEFORE"),
    "days and a ring": and_ring(exact_days, "BEFORE"),
    "days and a ring by IBEFORE, ENDED_BY": and_ring(exact_days, "IBEFORE", "ENDED_BY"),
    "20 months XX and a ring": some_and_ring(months, 20),
    "months XX, a ring tied to the first and the last": tied_ring(months),
    "hours XX, a ring tied to the first and the last": tied_ring(hours),
    "mixed XX, a ring tied to the first and the last": tied_ring(mixed),
    "days, a ring tied to the first and the last": tied_ring(exact_days),
    "months XX, many short rings": tied_by_pairs(months),
}
PLACED: dict[str, Callable[[int], Case]] = {
    "durations by IBEFORE": of_lengths("IBEFORE", onward),
    "durations by IBEFORE, backward": of_lengths("IBEFORE", back),
    "durations by IAFTER": of_lengths("IAFTER", onward),
    "durations by IAFTER, backward": of_lengths("IAFTER", back),
    "durations by IBEFORE, by turns": of_lengths("IBEFORE", by_turns),
    "durations by IBEFORE, in no order": of_lengths("IBEFORE", anyhow),
    "durations by BEFORE, backward": of_lengths("BEFORE", back),
    "durations in a ring": closed_lengths,
    "a long duration and short ones, by IBEFORE": capped("IBEFORE", onward),
    "a long duration and short ones, by IBEFORE, backward": capped("IBEFORE", back),
    "a long duration and short ones, by IAFTER": capped("IAFTER", onward),
    "a long duration and short ones, by IAFTER, backward": capped("IAFTER", back),
    "a long duration and short ones, links with themselves": with_selves(capped("IBEFORE", onward)),
    "a long duration and others that overlap, by turns": overlapping,
    "a long duration and others that overlap, links with themselves": with_selves(overlapping),
    "two chains of durations, a second apart": slow_cycle,
    "durations that include each other": at_most,
}

SHAPES = [Shape(name, alone(times), DATED, NETS) for name, times in WITHOUT_LINKS.items()]
SHAPES += [Shape(name, make, RINGED, NETS) for name, make in WITH_RING.items()]
SHAPES += [Shape(name, make, ("seconds", "confirm"), NETS) for name, make in PLACED.items()]
SHAPES += [
    Shape("a chain through mixed XX and days", within_days, NET_COMMANDS, NETS),
    Shape("months XX and a free pair", and_free_pair(months), ("possible", "ask"), NETS),
]
