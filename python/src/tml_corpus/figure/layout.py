"""Where places, labels and bars go in a picture of a given width: places evenly, but for dates, whose names need room."""

from __future__ import annotations

from collections.abc import Callable, Sequence

Stretch = tuple[float, float]
Needs = dict[int, list[tuple[int, float]]]
"""Of each place from which earlier ones on so much room is needed."""


def spread(needs: Sequence[tuple[int, int, float]], count: int, width: float) -> list[float]:
    """The positions of so many places in a width. Between some two of them so much room is needed, of which each gets the same share."""
    if count < 2:
        return [0.0] * count
    even = width / (count - 1)
    by_end: Needs = {}
    for start, end, need in needs:
        by_end.setdefault(end, []).append((start, need))
    share = greatest(0.0, 1.0, lambda share: spaced(by_end, count, even / 2, share)[-1] <= width)
    # What room is left widens the narrowest stretches first.
    gap = greatest(even / 2, even, lambda gap: spaced(by_end, count, gap, share)[-1] <= width)
    found = spaced(by_end, count, gap, share)
    return [place * width / found[-1] for place in found]


def greatest(low: float, high: float, is_so: Callable[[float], bool]) -> float:
    """About the greatest of the numbers between two of which something is so. It is so of the least one, and of all up to some number."""
    if is_so(high):
        return high
    for _ in range(16):
        middle = (low + high) / 2
        low, high = (middle, high) if is_so(middle) else (low, middle)
    return low


def spaced(needs: Needs, count: int, gap: float, share: float) -> list[float]:
    """The positions as far left as possible, with a gap between each two."""
    places = [0.0]
    for number in range(1, count):
        wanted = [(places[start] + need * share, start) for start, need in needs.get(number, ())]
        nearest = places[-1] + gap
        # A stretch that needs more room gets it at all its places alike.
        for position, first in wanted:
            step = (position - places[first]) / (number - first)
            for inner in range(first + 1, number if position > nearest else 0):
                places[inner] = max(places[inner], places[first] + step * (inner - first))
        places.append(max([nearest, *(position for position, _ in wanted)]))
    return places


def packed(extents: Sequence[Stretch], below: Sequence[Sequence[int]] = ()) -> list[int]:
    """The lane of each of some stretches, so that none overlap in a lane, and each is below some of those before it."""
    taken: list[list[Stretch]] = []
    lanes: list[int] = []
    for number, (begin, end) in enumerate(extents):
        first = max((lanes[other] + 1 for other in (below[number] if below else ())), default=0)
        free = (
            lane for lane in range(first, len(taken)) if all(end <= left + 0.01 or begin >= right - 0.01 for left, right in taken[lane])
        )
        lanes.append(next(free, max(first, len(taken))))
        taken += [[] for _ in range(lanes[-1] + 1 - len(taken))]
        taken[lanes[-1]].append((begin, end))
    return lanes
