#!/usr/bin/env python3
"""Measures `tml seconds` and `tml confirm` beside bench/plain/plain.rs, which is written by hand.

Prints, for each document, the least time of nine runs of `tml seconds`, of `tml confirm` of what that printed, of `tml check` and,
where the document has no dates and no lengths, of the plain program, how many times as long as that `tml seconds` took, and
what it found. Both programs have to print what `confirm` confirms; the column of the plain one stays empty where rustc is not in
the PATH. Build `tml` first, as README.md says.

usage: bench/seconds.py [PROGRAM]       (PROGRAM is crates/tml/out/tml if left out)
"""

from __future__ import annotations

import random
import shutil
import subprocess
import sys
import tempfile
from collections.abc import Callable, Sequence
from pathlib import Path

from by_hand import built
from measure import least, shown
from reduce import (
    Links,
    all_simultaneous,
    chain,
    chain_in_order,
    chain_in_reverse,
    chain_shuffled,
    layers_of_32,
    many_of_many,
    milliseconds,
    shuffled,
    some_of_many,
)
from solve import document
from verify import INTERVALS

HERE = Path(__file__).resolve().parent
RUNS = 9


def ring() -> Links:
    """A chain of intervals, closed: the first is after the last too."""
    return chain("BEFORE", range(INTERVALS - 1)) + [(INTERVALS - 1, "BEFORE", 0)]


def wide_ring() -> Links:
    """A ring with links that go on by two, five and nine."""
    links = [(one, "BEFORE", (one + step) % INTERVALS) for step in (1, 2, 5, 9) for one in range(INTERVALS)]
    return shuffled(links, 42)


def days(count: int) -> list[str]:
    """Days, one after another."""
    return [f'type="DATE" value="{1990 + one // 336}-{one // 28 % 12 + 1:02}-{one % 28 + 1:02}"' for one in range(count)]


def lengths(count: int) -> list[str]:
    """Durations of one to thirty days."""
    return [f'type="DURATION" value="P{one % 30 + 1}D"' for one in range(count)]


def all_dates() -> tuple[Links, list[str]]:
    """Dates alone."""
    return [], days(INTERVALS)


def events_in_dates() -> tuple[Links, list[str]]:
    """Each of 512 events lies within one of 512 days."""
    draw = random.Random(43)
    return [(512 + one, "IS_INCLUDED", draw.randrange(512)) for one in range(512)], days(512)


def chain_of_lengths() -> tuple[Links, list[str]]:
    """Durations, each of which meets the next."""
    return chain("IBEFORE", range(INTERVALS - 1)), lengths(INTERVALS)


def lengths_in_no_order() -> tuple[Links, list[str]]:
    """The same in no order."""
    place = random.Random(44).sample(range(INTERVALS), INTERVALS)
    return [(place[one], "IBEFORE", place[one + 1]) for one in range(INTERVALS - 1)], lengths(INTERVALS)


def ring_of_lengths() -> tuple[Links, list[str]]:
    """Durations, each of which meets the next, and the last the first."""
    return chain("IBEFORE", range(INTERVALS - 1)) + [(INTERVALS - 1, "IBEFORE", 0)], lengths(INTERVALS)


def too_short() -> tuple[Links, list[str]]:
    """Durations, each of which lies within the next; but some of these are shorter."""
    return chain("IS_INCLUDED", range(INTERVALS - 1)), lengths(INTERVALS)


def no_time_at_all() -> tuple[Links, list[str]]:
    """Intervals that are all one, one of which lasts no second."""
    return all_simultaneous()[0], ['type="DURATION" value="P0D"']


Timed = tuple[Links, list[str]]
LINKED: Sequence[Callable[[], Links | tuple[Links, Links]]] = (
    some_of_many,
    many_of_many,
    chain_in_order,
    chain_in_reverse,
    chain_shuffled,
    all_simultaneous,
    layers_of_32,
    ring,
    wide_ring,
)
TIMED: Sequence[Callable[[], Timed]] = (
    all_dates,
    events_in_dates,
    chain_of_lengths,
    lengths_in_no_order,
    ring_of_lengths,
    too_short,
    no_time_at_all,
)


def written(links: Links, times: list[str], seed: int) -> bytes:
    """A document of these links, whose first intervals are times, and whose names have no order."""
    count = max([len(times), *(1 + max(a, b) for a, _, b in links)])
    names = [f"i{number}_{one}" for one, number in enumerate(random.Random(seed).sample(range(10**8), count))]
    tags = [f'<TIMEX3 tid="{name}" {values}/>' for name, values in zip(names, times)]
    tags += [f'<MAKEINSTANCE eiid="{name}" eventID="e"/>' for name in names[len(times) :]]

    def end(one: int, time: str, instance: str) -> str:
        return f'{time if one < len(times) else instance}="{names[one]}"'

    tags += [
        f'<TLINK {end(a, "timeID", "eventInstanceID")} {end(b, "relatedToTime", "relatedToEventInstance")} relType="{name}"/>'
        for a, name, b in links
    ]
    return document("".join(tags))


def printed_by(words: list[str]) -> bytes:
    """What a program prints, whatever its status."""
    return subprocess.run(words, stdout=subprocess.PIPE, stdin=subprocess.DEVNULL, check=False).stdout


def confirmed(program: str, path: Path, text: bytes, kept: Path) -> None:
    """Stops where a text is not confirmed of a document."""
    kept.write_bytes(text)
    said = printed_by([program, "confirm", str(path), str(kept)])
    if not said.startswith(b"confirmed"):
        sys.exit(f"{path}: not confirmed: {said.decode(errors='replace')}")


def row(program: str, plain: str | None, path: Path, kept: Path) -> str:
    """The columns of a document."""
    by_hand = None
    if plain is not None:
        text = printed_by([plain, "seconds", str(path)])
        if text.startswith(b"tml-seconds"):
            confirmed(program, path, text, kept)
            by_hand = least([plain, "seconds", str(path)], RUNS)
    text = printed_by([program, "seconds", str(path)])
    confirmed(program, path, text, kept)
    times = [least([program, *words], RUNS) for words in (["seconds", str(path)], ["confirm", str(path), str(kept)], ["check", str(path)])]
    ratio = None if by_hand is None or times[0] is None else times[0] / by_hand
    hand = "" if by_hand is None else milliseconds(by_hand)
    columns = " ".join(f"{milliseconds(time):>10}" for time in times)
    return f"{columns} {hand:>9} {shown(ratio, '.2f'):>6}  {text.decode().splitlines()[1]}"


def main() -> None:
    """Measures and prints the table."""
    program = sys.argv[1] if len(sys.argv) > 1 else str(HERE.parent / "crates" / "tml" / "out" / "tml")
    print(f"{'document':20} {'seconds ms':>10} {'confirm ms':>10} {'check ms':>10} {'plain ms':>9} {'ratio':>6}  found")
    with tempfile.TemporaryDirectory() as folder:
        plain = built(Path(folder)) if shutil.which("rustc") else None
        path, kept = Path(folder) / "document", Path(folder) / "seconds"
        for make in (*LINKED, *TIMED):
            made = make()
            links, times = made if make in TIMED else (made[0] if isinstance(made, tuple) else made, [])
            path.write_bytes(written(links, times, 45))
            print(f"{make.__name__:20} {row(program, plain if make in LINKED else None, path, kept)}", flush=True)


if __name__ == "__main__":
    main()
