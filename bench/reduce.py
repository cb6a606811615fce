#!/usr/bin/env python3
"""Measures `tml reduce` and `tml score` beside bench/plain/plain.rs, which is written by hand.

Each document has a key with the same intervals and other links that hold with its own. Prints, for each document and command, the
least time of nine runs of `tml`, of the plain program and of `tml solve` of the document, how many links are kept of how
many, and how many times as long as the plain program `tml` took. Both programs have to print the same bytes; the columns of the plain
one stay empty where rustc is not in the PATH. Build `tml` first, as README.md says.

usage: bench/reduce.py [PROGRAM]       (PROGRAM is crates/tml/out/tml if left out)
"""

from __future__ import annotations

import itertools
import random
import shutil
import sys
import tempfile
from collections.abc import Callable, Sequence
from pathlib import Path

from by_hand import built
from matrix import printed
from measure import LIMIT, least, shown
from solve import document
from verify import INTERVALS, LINKS, relation

HERE = Path(__file__).resolve().parent
RUNS = 9
Links = list[tuple[int, str, int]]


def drawn(count: int, seed: int) -> tuple[Links, Links]:
    """Links that hold between intervals that are drawn, and others between the same."""
    draw = random.Random(seed)
    hidden = [(start, start + 1 + draw.randrange(300)) for start in (draw.randrange(20 * count) for _ in range(count))]

    def some() -> Links:
        links: Links = []
        while len(links) < LINKS:
            a, b = draw.randrange(count), draw.randrange(count)
            name = relation(hidden[a], hidden[b])
            if name:
                links.append((a, name, b))
        return links

    return some(), some()


def chain(name: str, order: Sequence[int]) -> Links:
    """Each interval and the next one, with the links in an order."""
    return [(one, name, one + 1) for one in order]


def shuffled(links: Links, seed: int) -> Links:
    """The links in no order."""
    return random.Random(seed).sample(links, len(links))


def some_of_many() -> tuple[Links, Links]:
    """512 intervals and 4,096 links."""
    return drawn(512, 21)


def many_of_many() -> tuple[Links, Links]:
    """1,024 intervals and 4,096 links."""
    return drawn(INTERVALS, 22)


def chain_in_order() -> tuple[Links, Links]:
    """Each interval before the next."""
    return chain("BEFORE", range(INTERVALS - 1)), [(b, "AFTER", a) for a, _, b in chain("", range(INTERVALS - 1))]


def chain_in_reverse() -> tuple[Links, Links]:
    """The same from the last link on."""
    links, key = chain_in_order()
    return links[::-1], key[::-1]


def chain_shuffled() -> tuple[Links, Links]:
    """The same in no order."""
    links, key = chain_in_order()
    return shuffled(links, 23), shuffled(key, 24)


def ring_of_simultaneous() -> tuple[Links, Links]:
    """A chain of intervals that are one, closed; and one the other way round."""
    links = chain("SIMULTANEOUS", range(INTERVALS - 1)) + [(INTERVALS - 1, "SIMULTANEOUS", 0)]
    return links, [(b, name, a) for a, name, b in links]


def ring_of_during() -> tuple[Links, Links]:
    """Intervals that are one since each is during the next, and the last during the first."""
    links = chain("DURING", range(INTERVALS - 1)) + [(INTERVALS - 1, "DURING", 0)]
    return shuffled(links, 25), chain("SIMULTANEOUS", range(INTERVALS - 1))


def all_simultaneous() -> tuple[Links, Links]:
    """As many links as there may be between intervals that are all one."""
    draw = random.Random(26)

    def some() -> Links:
        pairs = (draw.sample(range(INTERVALS), 2) for _ in range(LINKS))
        return [(a, "SIMULTANEOUS", b) for a, b in pairs]

    return some(), some()


def dense() -> tuple[Links, Links]:
    """Each two of 91 intervals, which follow each other; the key has each and the next."""
    return [(a, "BEFORE", b) for a, b in itertools.combinations(range(91), 2)], chain("BEFORE", range(90))


def dense_shuffled() -> tuple[Links, Links]:
    """The same in no order."""
    links, key = dense()
    return shuffled(links, 27), shuffled(key, 28)


def dense_overlaps() -> tuple[Links, Links]:
    """Each two of 91 intervals, each of which overlaps all later ones."""
    return [(a, "OVERLAPS", b) for a, b in itertools.combinations(range(91), 2)], dense()[0][::-1]


def in_layers(width: int, seed: int) -> Links:
    """Layers of so many intervals, each of which lies during some of the next, and those of the last during some of the first."""
    draw, layers = random.Random(seed), INTERVALS // width
    last = layers * width
    return [(one, "DURING", (one // width + 1) % layers * width + draw.randrange(width)) for one in range(last) for _ in range(4)]


def layers_of_32() -> tuple[Links, Links]:
    """Many links from layer to layer, in a ring; and so that all intervals are one."""
    return in_layers(32, 46), chain("SIMULTANEOUS", range(INTERVALS - 1))


def layers_of_3() -> tuple[Links, Links]:
    """The same of narrow layers, with the links in no order."""
    return shuffled(in_layers(3, 47), 48), chain("SIMULTANEOUS", range(INTERVALS - 1))


DOCUMENTS: Sequence[Callable[[], tuple[Links, Links]]] = (
    some_of_many,
    many_of_many,
    chain_in_order,
    chain_in_reverse,
    chain_shuffled,
    ring_of_simultaneous,
    ring_of_during,
    all_simultaneous,
    layers_of_32,
    layers_of_3,
    dense,
    dense_shuffled,
    dense_overlaps,
)


def written(links: Links, seed: int) -> bytes:
    """A document of these links, whose intervals stand in no order and have names of no order."""
    draw = random.Random(seed)
    count = 1 + max(max(a, b) for a, _, b in links)
    names = [f"i{number}_{one}" for one, number in enumerate(random.Random(29).sample(range(10**8), count))]
    tags = [f'<MAKEINSTANCE eiid="{name}" eventID="e"/>' for name in draw.sample(names, count)]
    ends = ((names[a], name, names[b]) for a, name, b in links)
    tags += [f'<TLINK eventInstanceID="{a}" relatedToEventInstance="{b}" relType="{name}"/>' for a, name, b in ends]
    return document("".join(tags))


def row(program: str, plain: str | None, words: list[str]) -> str:
    """The columns of a command."""
    text = printed([program, *words])
    if plain is not None and printed([plain, *words]) != text:
        sys.exit(f"{' '.join(words)}: the two programs do not print the same")
    tml, solve = least([program, *words], RUNS), least([program, "solve", words[1]], RUNS)
    by_hand = None if plain is None else least([plain, *words], RUNS)
    ratio = None if by_hand is None or tml is None else tml / by_hand
    said = " ".join(text.decode().splitlines()[0].split()[1:])
    hand = "" if plain is None else milliseconds(by_hand)
    return f"{milliseconds(tml):>9} {hand:>9} {milliseconds(solve):>9} {shown(ratio, '.2f'):>6}  {said}"


def milliseconds(seconds: float | None) -> str:
    """The time of a run, or that it took longer than runs may."""
    return f">{LIMIT * 1e3:.0f}" if seconds is None else f"{seconds * 1e3:.2f}"


def main() -> None:
    """Measures and prints the table."""
    program = sys.argv[1] if len(sys.argv) > 1 else str(HERE.parent / "crates" / "tml" / "out" / "tml")
    print(f"{'document':20} {'command':7} {'tml ms':>9} {'plain ms':>9} {'solve ms':>9} {'ratio':>6}  links")
    with tempfile.TemporaryDirectory() as folder:
        plain = built(Path(folder)) if shutil.which("rustc") else None
        path, key = Path(folder) / "document", Path(folder) / "key"
        for make in DOCUMENTS:
            for place, links, seed in zip((path, key), make(), (30, 31), strict=True):
                place.write_bytes(written(links, seed))
            for words in (["reduce", str(path)], ["score", str(path), str(key)]):
                print(f"{make.__name__:20} {words[0]:7} {row(program, plain, words)}", flush=True)


if __name__ == "__main__":
    main()
