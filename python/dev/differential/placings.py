"""Draws placings and cycles of constraints, for `confirm`: what `seconds` wrote, damaged, and such as no program wrote.

A damage needs not make them wrong: a cycle that begins at another of its lines is right. The reference says what each is.
"""

from __future__ import annotations

import re
from collections.abc import Callable, Sequence
from random import Random

from differential.chances import chance
from differential.evidence import AFTER, NUMBERS, change_bytes, change_lines

Pair = tuple[int, int]
AT = re.compile(rb"at (-?\d{1,19}) (-?\d{1,19})")
WORDS = (b"span", b"via", b"lower", b"upper", b"least", b"most")
KEYWORDS = (*WORDS, b"at", b"placing", b"cycle", b"end", b"tml-seconds", b"tml-evidence", b"calendar", b"timeline", b"SPAN", b"")
SIGNED = (
    b"-0", b"-00", b"-01", b"--1", b"- 1", b"-", b"9223372036854775807", b"9223372036854775808", b"-9223372036854775808",
    b"-9223372036854775809", b"09223372036854775807",
)  # fmt: skip
FAR = (2**63 - 1, -(2**63), 10**15, -(10**15))
HEAD = b"tml-seconds 1\n"


def text_of(word: bytes, lines: Sequence[bytes]) -> bytes:
    """The text of a placing or a cycle with these lines."""
    return HEAD + b"%s %d\n" % (word, len(lines)) + b"".join(line + b"\n" for line in lines) + b"end\n"


def placing_of(pairs: Sequence[Pair]) -> bytes:
    """The text of a placing."""
    return text_of(b"placing", [b"at %d %d" % pair for pair in pairs])


def draw_step(random: Random) -> bytes:
    """A line of a cycle: of few intervals, points and links, that may be there."""
    word = random.choice(WORDS)
    if word == b"via":
        return b"via %d %d" % (random.randrange(4), random.randrange(4))
    return b"%s %d" % (word, random.randrange(8))


def change_pairs(random: Random, pairs: list[Pair]) -> list[Pair]:
    """Seconds moved, exchanged or turned round; an interval left out or twice; one of them far away."""
    a, b = random.randrange(len(pairs)), random.randrange(len(pairs))
    kind = random.choice(("all", "start", "end", "both", "exchange", "turn", "drop", "copy", "far", "other"))
    by = random.choice((-86400, -1, -1, 1, 1, 3600))
    start, end = pairs[a]
    if kind == "all":
        return [(s + by, e + by) for s, e in pairs]
    if kind == "drop":
        return pairs[:a] + pairs[a + 1 :]
    if kind == "copy":
        return pairs[:b] + [pairs[a]] + pairs[b:]
    if kind == "exchange":
        pairs[a], pairs[b] = pairs[b], pairs[a]
    elif kind == "other":
        pairs[a] = pairs[b]
    else:
        far = random.choice(FAR)
        moved = {"start": (start + by, end), "end": (start, end + by), "both": (start + by, end + by), "turn": (end, start)}
        pairs[a] = moved.get(kind, (min(start, far), max(end, far)))
    return pairs


def change_steps(random: Random, steps: list[bytes]) -> list[bytes]:
    """The lines of a cycle rotated, turned round, exchanged, left out, twice or one more; or all of them twice."""
    kind = random.choice(("rotate", "rotate", "reverse", "exchange", "drop", "copy", "double", "more", "other"))
    a, b = random.randrange(len(steps) + 1), random.randrange(len(steps) + 1)
    if kind == "more" or not steps:
        return [*steps[:a], draw_step(random), *steps[a:]]
    if kind == "rotate":
        return steps[a:] + steps[:a]
    if kind == "reverse":
        return steps[::-1]
    if kind == "double":
        return steps * random.choice((2, 2, 3))
    one = steps.pop(min(a, len(steps) - 1))
    if kind == "copy":
        return [*steps[:b], one, one, *steps[b:]]
    if kind == "exchange":
        return [*steps[:b], one, *steps[b:]]
    return [*steps[:a], draw_step(random), *steps[a:]] if kind == "other" else steps


def change_parts(random: Random, text: bytes) -> bytes:
    """A placing or a cycle of another kind, whose number of lines is right."""
    lines = text.removesuffix(b"\n").split(b"\n")[2:-1]
    pairs = [(int(found[1]), int(found[2])) for found in map(AT.fullmatch, lines) if found]
    if lines and len(pairs) == len(lines):
        return placing_of(change_pairs(random, pairs))
    return text_of(b"cycle", change_steps(random, lines))


def change_spelling(random: Random, text: bytes) -> bytes:
    """A number in another's place, or another word."""
    if chance(random, 0.3):
        one = random.choice([*re.finditer(rb"[A-Z_a-z-]{2,}", text)] or (None,))
        return text if one is None else text[: one.start()] + random.choice(KEYWORDS) + text[one.end() :]
    one = random.choice([*re.finditer(rb"(?<= )-?[0-9]{1,20}(?=[ \n])", text)] or (None,))
    if one is None:
        return text
    near = b"%d" % (int(one[0]) + random.choice((-1, 1)))
    return text[: one.start()] + random.choice((near, near, b"-" + one[0], *SIGNED, *NUMBERS)) + text[one.end() :]


def draw_damaged(random: Random, text: bytes) -> bytes:
    """A placing or a cycle after one damage, or two."""
    damages: tuple[Callable[[Random, bytes], bytes], ...] = (change_lines, change_spelling, change_spelling, change_bytes)
    for _ in range(random.choice((1, 1, 2))):
        text = change_parts(random, text) if chance(random, 0.6) else random.choice(damages)(random, text)
    return text + random.choice(AFTER) if chance(random, 0.02) else text


def draw_invented(random: Random, intervals: int) -> bytes:
    """A placing of small seconds for about so many intervals, or a cycle of lines that are drawn."""
    if chance(random, 0.5):
        return text_of(b"cycle", [draw_step(random) for _ in range(random.randrange(5))])
    count = max(intervals + random.choice((0, 0, 0, -1, 1)), 0)
    starts = [random.randrange(-3, 4) for _ in range(count)]
    return placing_of([(start, start + random.choice((1, 1, 2, 60, 0, -1))) for start in starts])
