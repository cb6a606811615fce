"""Slips of one key in clean documents, and what `tml-corpus fix` makes of them.

`python3 python/tests/keystrokes.py 10000 7` makes so many slips with the seed 7, half of them in documents of `strange.py`, and prints what
came of them in each style, and every damage. With `--two` each document has two slips in different tags, with `--wide` two characters are
wrong at one place. The slips know the keyboard, and nothing of the package that undoes them.
"""

from __future__ import annotations

import re
import sys
import time
from collections import Counter, defaultdict
from collections.abc import Iterator
from dataclasses import dataclass, field
from random import Random

from corpus import by_library
from strange import strange
from tml.tags.edits import applied
from tml_corpus.asking.program import Program
from tml_corpus.check.fix import Fixed, mended
from written import STYLES

KEYS = ("`1234567890-=", "qwertyuiop[]\\", "asdfghjkl;'", "zxcvbnm,./")
SHIFTED = ("~!@#$%^&*()_+", "QWERTYUIOP{}|", 'ASDFGHJKL:"', "ZXCVBNM<>?")
OTHER_SHIFT = dict(zip("".join((*KEYS, *SHIFTED)), "".join((*SHIFTED, *KEYS)), strict=True))
NEAR = {one: row[max(place - 1, 0) : place] + row[place + 1 : place + 2] for row in (*KEYS, *SHIFTED) for place, one in enumerate(row)}
MARKUP = re.compile(r"</?[A-Za-z](?:[^<>\"']|\"[^\"]*\"|'[^']*')*>")
PIECE = re.compile(r"<!--.*?-->|</?[A-Za-z](?:[^<>\"']|\"[^\"]*\"|'[^']*')*>|<[?!][^<>]*>|<?[^<]+|<", re.DOTALL)
PAIR = re.compile(r"([^\s=<>\"'/]+)\s*=\s*(\"[^\"]*\"|'[^']*')")
AROUND = 2
"""How far from a tag a slip may be."""

OUTCOMES = ("accepted", "restored", "question with the original", "question without it", "no candidate", "other", "damage")


def slipped(random: Random, text: str, low: int, high: int) -> str | None:
    """The text with one slip of a key in a stretch of it; None if this slip changes nothing there."""
    place = random.randrange(max(low, 0), min(high, len(text) - 1))
    meant, kind = text[place], random.randrange(5)
    if kind == 0:
        typed = ""
    elif kind == 1:
        typed = random.choice((meant * 2, meant + random.choice(NEAR.get(meant, " ")), random.choice(NEAR.get(meant, " ")) + meant))
    elif kind == 2:
        typed = random.choice(NEAR.get(meant, meant))
    elif kind == 3:
        typed = OTHER_SHIFT.get(meant, meant)
    else:
        return text[:place] + text[place + 1] + meant + text[place + 2 :] if text[place + 1] != meant else None
    return text[:place] + typed + text[place + 1 :] if typed != meant else None


def one_slip(random: Random, text: str) -> str:
    """The text with a slip in a tag or next to it."""
    tags = [found.span() for found in MARKUP.finditer(text)]
    while True:
        start, end = random.choice(tags)
        changed = slipped(random, text, start - AROUND, end + AROUND)
        if changed is not None:
            return changed


def two_slips(random: Random, text: str) -> list[str]:
    """The text with a slip in each of two tags, and with each of them alone."""
    tags = [found.span() for found in MARKUP.finditer(text)]
    while True:
        first, second = sorted(random.sample(tags, 2))
        middle = max(first[1], second[0] - AROUND)
        later = slipped(random, text, second[0] - min(AROUND, second[0] - middle), second[1] + AROUND)
        earlier = slipped(random, text[:middle], first[0] - AROUND, min(first[1] + AROUND, middle))
        if earlier is not None and later is not None and first[1] + AROUND < second[0]:
            return [earlier + later[middle:], earlier + text[middle:], later]


def wide_slip(random: Random, text: str) -> list[str]:
    """The text with two characters wrong at one place, and with the first of them alone."""
    while True:
        once = one_slip(random, text)
        place = next(place for place, pair in enumerate(zip(text + "\0", once + "\0", strict=False)) if pair[0] != pair[1])
        twice = slipped(random, once, place - 1, place + 3)
        if twice is not None and twice != text:
            return [twice, once]


def said(text: str) -> list[object]:
    """The tags with their attributes in any order, the comments, and the text with its white space."""
    found: list[object] = []
    for piece in PIECE.findall(text):
        if MARKUP.fullmatch(piece):
            end = ("/" if piece.endswith("/>") else "") + ("</" if piece.startswith("</") else "")
            name = re.match(r"</?([^\s<>/]*)", piece)
            found.append((name[1] if name else "", end, sorted((one, value[1:-1]) for one, value in PAIR.findall(piece))))
        elif found and isinstance(found[-1], str) and not piece.startswith("<"):
            found[-1] += piece
        else:
            found.append(piece)
    return found


def outcome(fixed: Fixed, meant: list[list[object]]) -> str:
    """What came of a slip: `meant` is what the original says, and what each document says that has one slip fewer."""
    after = fixed.after.decode("utf-8")
    if not fixed.changes and fixed.left is None:
        return "accepted"
    if fixed.left is None:
        return "restored" if said(after) in meant else "damage"
    if fixed.changes and said(after) not in meant:
        return "other"
    if not fixed.candidates:
        return "no candidate"
    shown = [said(applied(fixed.after, [edit]).decode("utf-8")) for edit in fixed.candidates]
    return "question with the original" if any(one in meant for one in shown) else "question without it"


@dataclass
class Tally:
    """What came of some slips in each style: how often each outcome, the times, and what is worth a look."""

    counts: defaultdict[str, Counter[str]] = field(default_factory=lambda: defaultdict(Counter))
    seconds: list[float] = field(default_factory=list)
    notable: list[str] = field(default_factory=list)

    def all(self) -> Counter[str]:
        """The outcomes in all styles."""
        return sum(self.counts.values(), Counter[str]())


def share(counts: Counter[str], *parts: str, of: tuple[str, ...] = OUTCOMES[1:]) -> float:
    """What part of some outcomes certain ones are, by default of the documents that `tml` does not accept."""
    whole = sum(counts[one] for one in of)
    return sum(counts[one] for one in parts) / whole if whole else 1.0


def slips(program: Program, random: Random, text: str, how: str) -> list[str]:
    """The text with its slips, followed by the texts with one slip fewer; of two slips each alone is a fault."""
    if how == "--two":
        found = two_slips(random, text)
        return found if all(program.check(one.encode()).status for one in found[1:]) else slips(program, random, text, how)
    return wide_slip(random, text) if how == "--wide" else [one_slip(random, text)]


def cases(program: Program, count: int, seed: int, how: str) -> Iterator[tuple[str, str, list[str]]]:
    """So many slips: the style, the original, and the document with its slips, followed by those with one slip fewer."""
    styles = [style for one in STYLES.items() for style in (one, ("strange", strange))]
    for number in range(count):
        random = Random(f"{seed} {number}")
        style, write = styles[number % len(styles)]
        text = write(random)
        yield style, text, slips(program, random, text, how)


def tally(program: Program, count: int, seed: int, how: str = "") -> Tally:
    """What comes of so many slips."""
    found = Tally()
    for style, text, (faulty, *fewer) in cases(program, count, seed, how):
        begun = time.process_time()
        fixed = mended(program, faulty.encode())
        found.seconds.append(time.process_time() - begun)
        name = outcome(fixed, [said(text), *map(said, fewer)])
        found.counts[style][name] += 1
        if name not in OUTCOMES[:3]:
            found.notable.append(f"{name} ({style}): {near(text, faulty)}, then {near(faulty, fixed.after.decode())}: {fixed.changes}")
    return found


def near(one: str, other: str) -> str:
    """The first place where two texts differ, and what is around."""
    if one == other:
        return "nothing changed"
    low = next(place for place, pair in enumerate(zip(one + "\0", other + "\1", strict=False)) if pair[0] != pair[1])
    return f"{one[max(low - 20, 0) : low + 20]!r} -> {other[max(low - 20, 0) : low + 20]!r}"


def row(name: str, counts: Counter[str]) -> str:
    """A line of the table."""
    restored = share(counts, "restored")
    return f"{name:10}" + "".join(f"{counts[one]:>28}" for one in OUTCOMES) + f"{restored:12.1%}"


def main(count: int, seed: int, how: str = "") -> int:
    """Prints what came of so many slips."""
    found = tally(by_library(), count, seed, how)
    print(f"{'':10}" + "".join(f"{one:>28}" for one in OUTCOMES) + f"{'restored':>12}")
    print(*(row(style, counts) for style, counts in found.counts.items()), row("all", found.all()), sep="\n")
    seconds = sorted(found.seconds)
    print(f"processor time: median {seconds[len(seconds) // 2]:.3f} s, at most {seconds[-1]:.3f} s")
    print(*sorted(found.notable), sep="\n")
    return 1 if found.all()["damage"] else 0


if __name__ == "__main__":
    numbers = [int(one) for one in sys.argv[1:] if not one.startswith("--")]
    options = [one for one in sys.argv[1:] if one.startswith("--")]
    sys.exit(main(numbers[0], numbers[1] if numbers[1:] else 1, options[0] if options else ""))
