"""Damages evidence: what `solve` and `ask` wrote, in its lines, its numbers, its bytes and its parts.

A damage needs not make evidence wrong: a closed walk that begins at another of its points is right. The reference says what each is.
"""

from __future__ import annotations

import re
from collections.abc import Callable, Sequence
from random import Random

from differential.chances import chance
from tml.statuses import ORDERS, RELATIONS

COUNTED = {b"timeline": (b"at",), b"walk": (b"via", b"span", b"calendar"), b"clash": (b"cite",)}
NUMBERS = (
    b"4294967295", b"4294967294", b"4294967296", b"18446744073709551616", b"18446744073709551615", b"00", b"", b"-1", b"+1", b"1e1",
    b"\xd9\xa1", b"9" * 100,
)  # fmt: skip
AFTER = (
    b"\n", b" ", b"\0", b"end\n", b"x", b"end", b"tml-evidence 1\n", b"tml-evidence 2\n", b"claims 1\n", b"timeline 0\n", b"\r\n",
)  # fmt: skip
BETWEEN = (b"end\n", b"\n", b"claims 1\n", b"tml-evidence 2\n", b"tml-evidence 1\n", b"end\ntml-evidence 1\n")
KEYWORDS = (
    b"at", b"via", b"span", b"calendar", b"cite", b"walk", b"timeline", b"clash", b"entails", b"counter", b"end", b"END", b"tml-evidence",
    b"claims", b"",
)  # fmt: skip
Lines = list[bytes]
AT = re.compile(rb"at (\d{1,12}) (\d{1,12})")
GREATEST = (1 << 32) - 1
PARTS = 4
"""How many blocks the shortest text of version 2 has: its first two lines, a part, and the last line."""
WHOLE = re.compile(rb"tml-evidence (?:1|2\nclaims ([0-9]{1,9}))\n(.*)end\n", re.DOTALL)
"""A text of evidence: the number of its claims, where that is written, and their bodies."""


class Block:
    """A line that says how many lines come after it, with these lines; or another line alone."""

    def __init__(self, head: bytes) -> None:
        self.head = head
        self.items: Lines = []

    def is_a(self, word: bytes) -> bool:
        """Whether its first line begins with a word."""
        return self.head.split(b" ")[0] == word

    def lines(self) -> Lines:
        """Its lines, the count in the first one as it is to be."""
        word = self.head.split(b" ")[0]
        return [b"%s %d" % (word, len(self.items)) if word in COUNTED else self.head, *self.items]


def blocks_of(text: bytes) -> list[Block]:
    """The blocks of a text of evidence."""
    blocks: list[Block] = []
    for line in text.removesuffix(b"\n").split(b"\n"):
        word = line.split(b" ")[0]
        if blocks and word in COUNTED.get(blocks[-1].head.split(b" ")[0], ()):
            blocks[-1].items.append(line)
        else:
            blocks.append(Block(line))
    return blocks


def text_of(blocks: Sequence[Block]) -> bytes:
    """The text of blocks, with counts that are right."""
    return b"".join(line + b"\n" for block in blocks for line in block.lines())


# Damages of lines and bytes: counts stay as they were.


def change_lines(random: Random, text: bytes) -> bytes:
    """A line left out, twice, in the place of another, or moved."""
    lines = text.split(b"\n")
    a, b = random.randrange(len(lines)), random.randrange(len(lines))
    kind = random.choice(("drop", "double", "exchange", "move"))
    if kind == "drop":
        del lines[a]
    elif kind == "double":
        lines.insert(b if chance(random, 0.3) else a, lines[a])
    elif kind == "exchange":
        lines[a], lines[b] = lines[b], lines[a]
    else:
        lines.insert(b, lines.pop(a))
    return b"\n".join(lines)


def other_number(random: Random, number: bytes) -> bytes:
    """Another spelling of a number, or another number."""
    kind = random.choice(("odd", "sign", "small", "near", "near", "near"))
    if kind == "odd":
        return random.choice(NUMBERS)
    if kind == "sign":
        return random.choice((b"0", b"+", b"-", b" ", b"0x")) + number
    if kind == "small":
        return b"%d" % random.randrange(12)
    return b"%d" % max(int(number) + random.choice((-2, -1, -1, 1, 1, 2)), 0)


def change_number(random: Random, text: bytes) -> bytes:
    """A number in another's place."""
    found = list(re.finditer(rb"(?<= )[0-9]{1,20}(?=[ \n])", text))
    if not found:
        return text
    one = random.choice(found)
    return text[: one.start()] + other_number(random, one[0]) + text[one.end() :]


def change_word(random: Random, text: bytes) -> bytes:
    """A keyword or a relation in another's place."""
    found = list(re.finditer(rb"[A-Z_a-z-]+", text))
    if not found:
        return text
    one = random.choice(found)
    relations = [relation.encode() for relation in RELATIONS]
    words = [*relations, b"before", b"OVERLAP", b""] if one[0] in relations else [*KEYWORDS, one[0].upper(), one[0][:-1]]
    return text[: one.start()] + random.choice(words) + text[one.end() :]


def change_bytes(random: Random, text: bytes) -> bytes:
    """White space, NUL, carriage returns and bytes after the end; or the end cut off."""
    kind = random.choice(("after", "no end", "returns", "cut", "white", "byte", "before"))
    if kind == "after":
        return text + random.choice(AFTER)
    if kind == "no end":
        return text.removesuffix(b"\n")
    if kind == "returns":
        return text.replace(b"\n", b"\r\n") if chance(random, 0.3) else text.replace(b"\n", b"\r\n", 1)
    at = random.randrange(len(text) + 1)
    if kind == "cut":
        return text[:at]
    if kind == "white":
        at = random.choice([found.start() for found in re.finditer(rb"[ \n]", text)] or [0])
        return text[:at] + random.choice((b" ", b"\r", b"\t", b"\0", b"\xc2\xa0", b"\n")) + text[at:]
    if kind == "byte":
        return text[:at] + bytes([random.randrange(256)]) + text[at + 1 :]
    return random.choice((b"\xef\xbb\xbf", b" ", b"\n", b"")) + text[at if chance(random, 0.1) else 0 :]


# Damages of parts: the counts are made right again, so that the evidence is mostly well formed and may be refused.


def change_walk(random: Random, block: Block) -> None:
    """Steps turned round, rotated, exchanged, left out, twice, or one step more."""
    items = block.items
    kind = random.choice(("turn", "rotate", "exchange", "drop", "copy", "double", "more"))
    if not items or kind == "more":
        step = random.choice((b"via %d %d", b"calendar %d %d")) % (random.randrange(6), random.randrange(6))
        items.insert(random.randrange(len(items) + 1), step if chance(random, 0.7) else b"span %d" % random.randrange(5))
        return
    a, b = random.randrange(len(items)), random.randrange(len(items))
    if kind == "turn":
        items.reverse()
    elif kind == "rotate":
        block.items = items[a:] + items[:a]
    elif kind == "exchange":
        items[a], items[b] = items[b], items[a]
    elif kind == "drop":
        del items[a]
    elif kind == "copy":
        items.insert(b, items[a])
    else:
        block.items = items[: a + 1] * 2 + items[a + 1 :] if chance(random, 0.5) else items * 2


def change_timeline(random: Random, block: Block) -> None:
    """Ranks moved, stretched or exchanged, an interval left out or twice."""
    items = block.items
    pairs = [(int(found[1]), int(found[2])) for found in map(AT.fullmatch, items) if found]
    if not items or len(pairs) < len(items):
        items.append(b"at 0 1")
        return
    a, b = random.randrange(len(items)), random.randrange(len(items))
    kind = random.choice(("later", "longer", "exchange", "turn", "drop", "copy", "other"))
    if kind == "later":
        pairs = [(s + 1, e + 1) for s, e in pairs]
    elif kind == "longer":
        pairs = [(s * 3 + 1, e * 3 + 1) for s, e in pairs]
    elif kind == "exchange":
        pairs[a], pairs[b] = pairs[b], pairs[a]
    elif kind == "turn":
        pairs[a] = (pairs[a][1], pairs[a][0])
    elif kind == "drop":
        del pairs[a]
    elif kind == "copy":
        pairs.insert(b, pairs[a])
    else:
        pairs[a] = (random.choice(random.choice(pairs)), random.choice(random.choice(pairs)))
    block.items = [b"at %d %d" % (s, e) for s, e in pairs]


def with_greatest(random: Random, numbers: list[int]) -> list[int]:
    """Cites of which the last ones are the greatest that there may be, or each one more or less; or only one of them is."""
    last = len(numbers) - 1
    at, shift = random.randrange(len(numbers)), random.choice((-1, 0, 0, 1, 1))
    end = last if chance(random, 0.5) else at
    return [GREATEST - (last - place) + shift if at <= place <= end else number for place, number in enumerate(numbers)]


def change_cites(random: Random, blocks: list[Block], cited: Block) -> None:
    """A cite more or less, mostly with its spare."""
    items = cited.items
    numbers = [int(item[5:]) for item in items if re.fullmatch(rb"cite \d{1,9}", item)]
    spares = [place for place, block in enumerate(blocks) if block.is_a(b"timeline")]
    if len(numbers) < len(items):
        return
    if numbers and chance(random, 0.2):
        cited.items = [b"cite %d" % number for number in with_greatest(random, numbers)]
        return
    with_spare = chance(random, 0.8) and len(spares) == len(items)
    if numbers and chance(random, 0.5):
        gone = random.randrange(len(numbers))
        del numbers[gone]
        if with_spare:
            del blocks[spares[gone]]
    else:
        more = random.randrange(8)
        place = len([number for number in numbers if number < more])
        numbers.insert(place, more)
        if with_spare and spares:
            block = Block(b"timeline")
            block.items = list(blocks[random.choice(spares)].items)
            blocks.insert(spares[place] if place < len(spares) else spares[-1] + 1, block)
    cited.items = [b"cite %d" % number for number in numbers]


def change_head(random: Random, blocks: list[Block]) -> None:
    """Another relation, other intervals, or the other claim of a relation."""
    for block in blocks:
        if block.is_a(b"entails") or block.is_a(b"counter"):
            word, a, relation, b = [*block.head.split(b" "), b"", b"", b""][:4]
            kind = random.choice(("relation", "turn", "left", "right", "claim"))
            if kind == "relation":
                relation = random.choice(RELATIONS).encode()
            elif kind == "turn":
                a, b = b, a
            elif kind == "left":
                a = b"%d" % random.randrange(9)
            elif kind == "right":
                b = b"%d" % random.randrange(9)
            else:
                word = b"entails" if word == b"counter" else b"counter"
            block.head = b" ".join((word, a, relation, b))


def change_parts(random: Random, text: bytes, others: Sequence[bytes]) -> bytes:
    """One part changed, exchanged with another, or taken from another text of evidence."""
    blocks = blocks_of(text)
    at = random.randrange(len(blocks))
    block = blocks[at]
    kind = random.choice(("foreign", "exchange", "head", "drop", "inner", "inner", "inner", "inner", "inner", "inner"))
    if kind == "foreign" and others:
        foreign = [one for one in blocks_of(random.choice(others)) if one.head.split(b" ")[0] == block.head.split(b" ")[0]]
        blocks[at] = random.choice(foreign) if foreign else block
    elif kind == "exchange":
        b = random.randrange(len(blocks))
        blocks[at], blocks[b] = blocks[b], blocks[at]
    elif kind == "head":
        change_head(random, blocks)
    elif kind == "drop" and len(blocks) > PARTS:
        if chance(random, 0.5):
            del blocks[at]
        else:
            blocks.insert(at, block)
    elif block.is_a(b"walk"):
        change_walk(random, block)
    elif block.is_a(b"timeline"):
        change_timeline(random, block)
    elif block.is_a(b"clash"):
        for _ in range(random.choice((1, 1, 2, 3))):
            change_cites(random, blocks, block)
    else:
        return change_number(random, text)
    return text_of(blocks)


def draw_damaged(random: Random, text: bytes, others: Sequence[bytes]) -> bytes:
    """A text of evidence after one damage, or two, or three; `others` are further texts of evidence."""
    damages: tuple[Callable[[Random, bytes], bytes], ...] = (change_lines, change_number, change_number, change_word, change_bytes)
    for _ in range(random.choice((1, 1, 1, 2, 2, 3))):
        if chance(random, 0.7):
            text = change_parts(random, text, others)
        elif chance(random, 0.03) and others:
            other = random.choice(others)
            text = text[: random.randrange(len(text) + 1)] + other[random.randrange(len(other) + 1) :]
        else:
            text = random.choice(damages)(random, text)
    return text


# Several claims.


def text_of_bodies(bodies: Sequence[bytes], count: int | None = None, older: bool = False) -> bytes:
    """The text of some bodies: of version 1 or 2, and of the latter perhaps with another number of claims."""
    number = len(bodies) if count is None else count
    head = b"tml-evidence 1\n" if older else b"tml-evidence 2\nclaims %d\n" % number
    return head + b"".join(bodies) + b"end\n"


def older_text(text: bytes) -> bytes:
    """The text of version 1, where there is one claim."""
    found = WHOLE.fullmatch(text)
    return text_of_bodies([found[2]], older=True) if found and found[1] in (None, b"1") else text


def joined(texts: Sequence[bytes]) -> bytes:
    """The text of the claims of all that are texts of evidence, at least by their first lines and the last one."""
    found = [one for one in map(WHOLE.fullmatch, texts) if one]
    return text_of_bodies([one[2] for one in found], sum(int(one[1] or 1) for one in found))


def change_claims(random: Random, texts: Sequence[bytes]) -> bytes:
    """Texts joined with a damage: a wrong number of claims, lines between bodies, or a body that is cut, left out or twice."""
    bodies = [found[2] for found in map(WHOLE.fullmatch, texts) if found]
    right, at = len(bodies), random.randrange(len(bodies) + 1)
    kind = random.choice(("none", "number", "number", "line", "cut", "drop", "double", "older"))
    if kind == "none":
        return text_of_bodies([], 0)
    if kind == "number":
        return text_of_bodies(bodies, random.choice((0, max(right - 1, 0), right + 1, right + 1, GREATEST, GREATEST + 1)))
    if kind == "line":
        bodies.insert(at, random.choice(BETWEEN))
    elif kind == "cut" and at < right:
        lines = bodies[at].splitlines(keepends=True)
        bodies[at] = b"".join(lines[: random.randrange(len(lines) + 1)])
    elif kind == "drop" and at < right:
        del bodies[at]
    elif kind == "double" and at < right:
        bodies.insert(at, bodies[at])
    return text_of_bodies(bodies, right, older=kind == "older")


def draw_claims(random: Random, texts: Sequence[bytes]) -> bytes:
    """Several claims of some texts of evidence, perhaps the same one again, sometimes damaged."""
    chosen = [random.choice(texts) for _ in range(random.choice((1, 2, 2, 3, 5)))]
    if chance(random, 0.3):
        return change_claims(random, chosen)
    return joined(chosen)


def draw_invented(random: Random, intervals: int) -> bytes:
    """Evidence that no program wrote: few ranks for so many intervals, or steps that are drawn."""
    count = max(intervals + random.choice((0, 0, 0, 0, -1, 1)), 0)
    most = random.choice((2, 4, 10))
    ranks = [sorted((random.randrange(most), random.randrange(most) + random.randrange(2))) for _ in range(count)]
    timeline = b"timeline %d\n" % count + b"".join(b"at %d %d\n" % (a, b) for a, b in ranks)
    a, b, relation = random.randrange(intervals + 1), random.randrange(intervals + 1), random.choice(RELATIONS).encode()
    block = Block(b"walk")
    for _ in range(random.randrange(5)):
        change_walk(random, block)
    walk = b"".join(line + b"\n" for line in block.lines())
    cites = sorted({random.randrange(5) for _ in range(random.randrange(4))})
    lists = len(ORDERS[relation.decode()])
    forms = (
        timeline,
        b"counter %d %s %d\n" % (a, relation, b) + timeline,
        b"entails %d %s %d\n" % (a, relation, b) + walk * lists,
        b"clash %d\n" % len(cites) + b"".join(b"cite %d\n" % cite for cite in cites) + walk + timeline * len(cites),
    )
    bodies = [random.choice(forms) for _ in range(random.choice((1, 1, 1, 2, 3)))]
    return text_of_bodies(bodies, older=len(bodies) == 1 and chance(random, 0.5))
