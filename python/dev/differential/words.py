"""Draws the words of a command: each form over a document, and words of no form."""

from __future__ import annotations

import re
from random import Random

from differential.chances import chance
from tml.statuses import INVERSES, RELATIONS

ONE_FILE = (b"spans", b"check", b"dates", b"solve", b"relations", b"canon", b"matrix", b"reduce", b"seconds")
NAME = re.compile(rb"""\s(?:eiid|tid)\s*=\s*["']([\w.-]{1,64})["']""", re.ASCII)
LINK = re.compile(rb"<TLINK\b[^<>]*>")
ENDS = tuple(
    re.compile(rb"""\s(?:%s)\s*=\s*["']([^"'<]+)["']""" % names) for names in (rb"eventInstanceID|timeID", rb"relType", rb"relatedTo\w+")
)
WEAKER = {
    b"BEGINS": (b"DURING",), b"ENDS": (b"DURING",), b"IS_INCLUDED": (b"DURING",), b"SIMULTANEOUS": (b"DURING", b"DURING_INV", b"IDENTITY"),
    b"IDENTITY": (b"SIMULTANEOUS", b"DURING", b"DURING_INV"), b"INCLUDES": (b"DURING_INV",), b"BEGUN_BY": (b"DURING_INV",),
    b"ENDED_BY": (b"DURING_INV",),
}  # fmt: skip
OTHER_NAME = re.compile(rb"""\s(?:eid|sid|lid|value)\s*=\s*["']([^"'<]{1,64})["']""")
DOCUMENT, EVIDENCE, SECOND, KEY, SECONDS = b"d.xml", b"e", b"f", b"k.xml", b"s"
DRILLS = (
    "0", "1", "2", "3", "5", "8", "17", "00", "01", "002", "1025", "2000", "10240", "-1", "+1", " 1", "1 ", "1.0", "1e1", "0x1", "\u0661",
    "4294967297", "4294967296",
    "18446744073709551617", "340282366920938463463374607431768211457", "1" * 400, "", "a", "five", "1\n", "\uff11", "5\u0301",
)  # fmt: skip
STRANGE = (
    (b"--help",), (b"-h",), (b"version",), (b"",), (b"check",), (b"Check", DOCUMENT), (b"check ", DOCUMENT),
    (b"check", DOCUMENT, DOCUMENT), (b"solve",), (b"drill",),
    (b"drill", b"1", b"2"), (b"ask", DOCUMENT), (b"ask", DOCUMENT, b"a", b"BEFORE"), (b"ask", DOCUMENT, b"a", b"BEFORE", b"b", b"c"),
    (b"verify", DOCUMENT),
    (b"verify", DOCUMENT, DOCUMENT, DOCUMENT), (b"spans", b"-", b"-"), (b"-",), (DOCUMENT,), (b"check\n", DOCUMENT), (b"relations",),
    (b"canon", DOCUMENT, b""),
    (b"chec", DOCUMENT), (b"checks", DOCUMENT), (b"dates",), (b"\xc3\xa9", DOCUMENT), (b"spans", b"--", DOCUMENT),
    (b"check", b"--", DOCUMENT), (b"verify",),
    (b"renew",), (b"renew", EVIDENCE, SECOND), (b"renew ", EVIDENCE), (b"renews", EVIDENCE), (b"join",), (b"join", EVIDENCE),
    (b"join", EVIDENCE, SECOND, EVIDENCE), (b"Join", EVIDENCE, SECOND), (b"join", b"--", EVIDENCE, SECOND),
    (b"join", EVIDENCE, SECOND, b""),
    (b"possible", DOCUMENT), (b"possible", DOCUMENT, b"a"), (b"possible", DOCUMENT, b"a", b"b", b"c"), (b"Possible", DOCUMENT, b"a", b"b"),
    (b"possible",), (b"possibles", DOCUMENT, b"a", b"b"), (b"matrix",), (b"matrix", DOCUMENT, b""), (b"matrix", b"a", DOCUMENT),
    (b"Matrix", DOCUMENT), (b"reduce",), (b"reduce", DOCUMENT, b""), (b"Reduce", DOCUMENT), (b"reduced", DOCUMENT), (b"score",),
    (b"score", DOCUMENT), (b"score", DOCUMENT, KEY, KEY), (b"scores", DOCUMENT, KEY), (b"score", b"--", DOCUMENT, KEY),
    (b"seconds",), (b"seconds", DOCUMENT, b""), (b"Seconds", DOCUMENT), (b"second", DOCUMENT), (b"confirm",), (b"confirm", DOCUMENT),
    (b"confirm", DOCUMENT, SECONDS, SECONDS), (b"confirms", DOCUMENT, SECONDS), (b"confirm", b"--", DOCUMENT, SECONDS),
)  # fmt: skip
NOT_UTF8 = ((b"\xff",), (b"check", b"\xff"), (b"\xc3", DOCUMENT), (b"ask", DOCUMENT, b"a", b"\xe9", b"b"), (b"drill", b"1\x80"))
MISSING = (b"none", b"d", b"d.xml ", b"D.XML", b"", b"./none", b"a/b", b"--", b"n" * 300, b"\xc3\xa9", b"d.xml/x")


def draw_question(random: Random, document: bytes) -> tuple[bytes, ...]:
    """A command that reads the document d.xml alone."""
    if chance(random, 0.4):
        return draw_ask(random, document) if chance(random, 0.7) else draw_possible(random, document)
    return random.choice(ONE_FILE), DOCUMENT


def draw_possible(random: Random, document: bytes, right: bool = False) -> tuple[bytes, ...]:
    """A question for the base relations between two intervals, mostly of the document; sometimes they are one."""
    _, _, first, _, second = draw_ask(random, document, right)
    return b"possible", DOCUMENT, first, first if chance(random, 0.05) else second


def draw_ask(random: Random, document: bytes, right: bool = False) -> tuple[bytes, ...]:
    """A question for a relation, mostly between intervals of the document."""
    names: list[bytes] = NAME.findall(document) or [b"t1"]
    others: list[bytes] = [*OTHER_NAME.findall(document), b"", b"none", b"-", b"BEFORE", names[0] + b" ", names[0].upper(), b"0"]

    def name() -> bytes:
        return random.choice(names) if right or chance(random, 0.93) else random.choice(others)

    if chance(random, 0.5) and (following := draw_following(random, document)):
        return b"ask", DOCUMENT, *following
    relation = random.choice(RELATIONS).encode()
    if not right and chance(random, 0.05):
        relation = random.choice((relation.lower(), relation + b" ", b"OVERLAP", b"", names[0], b"VAGUE", b"DURING_", b"BEFORE&#69;"))
    return b"ask", DOCUMENT, name(), relation, name()


def draw_following(random: Random, document: bytes) -> tuple[bytes, bytes, bytes] | None:
    """A relation that may follow: that of a link or a weaker one, in either direction, or from one link's end to another's."""
    links = [[found[1] for end in ENDS if (found := end.search(tag))] for tag in LINK.findall(document)]
    whole = [link for link in links if len(link) == len(ENDS)]
    if not whole:
        return None
    (a, relation, b), (_, _, c) = random.choice(whole), random.choice(whole)
    relation = random.choice((relation, *WEAKER.get(relation, ())))
    if chance(random, 0.3):
        inverse = INVERSES.get(relation.decode())
        return (b, inverse.encode(), a) if inverse else (a, relation, b)
    return a, relation, random.choice((b, b, c))


def draw_words(random: Random, document: bytes) -> tuple[bytes, ...]:
    """Words of any kind: drills, words of no form, files that are not there."""
    kind = random.choice(("drill", "drill", "drill", "strange", "strange", "strange", "not UTF-8", "missing", "missing", "files"))
    if kind == "drill":
        return b"drill", random.choice(DRILLS).encode() if chance(random, 0.7) else b"%d" % random.randrange(1, 40)
    if kind == "strange":
        return random.choice(STRANGE)
    if kind == "not UTF-8":
        return random.choice(NOT_UTF8)
    if kind == "missing":
        question = draw_question(random, document)
        return question[0], random.choice(MISSING), *question[2:]
    command, count = random.choice(((b"verify", 2), (b"join", 2), (b"renew", 1), (b"score", 2), (b"confirm", 2)))
    return (command, *(random.choice((DOCUMENT, EVIDENCE, SECOND, SECONDS, b"none", b"-")) for _ in range(count)))
