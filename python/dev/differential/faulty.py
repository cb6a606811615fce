"""Changes documents so that they have a fault: one change for each of the seventeen kinds, or two at a time.

Each change is made of the bytes. It needs not give the fault of its name: another one may come before it, and the reference says
which one is first.
"""

from __future__ import annotations

import re
from collections.abc import Callable, Mapping
from random import Random

from differential.chances import chance
from differential.dates import bad_value

Change = Callable[[Random, bytes], bytes]
START = re.compile(rb"""<([A-Za-z]\w*)((?:[^<>"']|"[^"<]*"|'[^'<]*')*)>""")
END = re.compile(rb"</(\w+)\s*>")
ATTRIBUTE = re.compile(rb"""\s+([^\s=<>"'/]+)\s*=\s*("[^"<]*"|'[^'<]*')""")
NOT_UTF8 = (
    b"\xff", b"\x80", b"\xc0\x80", b"\xc1\xbf", b"\xe0\x80\x80", b"\xed\xa0\x80", b"\xf4\x90\x80\x80", b"\xf5\x80\x80\x80", b"\xe2\x82",
    b"\xf0\x9f\x98", b"\xe9t\xe9",
)  # fmt: skip
BAD_REFERENCES = (
    b"&", b"&nbsp;", b"&#;", b"&#x;", b"&#12345678;", b"&#x1234567;", b"&lt", b"&LT;", b"&#X41;", b"&#-1;", b"& ", b"&#xG;", b"&amp ;",
    b"&&amp;", b"&#1a;",
)  # fmt: skip
BAD_MARKUP = (
    b"<", b"< ", b"<!", b"<!-", b"<!--", b"<!-->", b"<?pi?>", b"<![CDATA[x]]>", b"</>", b"</ P>", b"<P a>", b"<P a=>", b"<P a=b>",
    b"<P a='>", b"<P a=''b=''>",
    b"<P/ >", b"<1/>", b"<P<", b"</P a=''>", b"<!DOCTYPE>", b"<!DOCTYPE x [<!ENTITY a 'b'>]>", b"<?xml?>", b"<?XML ?>", b"<-P/>",
    b"<P a='<'/>", b"<!doctype x>",
    b"</P/>", b"<P =''/>", b"<P a==''/>", b"<P", b"<P ", b"<P a", b"<P a='x'", b"<?xml ?", b"<!DOCTYPE x", b"<?xml\x0b?>",
)  # fmt: skip
BEFORE_ROOT = (b"x", b"<P/>", b" <?xml ?>", b"<!DOCTYPE x><!DOCTYPE x>", b"<!----><?xml ?>", b"&#32;", b"<?xml ?><?xml ?>", b"<P></P>")
OTHER_NAMES = (b"X", b"Event", b"tlink", b"DCT2", b"TimeMl", b"TIMEX", b"sS")


def put(random: Random, document: bytes, what: bytes) -> bytes:
    """Puts bytes at some place: mostly between units, sometimes anywhere."""
    places = [found.end() for found in re.finditer(rb">", document)]
    place = random.choice(places) if places and chance(random, 0.7) else random.randrange(len(document) + 1)
    return document[:place] + what + document[place:]


def replace(document: bytes, found: re.Match[bytes], group: int, what: bytes) -> bytes:
    """Replaces what a group of a match found."""
    return document[: found.start(group)] + what + document[found.end(group) :]


def on_tag(change: Callable[[Random, re.Match[bytes]], bytes | None], names: bytes = rb"\w+") -> Change:
    """A change of one start or empty tag of some names: the tag is replaced, where there is one."""

    def changed(random: Random, document: bytes) -> bytes:
        tags = [found for found in START.finditer(document) if re.fullmatch(names, found[1])]
        random.shuffle(tags)
        for found in tags:
            tag = change(random, found)
            if tag is not None:
                return document[: found.start()] + tag + document[found.end() :]
        return document

    return changed


def on_attribute(change: Callable[[Random, re.Match[bytes]], bytes], tags: bytes, names: bytes) -> Change:
    """A change of one attribute of some names, with the white space before it."""

    def changed(random: Random, found: re.Match[bytes]) -> bytes | None:
        attributes = [one for one in ATTRIBUTE.finditer(found[0]) if re.fullmatch(names, one[1])]
        if not attributes:
            return None
        one = random.choice(attributes)
        return found[0][: one.start()] + change(random, one) + found[0][one.end() :]

    return on_tag(changed, tags)


def unbalanced(random: Random, document: bytes) -> bytes:
    """An end tag too many, too few or of another name."""
    ends = list(END.finditer(document))
    if not ends:
        return put(random, document, b"</P>")
    found = random.choice(ends)
    kind = random.choice(("drop", "more", "rename"))
    if kind == "drop":
        return document[: found.start()] + document[found.end() :]
    if kind == "more":
        return put(random, document, random.choice((found[0], b"</P>", b"</X>")))
    return replace(document, found, 1, random.choice((b"P", b"TimeML", b"timeml", found[1] + b"x")))


def unclosed(random: Random, document: bytes) -> bytes:
    """A document that ends too early."""
    ends = [found.start() for found in re.finditer(rb"<", document)]
    kind = random.choice(("root", "cut", "small"))
    if kind == "root" and document.rstrip().endswith(b">"):
        return document[: document.rindex(b"<")] if b"<" in document else document
    if kind == "cut" and ends:
        return document[: random.choice(ends)]
    return random.choice((b"", b" ", b"<!-- a -->", b"<TimeML>", b"<TimeML><P></P>\n"))


def filled(random: Random, tag: re.Match[bytes]) -> bytes | None:
    """A tag with something inside that may not stand there."""
    inside = random.choice((b"x", b"&#32;", b"<P/>", b"<TLINK/>", b"<EVENT></EVENT>", b"<TimeML/>", b"</P>", b"<X/>", b"\xc2\xa0"))
    if tag[0].endswith(b"/>"):
        return tag[0][:-2] + b">" + inside + b"</" + tag[1] + b">"
    return tag[0] + inside


def misplaced(random: Random, document: bytes) -> bytes:
    """Something where it may not stand: outside the root, in a link tag, or in the root."""
    kind = random.choice(("after", "before", "in link", "in root", "in root"))
    if kind == "after":
        return document + random.choice((b"x", b"<P/>", b"<TimeML/>", b"&#32;", b"<!DOCTYPE x>", b"<?xml ?>", b"\xef\xbb\xbf"))
    if kind == "before":
        return random.choice(BEFORE_ROOT) + document
    if kind == "in link":
        return on_tag(filled, rb"[A-Z]*LINK|MAKEINSTANCE")(random, document)
    return put(random, document, random.choice((b"<TimeML/>", b"<TimeML></TimeML>", b"<!DOCTYPE TimeML>", b"<?xml ?>", b"<TimeML>")))


def too_deep(random: Random, document: bytes) -> bytes:
    """Wrappers in each other, about as many as may be."""
    count = random.choice((29, 30, 31, 32, 33, 40))
    name = random.choice((b"P", b"TEXT", b"s"))
    inner = random.choice((b"", b"x", b"<X/>", b"<P/>", b"<TLINK/>", b"<TimeML/>"))
    return put(random, document, b"<%s>" % name * count + inner + b"</%s>" % name * count)


def repeated(random: Random, found: re.Match[bytes]) -> bytes | None:
    """A tag with one of its attributes twice, or with two of one name that mean nothing."""
    attributes = [one[0] for one in ATTRIBUTE.finditer(found[0])]
    more = random.choice(attributes) if attributes and chance(random, 0.8) else b" a='' a=\"\""
    if chance(random, 0.4):
        more = re.sub(rb"""(["']).*\1""", rb"\1\1", more, flags=re.DOTALL)
    return b"<" + found[1] + more + found[0][len(found[1]) + 1 :]


def bad_reference_value(random: Random, one: re.Match[bytes]) -> bytes:
    """An attribute with a value that is not of its list or shape."""
    old = one[2][1:-1]
    changed = (old.lower(), old + b" ", b" " + old, old + old, old[:-1])
    value = random.choice((*changed, b"x", b"&#65;", b":", b"a" * 65, b"\xc3\xa9", b"NONE", b"-", b"."))
    return b" " + one[1] + b'="' + value.replace(b'"', b"") + b'"'


def other_reference(random: Random, one: re.Match[bytes]) -> bytes:
    """A reference to something that is not there, or of another kind."""
    return b" " + one[1] + b"='" + random.choice((b"none", b"e0", b"ei0", b"t0", b"s0", b"l0", b"al0", one[2][1:-1] + b"0")) + b"'"


def conflict(random: Random, found: re.Match[bytes]) -> bytes | None:
    """A link with both of a pair of attributes."""
    names = {one[1] for one in ATTRIBUTE.finditer(found[0])}
    pairs = ((b"timeID", b"eventInstanceID"), (b"relatedToTime", b"relatedToEventInstance"))
    missing = [name for pair in pairs for name in pair if name not in names]
    if not missing:
        return None
    more = b" %s='%s'" % (random.choice(missing), random.choice((b"t0", b"ei0", b":", b"e0")))
    return b"<" + found[1] + more + found[0][len(found[1]) + 1 :]


def duplicate(random: Random, document: bytes) -> bytes:
    """A tag twice, or one with the identifier of another."""
    tags = [found for found in START.finditer(document) if re.search(rb"\s(eid|eiid|tid|sid|lid)\s*=\s*.[^'\"]", found[0])]
    if not tags:
        return document
    found = random.choice(tags)
    if chance(random, 0.5):
        return put(random, document, found[0] if found[0].endswith(b"/>") else found[0] + b"</" + found[1] + b">")
    values = [one[2] for tag in tags for one in ATTRIBUTE.finditer(tag[0]) if one[1] in (b"eid", b"eiid", b"tid", b"sid", b"lid")]
    other = random.choice(values or [b"'e0'"])
    return on_attribute(lambda _, one: b" " + one[1] + b"=" + other, rb"[A-Z]\w+", rb"eid|eiid|tid|sid|lid")(random, document)


def inside_root(more: Callable[[int], bytes], least: int) -> Change:
    """Puts about so many elements before the end of the root, as many as there may be or some more or less."""

    def changed(random: Random, document: bytes) -> bytes:
        place = document.rfind(b"</TimeML")
        if place < 0:
            return document
        elements = b"".join(more(number) for number in range(least + random.randrange(5)))
        return document[:place] + elements + document[place:]

    return changed


def missing(random: Random, one: re.Match[bytes]) -> bytes:
    """Nothing in the place of an attribute, or an empty value."""
    return random.choice((b"", b" " + one[1] + b"=''"))


REFERENCES = rb"eventInstanceID|timeID|relatedTo\w+|subord\w+"
CHANGES: Mapping[str, Change] = {
    "NotUtf8": lambda random, document: put(random, document, random.choice(NOT_UTF8)),
    "BadReference": lambda random, document: put(random, document, random.choice(BAD_REFERENCES)),
    "BadMarkup": lambda random, document: put(random, document, random.choice(BAD_MARKUP)),
    "UnknownTag": on_tag(lambda random, found: b"<" + random.choice(OTHER_NAMES) + found[0][len(found[1]) + 1 :]),
    "Unbalanced": unbalanced,
    "Unclosed": unclosed,
    "Misplaced": misplaced,
    "TooDeep": too_deep,
    "RepeatedAttribute": on_tag(repeated),
    "MissingAttribute": on_attribute(missing, rb"[A-Z]\w+", rb"eid|class|eiid|eventID|tid|type|sid|relType|" + REFERENCES),
    "BadValue": on_attribute(bad_reference_value, rb"[A-Z]\w+", rb"\w+"),
    "Conflict": on_tag(conflict, rb"TLINK"),
    "BadDate": on_attribute(lambda random, one: b" value='" + bad_value(random).encode() + b"'", rb"TIMEX3", rb"value"),
    "DuplicateId": duplicate,
    "UnknownReference": on_attribute(other_reference, rb"[A-Z]\w+", rb"eventID|signalID|\w+TimeID|\w+Point|" + REFERENCES),
}
LIMITS: Mapping[str, Change] = {
    "TooManyIntervals": inside_root(lambda number: b"<TIMEX3 tid='many%d' type='SET'/>" % number, 1022),
    "TooManyLinks": inside_root(lambda number: b"<TLINK relType='DURING' timeID='t0' relatedToTime='t0'/>", 4094),
}


EARLY = ("NotUtf8", "BadReference", "BadMarkup")
"""Faults that come before all others, and so are made less often."""


def draw_change(random: Random) -> Change:
    """A change that is made to a document."""
    name = random.choice(list(CHANGES))
    return CHANGES[random.choice(list(CHANGES)) if name in EARLY else name]


def draw_faulty(random: Random, document: bytes) -> bytes:
    """A document after one change, or two, or three."""
    for _ in range(random.choice((1, 1, 2, 2, 3))):
        document = draw_change(random)(random, document)
    return document


def draw_too_many(random: Random) -> bytes:
    """A document with about as many intervals or links as there may be, perhaps with another change."""
    name = random.choice(list(LIMITS))
    document = LIMITS[name](random, b"<TimeML><TIMEX3 tid='t0' type='DATE' value='1998'/></TimeML>\n")
    return draw_change(random)(random, document) if chance(random, 0.5) else document
