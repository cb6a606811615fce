"""Hard documents for what reads all of a text: `check`, `canon`, `spans` and `dates`."""

from __future__ import annotations

import itertools
import string
from collections.abc import Callable

from canon import many_attributes
from hard_shapes import KIB, TEXTS, Case, Shape
from measure import (
    PREFIX,
    SUFFIX,
    annotated_text,
    deepest_nesting,
    deepest_of_long_names,
    events,
    events_in_no_order,
    filled,
    numbered,
    one_tag,
    signals_and_links,
    times,
)

ALL = ("check", "canon", "spans")
LETTERS = string.ascii_letters
INSTANCE = b'<EVENT eid="e" class="STATE"/><MAKEINSTANCE eiid="i" eventID="e"/>'
Maker = Callable[[int], bytes]


def pieces(piece: bytes) -> Maker:
    """A root that holds a piece as often as it fits."""
    return lambda size: filled(piece, size)


def stretched(before: bytes, middle: bytes, after: bytes) -> Maker:
    """A document in which one part is as long as it can be."""
    return lambda size: before + middle * ((size - len(before) - len(after)) // len(middle)) + after


def names(count: int) -> list[str]:
    """Names of four letters, in order."""
    return ["".join(letters) for letters in itertools.islice(itertools.product(LETTERS, repeat=4), count)]


def attributes(prefix: str, step: int) -> Maker:
    """One tag with attributes whose names begin alike, each so many further on than the one before it."""

    def make(size: int) -> bytes:
        count = (size - len(PREFIX) - len(SUFFIX)) // (len(prefix) + 8)
        endings = names(count)
        parts = (f' {prefix}{endings[one * step % count]}=""' for one in range(count))
        return PREFIX[:-1] + "".join(parts).encode() + b">" + SUFFIX

    return make


def tags_of(count: int, length: int) -> Maker:
    """Tags of so many attributes, whose names are of this length and differ at the end."""
    names_of_one = [LETTERS[one].rjust(length, "a") for one in range(count)]
    tag = "<s" + "".join(f' {name}=""' for name in reversed(names_of_one)) + "/>"
    return pieces(tag.encode())


def long_identifiers(size: int) -> bytes:
    """EVENTs whose identifiers have 64 bytes, differ at the end, and are in no order."""
    return numbered(b"", lambda one: b'<EVENT eid="%s%08x" class="STATE"/>' % (b"e" * 56, one * 2654435761 % (1 << 32)), size)


def references_back(size: int) -> bytes:
    """EVENTs with identifiers in no order, and before them links with signals that refer to the last of these first."""
    part = b'<SIGNAL sid="%08x"/><SLINK signalID="%08x" subordinatedEventInstance="i" relType="MODAL"/>'
    return numbered(INSTANCE, lambda one: part % (one * 2654435761 % (1 << 32), one * 2654435761 % (1 << 32)), size)


def ends_with(make: Maker, last: bytes, closing: bytes = SUFFIX) -> Maker:
    """A document with one more piece at its end, before the root is closed."""
    return lambda size: make(size - len(last)).removesuffix(SUFFIX) + last + closing


def begins_with(first: bytes, make: Maker) -> Maker:
    """A document with one more piece at its beginning."""
    return lambda size: PREFIX + first + make(size - len(first)).removeprefix(PREFIX)


def many_links(size: int) -> bytes:
    """One instance, and links of it with itself: more than may be, once there is room for them."""
    link = b'<TLINK eventInstanceID="i" relatedToEventInstance="i" relType="DURING"/>'
    count = min((size - len(PREFIX + INSTANCE + SUFFIX)) // len(link), 4096)
    return PREFIX + INSTANCE + link * count + SUFFIX


def text_of_times(size: int) -> bytes:
    """As many times as there may be, of all forms, and then a text."""
    forms = (
        "19",
        "199",
        "199X",
        "1998",
        "1998-W53-XX",
        "1998-Q3",
        "1998-W53-7",
        "XXXX-12-25",
        "1998-01-08T18:30:00",
        "P3D",
        "9999-12-31T24",
    )
    tag = '<TIMEX3 tid="t{}" type="DATE" value="{}"/>'
    tags = "".join(tag.format(one, forms[one % len(forms)]) for one in range(1024 * size // TEXTS[-1])).encode()
    return ends_with(stretched(PREFIX, b"A text. ", SUFFIX), tags)(size)


ACCEPTED: dict[str, tuple[Maker, tuple[str, ...]]] = {
    "`<P/>`": (pieces(b"<P/>"), ALL),
    "`<s></s>`": (pieces(b"<s></s>"), ALL),
    "`<!---->&lt;`": (pieces(b"<!---->&lt;"), ALL),
    "comments with a bad reference": (pieces(b"<!--&-->sixteen bytes of "), ALL),
    "a comment of `>`": (stretched(PREFIX + b"<!--", b">", b"-->" + SUFFIX), ALL),
    "a comment of `->`": (stretched(PREFIX + b"<!--", b"->", b"-->" + SUFFIX), ALL),
    "a comment of `-`": (stretched(PREFIX + b"<!--", b"-", b"-->" + SUFFIX), ALL),
    "a declaration of `>`": (stretched(b"<?xml ", b">", b"?>" + PREFIX + SUFFIX), ALL),
    "a doctype of quotes": (stretched(b"<!DOCTYPE ", b'"', b">" + PREFIX + SUFFIX), ALL),
    "references `&lt;`": (pieces(b"&lt;"), ALL),
    "references `&#x10FFFF;`": (pieces(b"&#x10FFFF;"), ALL),
    "references, each after 16 bytes": (pieces(b"sixteen bytes of &amp;"), ALL),
    "text of two bytes a character": (pieces("é".encode()), ALL),
    "text of four bytes a character": (pieces("𝄞".encode()), ALL),
    "text of line feeds": (pieces(b"\n"), ALL),
    "text of `>`": (pieces(b">"), ALL),
    "white space in a tag": (stretched(b"<TimeML", b"\n", b"/>"), ALL),
    "white space between tags": (pieces(b"<P>\n</P>\n"), ALL),
    "a name as long as the document": (stretched(b"<TimeML ", b"a", b'=""/>'), ALL),
    "a value as long as the document": (stretched(b'<TimeML a="', b"a", b'"/>'), ALL),
    "a value of references": (stretched(b'<TimeML a="', b"&lt;", b'"/>'), ALL),
    "a value of quotes": (stretched(b"<TimeML a='", b'"', b"'/>"), ALL),
    "values of a quote": (pieces(b"""<s a='"'/>"""), ALL),
    "deepest nesting": (deepest_nesting, ALL),
    "deepest nesting of long names": (deepest_of_long_names, ALL),
    "annotated text": (annotated_text, ALL),
    "EVENTs": (events, ("check", "canon")),
    "EVENTs in no order": (events_in_no_order, ("check", "canon")),
    "EVENTs, identifiers of 64 bytes": (long_identifiers, ("check", "canon")),
    "signals and links": (signals_and_links, ("check", "canon")),
    "signals and links in no order": (references_back, ("check", "canon")),
    "EVENTs, attributes in no order": (many_attributes, ALL),
    "one tag, attributes in order": (one_tag, ALL),
    "one tag, attributes in no order": (attributes("", 7919), ALL),
    "one tag, attributes in reverse": (attributes("", -1), ALL),
    "one tag, names that begin with 8 bytes": (attributes("a" * 8, 7919), ALL),
    "one tag, names that begin with 60 bytes": (attributes("a" * 60, 7919), ALL),
    "one tag, names that begin with 1,000 bytes": (attributes("a" * 1000, 7919), ALL),
    "tags of 8 attributes": (tags_of(8, 1), ALL),
    "tags of 8 attributes, long names": (tags_of(8, 30), ALL),
    "tags of 9 attributes": (tags_of(9, 1), ALL),
    "links of one instance": (many_links, ("check", "solve", "reduce", "relations")),
    "a time of very many digits": (
        stretched(b'<TimeML><TIMEX3 tid="t" type="DATE" value="P', b"1", b'"/></TimeML>'),
        ("check", "dates", "canon"),
    ),
    "times of all forms, and text": (text_of_times, ("check", "dates", "canon")),
}
FAULTY: dict[str, Maker] = {
    "no UTF-8 at the end": ends_with(pieces(b"<P/>"), b"\xff"),
    "a bad reference at the end": ends_with(pieces(b"&lt;"), b"&"),
    "bad markup at the end": ends_with(pieces(b"<P/>"), b"<"),
    "an unknown tag at the end": ends_with(pieces(b"<P/>"), b"<Q/>"),
    "an end tag too many": ends_with(pieces(b"<s></s>"), b"</s>"),
    "a root that is not closed": ends_with(pieces(b"<s></s>"), b"", b""),
    "a tag too deep at the end": ends_with(deepest_nesting, b"<s>" * 32 + b"</s>" * 32),
    "an attribute twice at the end": ends_with(tags_of(8, 1), b'<s a="" a=""/>'),
    "an identifier twice at the end": ends_with(events_in_no_order, b'<EVENT eid="00000000" class="STATE"/>'),
    "an unknown reference at the end": ends_with(events_in_no_order, b'<MAKEINSTANCE eiid="i" eventID="e"/>'),
    "too many intervals": lambda size: times(max(size, 64 * KIB)),
    "a bad value first, no UTF-8 at the end": begins_with(b'<EVENT eid="e" class="?"/>', ends_with(pieces(b"<P/>"), b"\xff")),
    "an unknown tag first, bad markup at the end": begins_with(b"<Q/>", ends_with(pieces(b"<P/>"), b"<")),
    "an identifier twice first, a bad value at the end": begins_with(
        b'<SIGNAL sid="s"/>' * 2, ends_with(events, b'<EVENT eid="e" class="?"/>')
    ),
    "one tag, the last attribute twice": lambda size: attributes("", 7919)(size - 8).replace(b">", b' aaaa="">', 1),
}


def as_case(make: Maker) -> Callable[[int], Case]:
    """A case of a document alone, with a question about one instance."""
    return lambda size: Case(make(size), asked=("i", "BEFORE", "i"))


SHAPES = [Shape(name, as_case(make), commands, TEXTS) for name, (make, commands) in ACCEPTED.items()]
SHAPES += [Shape(name, as_case(make), ("check", "canon"), TEXTS, faulty=True) for name, make in FAULTY.items()]
