"""Documents that are made to be hard: deep, with many attributes, long names and long numbers."""

from __future__ import annotations

from collections.abc import Callable
from random import Random

from differential.chances import chance
from differential.faulty import draw_too_many


def deep(random: Random) -> bytes:
    """Elements in each other, 30 to 34 of them."""
    count = random.choice((30, 31, 32, 33))
    names = [random.choice((b"P", b"s", b"TIMEX3INTERVAL", b"S", b"p")) for _ in range(count)]
    inner = random.choice((b"", b"x", b"<P/>", b"<P></P>", b"<TLINK/>", b"<EVENT eid='e' class='STATE'/>"))
    starts, ends = b"".join(b"<%s>" % name for name in names), b"".join(b"</%s>" % name for name in reversed(names))
    return b"<TimeML>" + starts + inner + ends + b"</TimeML>"


def many_attributes(random: Random) -> bytes:
    """A tag with hundreds of attributes, two of which may have one name."""
    count = random.choice((10, 100, 600))
    names = [b"a%x" % random.randrange(count * count * 4) for _ in range(count)]
    if chance(random, 0.5):
        names = list(dict.fromkeys(names))
    order = b"".join(b' %s="%s"' % (name, random.choice((b"", b"1", b"&amp;"))) for name in names)
    return b"<TimeML><%s%s/></TimeML>\n" % (random.choice((b"P", b"EVENT eid='e' class='STATE'", b"SIGNAL sid='s'")), order)


def long_names(random: Random) -> bytes:
    """Names, identifiers and values of some thousand bytes, or about as long as they may be."""
    length = random.choice((1, 63, 64, 65, 2000))
    name = random.choice((b"a", b"_", b".", b"-", b"\xc3\xa9", b"9")) * length
    rows = (
        b"<TimeML><SIGNAL sid='%s'/></TimeML>",
        b"<TimeML><TIMEX3 tid='%s' type='SET'/></TimeML>",
        b"<TimeML><P a='%s'/></TimeML>",
        b"<TimeML><P a%s=''/></TimeML>",
        b"<TimeML><P%s/></TimeML>",
        b"<TimeML>%s</TimeML>",
        b"<TimeML><TIMEX3 tid='t' type='DATE' value='%s'/></TimeML>",
        b"<TimeML><TIMEX3 tid='t' type='DATE' value='P%sD'/></TimeML>",
        b"<TimeML><EVENT eid='e' class='STATE'/><MAKEINSTANCE eiid='i' eventID='%s'/></TimeML>",
        b"<!DOCTYPE %s><TimeML/>",
        b"<?xml %s?><TimeML/>",
        b"<!--%s--><TimeML/>",
    )
    return random.choice(rows) % name


def long_numbers(random: Random) -> bytes:
    """References with many digits."""
    digits = random.choice((b"0", b"1", b"9", b"f", b"F")) * random.choice((1, 5, 6, 7, 8, 9, 30))
    reference = b"&#%s%s;" % (random.choice((b"", b"x", b"X")), digits)
    return random.choice((b"<TimeML>%s</TimeML>", b"<TimeML a='%s'/>", b"<!--%s--><TimeML/>", b"<TimeML/>%s")) % reference


def empty_attributes(random: Random) -> bytes:
    """Tags with attributes that are there and empty."""
    names = b"eid class eiid eventID tid type value mod sid lid relType timeID eventInstanceID signalID".split()
    tags = (b"EVENT", b"MAKEINSTANCE", b"TIMEX3", b"SIGNAL", b"TLINK", b"ALINK", b"SLINK", b"P")
    values = (b"", b"", b"x", b"DATE", b"BEFORE", b"STATE", b"MODAL", b"INITIATES")
    made = b""
    for _ in range(random.randrange(1, 4)):
        chosen = random.sample(names, random.randrange(8))
        made += b"<" + random.choice(tags) + b"".join(b' %s="%s"' % (name, random.choice(values)) for name in chosen) + b"/>"
    return b"<TimeML>" + made + b"</TimeML>"


KINDS: tuple[Callable[[Random], bytes], ...] = (
    deep, many_attributes, long_names, long_names, long_numbers, empty_attributes, empty_attributes,
)  # fmt: skip


def draw_hostile(random: Random) -> bytes:
    """A hostile document; one in forty has about as many intervals or links as there may be."""
    if chance(random, 0.025):
        return draw_too_many(random)
    return random.choice(KINDS)(random)
