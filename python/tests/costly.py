"""Documents that are hard for the companions: shapes that grow with a share of the limits, and have much of one thing."""

from __future__ import annotations

from collections.abc import Callable, Iterable

from tml.statuses import DOCUMENT_LIMIT, INTERVAL_LIMIT, LINK_LIMIT

Maker = Callable[[float], bytes]
"""Makes a document of a share of the limits, which is 1 if the document is as large as may be."""

BEGIN, CLOSE = "<TimeML>", "</TimeML>\n"
EVENT = '<EVENT eid="e0" class="STATE">x</EVENT>'
INSTANCE = '<MAKEINSTANCE eiid="i0" eventID="e0"/>'
NUMBERED = "{0}"
TAGS_IN_TEXT = "<s>a</s>"


def event(number: int, text: str = "x") -> str:
    """An EVENT with a number."""
    return f'<EVENT eid="e{number}" class="STATE">{text}</EVENT>\n'


def instances(count: int, name: str = "i{}") -> str:
    """Instances of one event, by the form of their names."""
    return "".join(f'<MAKEINSTANCE eiid="{name.format(number)}" eventID="e0"/>\n' for number in range(count))


def link(left: str, relation: str, right: str) -> str:
    """A link between two instances."""
    return f'<TLINK eventInstanceID="{left}" relatedToEventInstance="{right}" relType="{relation}"/>\n'


def between_times(left: int, relation: str, right: int) -> str:
    """A link between two times."""
    return f'<TLINK timeID="t{left}" relatedToTime="t{right}" relType="{relation}"/>\n'


def ring(count: int, relation: str = "BEFORE", name: str = "i{}") -> str:
    """Links in a circle, which clash if the relation is an order."""
    names = [name.format(number) for number in range(count)]
    return "".join(map(link, names, [relation] * count, [*names[1:], *names[:1]]))


def document(*parts: str) -> bytes:
    """A document of some parts."""
    return f"{BEGIN}{''.join(parts)}{CLOSE}".encode()


def filled(part: str, most: int = DOCUMENT_LIMIT, before: str = EVENT, after: str = "") -> Maker:
    """A document with a part as often as fits into so many bytes. A part with braces has the number in their place."""

    def make(share: float) -> bytes:
        room = int(most * share) - len(before) - len(after) - len(BEGIN + CLOSE)
        if "{" not in part:
            return document(before, part * (room // len(part.encode())), after)
        count = room // len(part.format(100_000).encode())
        return document(before, *map(part.format, range(1, max(count, 1))), after)

    return make


def one_tag(tag: str, attribute: str = ' a{}=""', most: int = 2_600_000) -> Maker:
    """One tag of very many attributes, in a document of all instances. The tag has braces where the attributes are."""

    def make(share: float) -> bytes:
        attributes = "".join(map(attribute.format, range(int(most * share) // len(attribute.format(10_000)))))
        linked = "".join(link(f"i{one}", "BEFORE", f"i{one + 1}") for one in range(int(1000 * share)))
        return document(tag.replace("{}", attributes), INSTANCE, instances(int(1020 * share)).replace('"i0"', '"i"'), linked)

    return make


def of_net(make: Callable[[int], Iterable[str]], most: int, before: str = EVENT) -> Maker:
    """A document of so many intervals at most."""
    return lambda share: document(before, *make(max(int(most * share), 3)))


def rates(part: str, after: str = "") -> Callable[[int], Iterable[str]]:
    """Times, each with a value, in a form with braces for its number."""
    return lambda count: [*map(part.format, range(count)), after]


def touching(count: int) -> Iterable[str]:
    """Months that follow each other, each said to be before the next one, with very many such links."""
    yield from (
        f'<TIMEX3 tid="t{number}" type="DATE" value="{1000 + number // 12}-{number % 12 + 1:02}">x</TIMEX3>\n' for number in range(count)
    )
    yield from (between_times(one, "BEFORE", one + 1) for _ in range(4) for one in range(count - 1))


def star(count: int) -> Iterable[str]:
    """Instances that are all the same as the first one."""
    return [instances(count), *(link("i0", "SIMULTANEOUS", f"i{number}") for number in range(1, count))]


def crossed(count: int) -> Iterable[str]:
    """Many short clashes, two links each."""
    pairs = [(f"i{one}", f"i{one + 1}") for one in range(count - 1)]
    return [instances(count), *(link(a, "BEFORE", b) + link(b, "BEFORE", a) for a, b in pairs)]


def long_names(count: int) -> Iterable[str]:
    """Names of 64 bytes, of which nothing is known."""
    return [instances(count, "i" * 59 + "{:05}")]


def ring_of_references(share: float) -> bytes:
    """Very many references in one EVENT whose instances form a ring."""
    count = max(int(512 * share), 3)
    return document(f'<EVENT eid="e0" class="STATE">{"&#1;" * int(45_000 * share)}</EVENT>', instances(count), ring(count))


def ring_in_text(share: float) -> bytes:
    """A ring of events, each with words of its own, in one long line."""
    count = max(int(INTERVAL_LIMIT * share), 3)
    room = int(DOCUMENT_LIMIT * share / 2) // count
    tags = [f'{"a word " * (room // 7)}<EVENT eid="e{one}" class="STATE">x{one}</EVENT>' for one in range(count)]
    made = [f'<MAKEINSTANCE eiid="i{one}" eventID="e{one}"/>' for one in range(count)]
    return document(*tags, *made, ring(count).replace("\n", ""))


NETS: dict[str, Maker] = {
    "a ring of instances, and references in their one EVENT": ring_of_references,
    "a ring of events in one long line": ring_in_text,
    "a free net of long names": of_net(long_names, INTERVAL_LIMIT),
    "a free net of long names, of 512": of_net(long_names, 512),
    "links between dates that touch": of_net(touching, 1000, ""),
    "links between the same": of_net(star, INTERVAL_LIMIT),
    "very many short clashes": of_net(crossed, INTERVAL_LIMIT),
    "dates with words of the text": of_net(
        rates('<TIMEX3 tid="t{}" type="DATE" value="1998-03-11">' + "Monday in May " * 200 + "</TIMEX3>\n"), INTERVAL_LIMIT, ""
    ),
    "events around tags": of_net(
        rates('<EVENT eid="e{0}" class="STATE">' + TAGS_IN_TEXT * 400 + '</EVENT><MAKEINSTANCE eiid="i{0}" eventID="e{0}"/>\n'),
        INTERVAL_LIMIT,
        "",
    ),
    "creation times": of_net(
        rates('<TIMEX3 tid="t{}" type="DATE" value="3/4/1998" functionInDocument="CREATION_TIME">x</TIMEX3>\n'), INTERVAL_LIMIT, ""
    ),
}
"""Documents that are accepted, by the number of intervals and links."""

TEXTS: dict[str, Maker] = {
    "an EVENT of very many attributes": one_tag('<EVENT eid="e0" class="STATE"{}>x</EVENT>'),
    "a MAKEINSTANCE of very many attributes": one_tag(EVENT + '<MAKEINSTANCE eiid="j" eventID="e0"{}/>'),
    "a TLINK of very many attributes": one_tag(
        EVENT + '<TLINK relatedToEventInstance="i0" eventInstanceID="i0" relType="DURING"{}/>', ' xml:a{}=""'
    ),
    "a root of very many attributes": lambda share: one_tag(EVENT)(share).replace(
        b"<TimeML>", b"<TimeML" + b"".join(b' a%d=""' % one for one in range(int(200_000 * share))) + b">"
    ),
    "tags of attributes one letter from right ones": filled('<SIGNAL sid="s{0}" sig="" clas="" ied="">x</SIGNAL>\n'),
    "a text full of tags": filled(TAGS_IN_TEXT),
    "a text full of tags in one EVENT": filled(TAGS_IN_TEXT, before='<EVENT eid="e0" class="STATE">', after="</EVENT>" + INSTANCE),
    "events": filled('<EVENT eid="e{}" class="STATE">x</EVENT>'),
    "events inside of an event": filled(
        '<EVENT eid="e{}" class="STATE">x</EVENT>\n', before='<EVENT eid="f" class="STATE">', after="</EVENT>"
    ),
    "events without text": filled('<EVENT eid="e{}" class="STATE"/>\n'),
    "SLINKs": filled('<SLINK eventInstanceID="i0" subordinatedEventInstance="i0" relType="MODAL"/>\n', before=EVENT + INSTANCE),
    "ALINKs with identifiers": filled(
        '<ALINK lid="l{}" eventInstanceID="i0" relatedToEventInstance="i0" relType="INITIATES"/>\n', before=EVENT + INSTANCE
    ),
    "signals": filled('<SIGNAL sid="s{}">x</SIGNAL>\n'),
    "references in a text": filled("&amp;"),
    "references in a value": filled("&amp;", before='<EVENT eid="e0" class="STATE" comment="', after='">x</EVENT>'),
    "long references": filled("&#x10FFFF;"),
    "comments": filled("<!---->"),
    "comments in an EVENT": filled("<!--c-->x", before='<EVENT eid="e0" class="STATE">', after="</EVENT>" + INSTANCE),
    "line ends": filled("\n"),
    "white space in an EVENT": filled(" ", before='<EVENT eid="e0" class="STATE">', after="</EVENT>" + INSTANCE),
    "letters of two bytes in one line": filled("\u00e9", after=event(1)),
    "letters that join": filled("a\u0301\u200d", after=event(1)),
    "tags without their <": filled('EVENT eid="e{}" class="STATE">x\n', before="<P>", after="</P>"),
    "signs like tags without their <": filled("EVENT a=> ", before="<P>", after="</P>"),
    "names like tags without their <": filled("EVENT ", before="<P>", after="&gt;</P>"),
    "marks of versions": filled("<![CDATA[".replace("<![CDATA[", "=======\n>>>>>>> a\n"), before="<P>\n", after="</P>"),
    "a time of very many digits": lambda share: document(f'<TIMEX3 tid="t" type="DATE" value="P{"1" * int(4_000_000 * share)}">x</TIMEX3>'),
    "a time of very many clocks": lambda share: document(
        f'<TIMEX3 tid="t" type="TIME" value="{"1998-03-11 1:T11.1" * int(200_000 * share)}">x</TIMEX3>'
    ),
    "a time of very many spaces": lambda share: document(f'<TIMEX3 tid="t" type="DATE" value="{" " * int(4_000_000 * share)}x">x</TIMEX3>'),
    "wrappers of every depth": filled("<P>" * 31 + "x" + "</P>" * 31),
    "very many links of one instance": lambda share: document(
        EVENT, INSTANCE, *(link("i0", "SIMULTANEOUS", "i0") for _ in range(int(LINK_LIMIT * share)))
    ),
}
"""Documents that are accepted, by their bytes."""

BROKEN: dict[str, Maker] = {
    "crossing tags": filled("<P><S>x</P></S>\n"),
    "end tags": filled("</S>\n"),
    "start tags": filled("<S>\n"),
    "unknown tags": filled("<foo>x</foo>\n"),
    "unknown tags of many names": filled("<foo{0}>x</foo{0}>\n"),
    "tags in other letters": filled('<event eid="e{}" class="STATE">x</event>\n'),
    "tags in a link": filled(
        "<s>x</s>", before=EVENT + INSTANCE + '<TLINK eventInstanceID="i0" relatedToEventInstance="i0" relType="DURING">'
    ),
    "far duplicates": filled(event(1).replace("1", "{}"), most=DOCUMENT_LIMIT // 2, after="<P>" + "<s>x</s>" * 1000 + "</P>" + event(1)),
    "duplicates": filled(event(1)),
    "duplicates of many names": lambda share: document(*[event(one) for one in range(int(45_000 * share))] * 2),
    "unknown references": filled('<MAKEINSTANCE eiid="i{0}" eventID="f{0}"/>\n'),
    "unknown references of one name": filled('<SLINK subordinatedEventInstance="ej{0}" relType="MODAL"/>\n', before=EVENT + INSTANCE),
    "unknown references among many": lambda share: document(
        *map(event, range(int(40_000 * share))), *(f'<MAKEINSTANCE eiid="i{one}" eventID="a{one}"/>' for one in range(int(1000 * share)))
    ),
    "bad values": filled('<EVENT eid="e{}" class="STAT">x</EVENT>\n'),
    "bad identifiers": filled('<EVENT eid="e {}" class="STATE">x</EVENT>\n'),
    "a bad identifier as long as the document": filled("e ", before='<EVENT eid="', after='" class="STATE">x</EVENT>'),
    "missing attributes": filled("<EVENT>x</EVENT>\n"),
    "missing attributes of instances": filled("<MAKEINSTANCE/>\n"),
    "events without an identifier and lost ones": filled('<EVENT class="STATE">x</EVENT><SLINK eventInstanceID="i{}" relType="MODAL"/>\n'),
    "repeated attributes": filled('<EVENT eid="e{}" class="STATE" class="STATE">x</EVENT>\n'),
    "conflicts": filled('<TLINK timeID="t0" eventInstanceID="i0" relatedToTime="t0" relType="DURING"/>\n'),
    "bad dates": filled('<TIMEX3 tid="t{}" type="DATE" value="1998-13-05">x</TIMEX3>\n'),
    "too many times": filled('<TIMEX3 tid="t{}" type="DATE" value="1998-03-05">x</TIMEX3>\n'),
    "unescaped &": filled("a & b "),
    "entities": filled("&nbsp;"),
    "ends of references": filled("&#"),
    "unescaped <": filled("a < b "),
    "quotes": filled("<s a=\"'>", after='"/>'),
    "a quote that is missing": filled('<s a="x>b</s>\n'),
    "curly quotes": filled("<s a=\u201cx\u201d>b</s>\n"),
    "CDATA sections": filled("<![CDATA[x]]>\n"),
    "instructions": filled("<?a b?>\n"),
    "a comment without an end": filled("<!-- x ", after=""),
    "bytes that are not UTF-8": lambda share: filled("~x ")(share).replace(b"~", b"\xe9"),
    "bytes of Latin-1 that are declared": lambda share: b'<?xml version="1.0" encoding="ISO-8859-1"?>'
    + filled("~x ", DOCUMENT_LIMIT - 100)(share).replace(b"~", b"\xe9"),
    "marks of versions of a whole document": lambda share: (
        b"<<<<<<< a\n" + filled("<s>x</s>\n", DOCUMENT_LIMIT // 2 - 100)(share) + b"=======\n"
    )
    * 2,
    "two documents": lambda share: filled("<s>x</s>\n", DOCUMENT_LIMIT // 2)(share) * 2,
    "white space and no root": lambda share: b" " * int(DOCUMENT_LIMIT * share),
    "letters only": lambda share: b"a" * int(DOCUMENT_LIMIT * share),
    "signs only": lambda share: b"<" * int(DOCUMENT_LIMIT * share),
    "attributes without a value": filled(" a", before="<s", after=">x</s>"),
    "an EVENT of very many attributes, and a slip": lambda share: one_tag('<EVENT eid="e0" clas="STATE"{}>x</EVENT>')(share),
    "an EVENT of very many attributes, and a lost name": lambda share: one_tag('<EVENT eid="e1" class="STATE"{}>x</EVENT>')(share),
    "a file cut off": lambda share: filled(event(1).replace("1", "{}"))(share)[: -len(CLOSE) - 12],
}
"""Documents that have faults."""

LONGEST_SEARCHED = 320_000
"""In about so many bytes at most a wrong keystroke is searched for."""


def short(make: Maker) -> Maker:
    """The same as long as a document may be in which a wrong keystroke is searched for."""
    return lambda share: make(share * LONGEST_SEARCHED / DOCUMENT_LIMIT)


SHORT: dict[str, Maker] = {f"{name}, short": short(make) for name, make in BROKEN.items()}
"""Documents that have faults, and in which a wrong keystroke is searched for."""

SHAPES = NETS | TEXTS | BROKEN | SHORT
