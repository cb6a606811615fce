"""Draws documents without a fault: of a net, or of one that is drawn, with units of all kinds and nested wrappers."""

from __future__ import annotations

from random import Random

from differential.chances import chance
from differential.nets import Net, draw_net, draw_other_links

WRAPPERS = (
    "DOCID", "DOCNO", "DOC", "DCT", "TITLE", "EXTRAINFO", "TEXT", "BODY", "HEADLINE", "P", "p", "S", "s", "ENAMEX", "NUMEX", "CONFIDENCE",
    "TIMEX3INTERVAL",
)  # fmt: skip
CLASSES = ("OCCURRENCE", "PERCEPTION", "REPORTING", "ASPECTUAL", "STATE", "I_STATE", "I_ACTION")
LISTED = {
    "tense": ("PAST", "PRESENT", "FUTURE", "INFINITIVE", "PRESPART", "PASTPART", "NONE", ""),
    "aspect": ("PROGRESSIVE", "PERFECTIVE", "PERFECTIVE_PROGRESSIVE", "NONE", ""),
    "pos": ("ADJECTIVE", "NOUN", "VERB", "PREPOSITION", "OTHER", "PREP", "UNKNOWN", ""),
    "polarity": ("POS", "NEG", ""),
    "modality": ("", "should", "may &amp; must", "'"),
    "cardinality": ("", "2", "EVERY", "\u00e9"),
}
FUNCTIONS = ("CREATION_TIME", "EXPIRATION_TIME", "MODIFICATION_TIME", "PUBLICATION_TIME", "RELEASE_TIME", "RECEPTION_TIME", "NONE", "")
ALINKS = ("INITIATES", "CULMINATES", "TERMINATES", "CONTINUES", "REINITIATES")
SLINKS = ("MODAL", "EVIDENTIAL", "NEG_EVIDENTIAL", "FACTIVE", "COUNTER_FACTIVE", "CONDITIONAL", "INTENSIONAL")
CARRIED = (
    ("comment", "a &lt; b"), ("xml:lang", "en"), ("syntax", ""), ("\u00fc", "\u00e4"), ("_x.1-2", 'say "so"'), ("class", "x > y"),
    (":", "''"), ("eid", "e1"), ("sid", ":"),
)  # fmt: skip
XML_TEXTS = (
    " ", "\n", "\t\r\n", "rates fell", "a &amp; b", "x > y", "\u00e9t\u00e9 \u4e2d \U0001f600", "&#233;&#x1F600;&quot;&apos;&gt;",
    "- -- ->", "\"'=/",
    "?>", "\u00a0", "\ufeff",
)  # fmt: skip
TEXTS = (*XML_TEXTS, "&#0;", "\x00\x1f", "&#9999999;&#xFFFFFF;", "x ]]> z")
XML_COMMENTS = ("<!---->", "<!-- a -->", '<!-- & < > " -->', "<!--\n\u00e9-->", "<!--<TLINK/>-->")
COMMENTS = (*XML_COMMENTS, "<!--->-->", "<!-- -- -->", "<!----->")
XML_HEADS = ("", "", "\ufeff", '<?xml version="1.0"?>', '<?xml version="1.0" ?>\n', "<!-- before -->")
HEADS = ("", "", "", "\ufeff", '<?xml version="1.0"?>', '<?xml version="1.0" ?>\n', "\ufeff<?xml ?>", "<?xml\t&<>?>", " \n")
XML_DOCTYPES = ("", "", '<!DOCTYPE TimeML SYSTEM "TimeML.dtd">', "<!DOCTYPE TimeML>\n", "<!-- before --><!DOCTYPE TimeML>")
DOCTYPES = ("", "", "", "", '<!DOCTYPE TimeML SYSTEM "TimeML.dtd">', "<!DOCTYPE TimeML>\n", "<!DOCTYPE\n&'>", "<!-- before --><!DOCTYPE x>")
TAILS = ("", "\n", "\n", " \r\n\t", "<!-- after -->\n", "\n<!---->")
SPACES = (" ", " ", " ", " ", "\n", "\t", "  ", "\r\n ")


class Style:
    """How the tags of a document are written: quotes, white space, and whether empty elements are empty tags."""

    def __init__(self, random: Random) -> None:
        self.random = random
        self.plain = chance(random, 0.5)

    def attribute(self, name: str, value: str) -> str:
        """An attribute with what stands before it."""
        random = self.random
        quote = '"' if self.plain else random.choice("\"'")
        quote = "'" if '"' in value else '"' if "'" in value else quote
        space = " " if self.plain else random.choice(SPACES)
        equals = "=" if self.plain or chance(random, 0.8) else random.choice((" =", "= ", "\n=\t"))
        return f"{space}{name}{equals}{quote}{value}{quote}"

    def element(self, name: str, attributes: list[tuple[str, str]], content: str = "") -> str:
        """An element; attributes whose value is empty may be left out."""
        random = self.random
        given = [(key, value) for key, value in attributes if value or chance(random, 0.3)]
        if not self.plain:
            random.shuffle(given)
            names = {key for key, _ in attributes}
            given += [pair for pair in CARRIED if chance(random, 0.03) and pair[0] not in names]
        end = "" if self.plain else random.choice(("", "", "", " ", "\n"))
        start = name + "".join(self.attribute(key, value) for key, value in given) + end
        if not content and chance(random, 0.7):
            return f"<{start}/>"
        return f"<{start}>{content}</{name}{end}>"


class Drawn:
    """A document as it is made of a net: the names of its intervals, and its elements."""

    def __init__(self, random: Random, net: Net, prefix: str | None = None) -> None:
        self.random = random
        self.style = Style(random)
        self.net = net
        self.is_xml = chance(random, 0.6)
        self.prefix = draw_prefix(random) if prefix is None else prefix
        self.names = [f"{self.prefix}{'ei' if time is None else 't'}{number}" for number, time in enumerate(net.times)]
        self.instances = [name for name, time in zip(self.names, net.times, strict=True) if time is None]
        self.times = [name for name, time in zip(self.names, net.times, strict=True) if time is not None]
        self.signals = [f"s{number}" for number in range(random.randrange(3))]
        self.events = [f"e{number}" for number in range(random.randrange(1 if self.instances else 0, len(self.instances) + 2))]

    def some(self, names: list[str], share: float = 0.3) -> str:
        """One of some names, or nothing."""
        return self.random.choice(names) if names and chance(self.random, share) else ""

    def text(self) -> str:
        """A text, or nothing."""
        return self.random.choice(XML_TEXTS if self.is_xml else TEXTS) if chance(self.random, 0.4) else ""

    def interval(self, number: int) -> str:
        """The tag of an interval."""
        random, time = self.random, self.net.times[number]
        if time is None:
            attributes = [("eiid", self.names[number]), ("eventID", random.choice(self.events)), ("signalID", self.some(self.signals, 0.1))]
            attributes += [(name, random.choice(values) if chance(random, 0.4) else "") for name, values in LISTED.items()]
            return self.style.element("MAKEINSTANCE", attributes, self.inside_link())
        attributes = [("tid", self.names[number]), ("type", time.kind), ("value", time.value or ""), ("mod", time.modifier)]
        attributes += [("functionInDocument", self.some(list(FUNCTIONS))), ("temporalFunction", self.some(["true", "false", ""]))]
        attributes += [(name, self.some(self.times, 0.1)) for name in ("anchorTimeID", "beginPoint", "endPoint")]
        attributes += [(name, self.some(["", "EVERY", "2X"], 0.1)) for name in ("quant", "freq")]
        return self.style.element("TIMEX3", attributes, self.text())

    def inside_link(self) -> str:
        """What may stand inside a link tag: white space and comments."""
        return self.random.choice((" ", "\n", "<!-- & -->", "\t<!---->")) if chance(self.random, 0.05) else ""

    def link(self, number: int) -> str:
        """The tag of a link."""
        a, relation, b = self.net.links[number]
        first = "eventInstanceID" if self.net.times[a] is None else "timeID"
        second = "relatedToEventInstance" if self.net.times[b] is None else "relatedToTime"
        attributes = [("lid", self.some([f"l{number}"], 0.7)), (first, self.names[a]), (second, self.names[b]), ("relType", relation)]
        others = {"eventInstanceID", "timeID", "relatedToEventInstance", "relatedToTime"} - {first, second}
        attributes += [(name, "") for name in sorted(others) if chance(self.random, 0.1)]
        return self.style.element("TLINK", [*attributes, ("signalID", self.some(self.signals, 0.2))], self.inside_link())

    def others(self) -> list[str]:
        """Events, signals, and links that are not links of the net."""
        random, element = self.random, self.style.element
        made = [element("EVENT", [("eid", name), ("class", random.choice(CLASSES))], self.text()) for name in self.events]
        made += [element("SIGNAL", [("sid", name)], self.text()) for name in self.signals]
        if self.instances:
            for number in range(random.randrange(2)):
                ends = [("eventInstanceID", random.choice(self.instances)), ("relatedToEventInstance", random.choice(self.instances))]
                signal = ("signalID", self.some(self.signals))
                made.append(element("ALINK", [("lid", f"al{number}"), *ends, ("relType", random.choice(ALINKS)), signal]))
            for number in range(random.randrange(2)):
                ends = [("subordinatedEventInstance", random.choice(self.instances)), ("eventInstanceID", self.some(self.instances))]
                made.append(element("SLINK", [("lid", f"sl{number}"), *ends, ("relType", random.choice(SLINKS))]))
        return made

    def body(self) -> list[str]:
        """All elements; intervals and links keep their order, and all else is anywhere."""
        random = self.random
        parts = [self.interval(number) for number in range(len(self.names))]
        links = [self.link(number) for number in range(len(self.net.links))]
        if chance(random, 0.5):
            parts += links
        else:
            for place, link in zip(sorted(random.randrange(len(parts) + 1) for _ in links), links, strict=True):
                parts.insert(min(place + links.index(link), len(parts)), link)
        for other in self.others():
            parts.insert(random.randrange(len(parts) + 1), other)
        for extra in (XML_TEXTS, XML_COMMENTS) if self.is_xml else (TEXTS, COMMENTS):
            for _ in range(random.choice((0, 0, 1, 3))):
                parts.insert(random.randrange(len(parts) + 1), random.choice(extra))
        if self.style.plain:
            parts = [f"{part}\n" for part in parts]
        return parts

    def wrapped(self, parts: list[str]) -> list[str]:
        """The same with wrappers around some of them, which nest; texts meet no texts by this."""
        for number in range(self.random.choice((0, 0, 1, 2, 5, 12))):
            low, high = sorted((self.random.randrange(len(parts) + 1), self.random.randrange(len(parts) + 1)))
            name = self.random.choice((*WRAPPERS, "EVENT", "SIGNAL"))
            attributes = {"EVENT": [("eid", f"w{number}"), ("class", "STATE")], "SIGNAL": [("sid", f"w{number}")]}.get(name, [])
            parts[low:high] = [self.style.element(name, attributes, "".join(parts[low:high]))]
        return parts

    def document(self) -> str:
        """The whole text."""
        random = self.random
        space = self.some(["http://www.w3.org/2001/XMLSchema-instance"], 0.2)
        root = self.style.element("TimeML", [("xmlns:xsi", space)], "".join(self.wrapped(self.body())))
        if self.style.plain:
            return f"{root}\n"
        if self.is_xml:
            return random.choice(XML_HEADS) + random.choice(XML_DOCTYPES) + root + random.choice(TAILS)
        return random.choice(HEADS) + random.choice(DOCTYPES) + root + random.choice(TAILS)


def draw_prefix(random: Random) -> str:
    """What the names of the intervals of a document begin with."""
    return random.choice(("", "", "x.", "_-", "A" * 55))


def document_of(random: Random, net: Net, prefix: str | None = None) -> bytes:
    """A document of a net, without a fault but for what its values may have; its names begin as it is said, or are drawn."""
    return Drawn(random, net, prefix).document().encode()


def draw_pair(random: Random) -> tuple[bytes, bytes]:
    """Documents of two nets with the same intervals, some of whose links say the same."""
    net, prefix = draw_net(random), draw_prefix(random)
    return document_of(random, net, prefix), document_of(random, draw_other_links(random, net), prefix)


def draw_document(random: Random, size: int | None = None) -> bytes:
    """A document of a net that is drawn."""
    return document_of(random, draw_net(random, size))
