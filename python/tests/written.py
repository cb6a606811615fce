"""Clean documents as other annotators and tools write them, in styles of their own; each is made from a `Random` alone.

`spread` has its tags over several lines, single quotes, CRLF, comments, and identifiers such as `E12`. `dense` has no line breaks,
and marks sentences, names, and numbers. `inline` has each instance after its event, and identifiers such as `a.b-3`. `plain` has little
but text.
"""

from __future__ import annotations

from collections.abc import Callable
from random import Random

from ordinary import Item
from stories import Story

VERBS = ("denied", "grew", "will meet", "began", "expects", "collapsed", "is", "fire", "ended", "talks", "hit", "agreed", "war", "visit")
WORDS = (
    "Mr. Abe", "officials", "in Rome", "the plan", "a deal", "he", "U.S. troops", "it", "of the I.R.A.", "3 men", "(again)",
    "&quot;no&quot;", "at large,", "who", "Zürich", "oil &amp; gas", "30%", "that", "--", "its 747s",
)  # fmt: skip
CLASSES = ("OCCURRENCE", "PERCEPTION", "REPORTING", "ASPECTUAL", "STATE", "I_STATE", "I_ACTION")
RELATIONS = ("BEFORE", "AFTER", "INCLUDES", "IS_INCLUDED", "SIMULTANEOUS", "IBEFORE", "IDENTITY", "BEGUN_BY", "ENDS", "DURING_INV")
SUBORDINATIONS = ("MODAL", "EVIDENTIAL", "NEG_EVIDENTIAL", "FACTIVE", "COUNTER_FACTIVE", "CONDITIONAL")
ASPECTUAL = ("INITIATES", "CULMINATES", "TERMINATES", "CONTINUES", "REINITIATES")

Attributes = dict[str, str]


class Writer:
    """A document as it is written: how tags look, and what was named."""

    def __init__(self, random: Random, quote: str = '"', between: str = " ", before_slash: str = "", newline: str = "\n") -> None:
        self.random, self.quote, self.between, self.before_slash, self.newline = random, quote, between, before_slash, newline
        self.instances: list[str] = []

    def words(self, most: int = 4) -> str:
        """Some words."""
        return " ".join(self.random.choices(WORDS, k=self.random.randint(1, most)))

    def opened(self, name: str, attributes: Attributes, end: str = "") -> str:
        """A start tag, or an empty one."""
        pairs = "".join(f"{self.between}{one}={self.quote}{value}{self.quote}" for one, value in attributes.items())
        return f"<{name}{pairs}{end}>"

    def tag(self, name: str, attributes: Attributes, text: str) -> str:
        """A tag around a text."""
        return f"{self.opened(name, attributes)}{text}</{name}>"

    def empty(self, name: str, attributes: Attributes) -> str:
        """An empty tag."""
        return self.opened(name, attributes, f"{self.before_slash}/")

    def event(self, name: str) -> str:
        """An event."""
        return self.tag("EVENT", {"eid": name, "class": self.random.choice(CLASSES)}, self.random.choice(VERBS))

    def instance(self, name: str, event: str, **more: str) -> str:
        """An instance of an event."""
        self.instances.append(name)
        tense, aspect = self.random.choice(("PAST", "PRESENT", "FUTURE", "NONE")), self.random.choice(("NONE", "PERFECTIVE", "PROGRESSIVE"))
        return self.empty(
            "MAKEINSTANCE", {"eiid": name, "eventID": event, "pos": "VERB", "tense": tense, "aspect": aspect, "polarity": "POS", **more}
        )

    def order(self, name: str, time: str, attribute: str = "lid") -> str:
        """A TLINK from some instance to another one or to a time."""
        first, second = self.random.choice(self.instances), self.random.choice(self.instances)
        to = {"relatedToTime": time} if first == second else {"relatedToEventInstance": second}
        return self.empty("TLINK", {attribute: name, "eventInstanceID": first, **to, "relType": self.random.choice(RELATIONS)})

    def other(self, name: str) -> str:
        """An SLINK or an ALINK."""
        first, second = self.random.choice(self.instances), self.random.choice(self.instances)
        if self.random.randrange(2):
            pairs = {"eventInstanceID": first, "subordinatedEventInstance": second, "relType": self.random.choice(SUBORDINATIONS)}
            return self.empty("SLINK", {"lid": name, **pairs})
        relation = self.random.choice(ASPECTUAL)
        return self.empty("ALINK", {"lid": name, "eventInstanceID": first, "relatedToEventInstance": second, "relType": relation})


def spread(random: Random) -> str:
    """Tags over several lines, single quotes, CRLF, and comments."""
    writer = Writer(random, quote="'", between="\n    ", before_slash="\n  ")
    lines = ["<?xml version='1.0' encoding='utf-8'?>", "<!DOCTYPE TimeML SYSTEM 'TimeML.dtd'>", "<TimeML>", "<!-- first pass: a > b -->"]
    created = {"tid": "T0", "type": "DATE", "value": "2001-09-10", "functionInDocument": "PUBLICATION_TIME"}
    lines += ["<DOCNO> APW2001.0910 </DOCNO>", writer.tag("TIMEX3", created, "Sept. 10")]
    number, instances = random.randint(2, 40), []
    for _ in range(random.randint(2, 4)):
        words = [writer.words()]
        for _ in range(random.randint(1, 3)):
            number += random.randint(1, 3)
            words += [writer.event(f"E{number}"), writer.words()]
            instances.append(writer.instance(f"I{number}", f"E{number}", modality="would"))
        lines.append(" ".join(words) + ".")
    lines.append(writer.tag("SIGNAL", {"sid": "Sg1"}, "since") + "<!-- check -->")
    lines += instances + [writer.order(f"L{place}", "T0") for place in range(1, random.randint(3, 6))] + [writer.other("L7")]
    return "\r\n".join([*lines, "</TimeML>", ""]).replace("\n    ", "\r\n    ").replace("\n  /", "\r\n  /").replace("\r\r", "\r")


def dense(random: Random) -> str:
    """One line; sentences, names and numbers are marked, and times have many attributes."""
    writer = Writer(random)
    paragraphs, links, number = [], [], 0
    for paragraph in range(random.randint(1, 2)):
        sentences = []
        for _ in range(random.randint(1, 3)):
            number += 1
            person = f"<ENAMEX TYPE=\"PERSON\">{random.choice(('Kim', 'Lee Hu', 'O. Brun'))}</ENAMEX>"
            share = f'<NUMEX TYPE="PERCENT">{random.randint(1, 99)}%</NUMEX>'
            links.append(writer.instance(f"ei{number}", f"e{number}"))
            sentences.append(f"<s>{person} {writer.event(f'e{number}')} {share}, {writer.words(2)}.</s>")
        months = {"value": f"P{paragraph + 2}M", "mod": "EQUAL_OR_LESS", "temporalFunction": "true", "beginPoint": "t0"}
        time = writer.tag("TIMEX3", {"tid": f"t{paragraph + 1}", "type": "DURATION", **months}, "up to some months")
        often = {"value": "P1W", "quant": "EVERY", "freq": "2X", "anchorTimeID": "t0"}
        often_tag = writer.tag("TIMEX3", {"tid": f"t{paragraph + 5}", "type": "SET", **often}, "twice a week")
        paragraphs.append(f"<p>{''.join(sentences)}<s>{time}({often_tag})</s></p>")
    links += [writer.other(f"l{place}") for place in range(1, 4)] + [writer.order("l4", "t1"), writer.order("l5", "t0")]
    created = writer.tag("TIMEX3", {"tid": "t0", "type": "DATE", "value": "1999-W21", "functionInDocument": "CREATION_TIME"}, "this week")
    return f"<TimeML><DCT>{created}</DCT><TITLE>{writer.words(3)}</TITLE><TEXT>{''.join(paragraphs)}</TEXT>{''.join(links)}</TimeML>"


def inline(random: Random) -> str:
    """Each instance after its event, and identifiers with points and hyphens."""
    writer = Writer(random, before_slash=" ")
    lines, number = ["<TimeML>", "<DOC>", "<DOCID>wsj_0" + str(random.randint(100, 999)) + "</DOCID>", "<BODY>"], 0
    for place in range(random.randint(2, 4)):
        words = []
        for _ in range(random.randint(1, 3)):
            number += 1
            event, signal = f"a.b-{number}", f"s.{number}"
            marked = writer.tag("SIGNAL", {"sid": signal}, "had")
            more = {"signalID": signal, "cardinality": "2"} if random.randrange(3) == 0 else {}
            words += [marked] * bool(more) + [writer.event(event) + writer.instance(f"a.i-{number}", event, **more), writer.words()]
        value = f"2003-0{place + 1}-1{place}T0{place + 4}:15"
        words.append(writer.tag("TIMEX3", {"tid": f"a.t-{place}", "type": "TIME", "value": value, "mod": "APPROX"}, "about then"))
        lines.append(f"<S>{' '.join(words)}.</S>")
    lines += [writer.order(f"a.l-{place}", "a.t-0") for place in range(random.randint(1, 4))]
    return "\n".join([*lines, "</BODY>", "</DOC>", "</TimeML>"]) + "\n"


def plain(random: Random) -> str:
    """Much text with few tags, the links indented."""
    writer = Writer(random)
    lines, links = ['<?xml version="1.0" ?>', "<TimeML>", f"<HEADLINE>{writer.words()}</HEADLINE>", "<TEXT>"], []
    for number in range(10, random.randint(12, 15)):
        lines += [writer.words(9), f"{writer.words(9)} {writer.event(f'ev{number}')}ed: {writer.words()}"]
        links.append("  " + writer.instance(f"in{number}", f"ev{number}"))
    return "\n".join([*lines, "</TEXT>", *links, "  " + writer.other("sl1"), "</TimeML>"]) + "\n"


STYLES: dict[str, Callable[[Random], str]] = {
    "story": lambda random: Story(random).document(),
    "ordinary": lambda random: Item(random.randrange(10**6)).document(),
    "spread": spread,
    "dense": dense,
    "inline": inline,
    "plain": plain,
}
"""The styles by their names."""
