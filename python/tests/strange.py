"""Clean documents whose manner is drawn: quotes, white space, the order of attributes, identifiers, scripts, layout, comments, signs next
to tags, attributes that TimeML does not have. The rules of `fix` were made with the styles of `written.py` in mind, and not with these.
"""

from __future__ import annotations

from collections.abc import Callable
from random import Random

from written import Attributes, Writer

SCRIPTS = {
    "": "the bank union minister port talks storm crew prices plant city court market deal vote at of for but they its".split(),
    "ru": "банк министр город порт союз цена рынок совет".split(),
    "zh": "政府 银行 会议 经济 报告 城市 总统 公司".split(),
    "de": "Börse Währung Größe Straße Übung von dem".split(),
}
ENTITIES = ("AT&amp;T", "&lt;tag&gt;", "&quot;yes&quot;", "it&apos;s", "caf&#233;", "a &lt; b", "&#x2014;")
ODD = ("x > y", "->", "and/or", "a=b", '"quoted"', "http://x.org/a?b=c", 'key="v"', "--", "/>", "e1", "U.S.", "o'clock")
LEFT = ("(", '"', "'", "-", "/", "$", "=", ">", "re", "[")
RIGHT = (".", ",", "'s", '"', ")", "-", "/", ";", "=", ">", "s", "...", "?", '."')
COMMENTS = ("checked by hand", "<EVENT> here?", "x", '"see" l3 > l4', "AT&T", "to do: e1 - e2")
NAMES: tuple[Callable[[str, int], str], ...] = (
    lambda kind, number: f"{kind}{number}",
    lambda kind, number: f"{kind}{number:03}",
    lambda kind, number: f"wsj_0{number % 3 + 1}.{kind}{number}",
    lambda kind, number: f"{kind.upper()}-{number}",
    lambda kind, number: str(1000 * (ord(kind[-1]) % 9 + 1) + number),
    lambda kind, number: f"{kind}_{'abcdefghijklmnopqrstuvwxyz'[number % 26]}{number // 26 or ''}",
)
VALUES = (
    ("DATE", "1998-02-03"), ("DATE", "1998-02"), ("DATE", "1999"), ("DATE", "1997-W21"), ("DATE", "1998-Q1"), ("DATE", "PRESENT_REF"),
    ("TIME", "1998-02-03T16:30"), ("TIME", "1998-02-03TMO"), ("DURATION", "P3D"), ("DURATION", "PT20M"), ("SET", "XXXX-WXX-1"),
)  # fmt: skip


class Strange(Writer):
    """A document in a manner of its own."""

    def __init__(self, random: Random) -> None:
        draw = random.choice
        between, slash = draw((" ", " ", " ", " ", "  ", "\n  ")), draw(("", "", "", " "))
        super().__init__(random, draw(('"', '"', '"', "'")), between, slash, draw(("\n", "\n", "\n", "\r\n", "")))
        self.equals, self.before_end = draw(("=",) * 7 + (" = ",)), draw(("",) * 7 + (" ",))
        self.is_shuffled, self.is_in_pairs = random.random() < 0.3, random.random() < 0.2
        self.is_mixed, self.is_glued, self.has_more = random.random() < 0.15, random.random() < 0.35, random.random() < 0.3
        self.has_entities, self.has_comments, self.is_nested = random.random() < 0.3, random.random() < 0.3, random.random() < 0.15
        self.script, self.name, self.number = draw(("", "", "", "", *SCRIPTS)), draw((*NAMES[:1] * 4, *NAMES)), draw((1, 1, 0, 8, 98))
        self.known: dict[str, list[str]] = {kind: [] for kind in ("e", "t", "s", "ei")}

    def identifier(self, kind: str) -> str:
        """The next identifier of a kind."""
        self.number += 1
        name = self.name(kind, self.number)
        self.known.setdefault(kind, []).append(name)
        return name

    def words(self, most: int = 4) -> str:
        """Some words, perhaps with entities and signs among them."""
        odd = self.has_entities * ENTITIES + self.is_glued * ODD
        drawn = [self.random.choice(odd if odd and self.random.random() < 0.12 else SCRIPTS[self.script]) for _ in range(most)]
        return ("" if self.script == "zh" else " ").join(drawn)

    def opened(self, name: str, attributes: Attributes, end: str = "") -> str:
        """A start tag, or an empty one."""
        pairs = list(attributes.items())
        if self.is_shuffled:
            self.random.shuffle(pairs)
        quotes = [self.random.choice("\"'") if self.is_mixed else self.quote for _ in pairs]
        written = "".join(
            f"{self.between}{one}{self.equals}{quote}{value}{quote}" for (one, value), quote in zip(pairs, quotes, strict=True)
        )
        return f"<{name}{written}{end or self.before_end}>"

    def empty(self, name: str, attributes: Attributes) -> str:
        """An empty tag, perhaps as a start tag and an end tag."""
        return self.tag(name, attributes, "") if self.is_in_pairs else super().empty(name, attributes)

    def more(self) -> Attributes:
        """Attributes that TimeML does not have."""
        return {"stem": self.random.choice(("x>y", "be", "a/b", "take place"))} if self.has_more else {}

    def timex(self, more: Attributes | None = None, inside: str = "") -> str:
        """A TIMEX3."""
        kind, value = self.random.choice(VALUES[:1] if more else VALUES)
        text = self.random.choice(("Monday", "5 p.m.", "the '90s", "9/11", "now", "1998", "Q1", "Dec. 12, 1997"))
        return self.tag("TIMEX3", {"tid": self.identifier("t"), "type": kind, "value": value, **(more or {})}, inside or text)

    def piece(self) -> str:
        """A marked word, perhaps with signs next to it."""
        kind = self.random.choice("eeets")
        if kind == "e":
            found = self.tag("EVENT", {"eid": self.identifier("e"), "class": "OCCURRENCE", **self.more()}, self.words(1))
        elif kind == "s":
            found = self.tag("SIGNAL", {"sid": self.identifier("s")}, self.words(1))
        else:
            found = self.timex(inside=f"{self.words(1)} {self.timex()}" if self.is_nested else "")
        if self.has_more and self.random.random() < 0.2:
            found = self.tag("ENAMEX", {"TYPE": "LOCATION"}, found)
        if self.is_glued and self.random.random() < 0.5:
            return self.random.choice(LEFT) + found + self.random.choice(RIGHT)
        return found

    def sentences(self) -> list[str]:
        """The text."""
        wrapper = self.random.choice(("", "", "s", "P"))
        found = []
        for _ in range(self.random.randint(1, 4)):
            parts = [f"{self.words(3)} {self.piece()}{self.random.choice((' ', ', ', '.'))}" for _ in range(self.random.randint(1, 3))]
            text = "".join(parts) + self.words(2) + "."
            found.append(self.tag(wrapper, {}, text) if wrapper else text)
            if self.has_comments and self.random.random() < 0.4:
                found.append(f"<!-- {self.random.choice(COMMENTS)} -->")
        return found

    def links(self) -> list[str]:
        """Instances, and links between them."""
        found = []
        for event in self.known["e"]:
            if self.random.random() < 0.9:
                found.append(self.instance(self.identifier("ei"), event))
        for _ in range(self.random.randint(0, 6) if self.instances else 0):
            name = self.identifier("l")
            found.append(self.order(name, self.known["t"][0]) if self.random.random() < 0.8 else self.other(name))
        return found

    def document(self) -> str:
        """The whole document."""
        draw = self.random.choice
        head = draw(
            ("", "", '<?xml version="1.0" ?>', "<?xml version='1.0' encoding='UTF-8'?>", '<?xml version="1.0"?>\n<!DOCTYPE TimeML>')
        )
        created = self.timex({"functionInDocument": "CREATION_TIME"})
        lines = ["<TimeML>"]
        if draw((True, False)):
            lines += ["<DOCID>wsj_0321</DOCID>", f"<DCT>{created}</DCT>", "<TEXT>", *self.sentences(), "</TEXT>"]
        else:
            lines += [created, *self.sentences()]
        text = self.newline.join([*filter(None, [head]), *lines, *self.links(), "</TimeML>"]) + draw(("", "\n"))
        return text.replace("\r\n", "\n").replace("\n", "\r\n") if self.newline == "\r\n" else text


def strange(random: Random) -> str:
    """A document in a manner of its own."""
    return Strange(random).document()
