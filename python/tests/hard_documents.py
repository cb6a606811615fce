"""Documents that are hard to draw: many intervals, all relations, inexact dates and lengths, and words of many scripts and lengths."""

from __future__ import annotations

import random
import re
from collections.abc import Sequence
from datetime import date, timedelta
from html import escape, unescape

from reference.relations import holds
from tml.statuses import RELATIONS

WORDS = (
    "said", "left", "agreed", "closed", "fell", "opened", "warned", "began", "were sold", "took over the company",
    "Donaudampfschifffahrtsgesellschaftskapit\u00e4n", "W" * 24, "announced a restructuring of the whole of its harbour administration",
    "\u65e5\u672c\u8a9e\u306e\u767a\u8868\u304c\u884c\u308f\u308c\u305f", "\u738b" * 50,
    "\u0645\u0624\u062a\u0645\u0631 \u0635\u062d\u0641\u064a",
    "\u05e4\u05d2\u05d9\u05e9\u05d4 \u05e8\u05d0\u05e9\u05d5\u05e0\u05d4", "e\u0301te\u0301 passe\u0301", "a\u0301\u0323\u0308" * 30,
    "\u0928\u092e\u0938\u094d\u0924\u0947 \u0926\u0941\u0928\u093f\u092f\u093e", "<b>&amp;",
)  # fmt: skip
"""What events are called."""

ORDINARY = WORDS[:10]

FIRST = date(1998, 1, 1)
DAY = 4
"""How many parts a day has in which intervals start and end."""

Stretch = tuple[int, int]


def hard_document(events: int, dates: int, seed: int, words: Sequence[str] = WORDS) -> str:
    """A document of so many events and dates that some timeline fits, since the places of all its intervals are drawn first."""
    chance = random.Random(f"{events} {dates} {seed}")
    days = 8 * dates + 4
    times = dict(time_of(chance, f"t{number}", days) for number in range(dates + dates // 3))
    tags = {name: tag for name, (tag, _) in times.items()}
    places = {name: place for name, (_, place) in times.items()}
    for number in range(events):
        begin = chance.randrange(DAY * days)
        places[f"i{number}"] = (begin, begin + chance.choice((1, 2, 3, 4, 8, 30)))
        text = escape(chance.choice(words))
        tags[f"i{number}"] = f'<EVENT eid="e{number}" class="STATE">{text}</EVENT><MAKEINSTANCE eiid="i{number}" eventID="e{number}"/>'
    names = list(tags)
    chance.shuffle(names)
    links = [link for name in names for link in links_of(chance, name, places)]
    return "<TimeML>" + ".\n".join(tags[name] for name in names) + "\n" + "".join(links) + "</TimeML>"


def time_of(chance: random.Random, name: str, days: int) -> tuple[str, tuple[str, Stretch]]:
    """A time by its name: mostly a day, but also a month of which no day is known, a length, or an hour."""
    day = chance.randrange(days)
    written, begin = FIRST + timedelta(day), DAY * day
    kind, value, length = chance.choice(
        [("DATE", f"{written}", DAY)] * 5
        + [("DATE", f"{written:%Y-%m}-XX", DAY), ("DURATION", "P3D", 3 * DAY), ("TIME", f"{written}T06:00", 0)]
    )
    text = chance.choice(("", "that day", "\u4e03\u6708\u4e94\u65e5"))
    place = (begin + 1, begin + 2) if kind == "TIME" else (begin, begin + length)
    tag = f'<TIMEX3 tid="{name}" type="{kind}" value="{value}"'
    return name, (f"{tag}>{text}</TIMEX3>" if text else f"{tag}/>", place)


def links_of(chance: random.Random, name: str, places: dict[str, Stretch]) -> list[str]:
    """Some links between an interval and others, mostly near ones, which hold as they are placed. Some intervals have none."""
    near = sorted((one for one in places if one != name), key=lambda one: abs(places[one][0] - places[name][0]))[:8]
    links = []
    for other in chance.sample(near, min(len(near), chance.choice((0, 1, 1, 2)))):
        fitting = [relation for relation in RELATIONS if holds(places[name], relation.encode(), places[other])]
        left = "timeID" if name[0] == "t" else "eventInstanceID"
        right = "relatedToTime" if other[0] == "t" else "relatedToEventInstance"
        links += [f'<TLINK {left}="{name}" {right}="{other}" relType="{chance.choice(fitting)}"/>\n'] if fitting else []
    return links


def labels_of(content: str) -> dict[str, str]:
    """The texts of the intervals of a document, or of times without any their values."""
    events = dict(re.findall(r'<EVENT eid="(\w+)" [^>]*>(.*?)</EVENT>', content, re.DOTALL))
    found = {name: events[event] for name, event in re.findall(r'<MAKEINSTANCE eiid="(\w+)" eventID="(\w+)"', content)}
    times = re.findall(r'<TIMEX3 tid="(\w+)" [^>]*?value="([^"]*)"[^>]*?(?:/>|(?<!/)>(.*?)</TIMEX3>)', content)
    found |= {name: text or value for name, value, text in times}
    return {name: unescape(text) for name, text in found.items()}
