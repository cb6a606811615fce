"""Slips of annotators, made in clean documents: each kind takes a `Random` and a document, and answers it with one slip, or None."""

from __future__ import annotations

import re
from collections.abc import Callable
from random import Random

Slip = Callable[[Random, str], "str | bytes | None"]

LISTED = ("class", "tense", "pos", "polarity", "type", "relType", "functionInDocument")
REFERENCES = (
    "eventID", "eventInstanceID", "relatedToEventInstance", "timeID", "relatedToTime", "signalID", "anchorTimeID",
    "subordinatedEventInstance",
)  # fmt: skip
MARKED = "EVENT|TIMEX3|SIGNAL"
OF_ANOTHER_SCHEME = {
    "SIMULTANEOUS": "EQUAL",
    "INCLUDES": "CONTAINS",
    "IBEFORE": "MEETS",
    "IAFTER": "MET_BY",
    "BEGINS": "STARTS",
    "IS_INCLUDED": "INCLUDED",
}
"""What relations are called elsewhere."""
LINKS = "TLINK|ALINK|SLINK|MAKEINSTANCE"


def one(random: Random, pattern: str, text: str) -> re.Match[str] | None:
    """One of the places where a pattern matches."""
    found = list(re.finditer(pattern, text, re.MULTILINE))
    return random.choice(found) if found else None


def put(text: str, found: re.Match[str] | None, new: Callable[[re.Match[str]], str | None]) -> str | None:
    """The text with something else in the place of a match."""
    words = new(found) if found is not None else None
    return None if found is None or words is None else text[: found.start()] + words + text[found.end() :]


def replaced(pattern: str, new: Callable[[re.Match[str]], str | None] | str) -> Slip:
    """Something else in the place of one match."""
    made = template_of(new) if isinstance(new, str) else new
    return lambda random, text: put(text, one(random, pattern, text), made)


def template_of(text: str) -> Callable[[re.Match[str]], str | None]:
    """What puts the groups of a match into a template."""
    return lambda found: found.expand(text)


def mistyped(random: Random, word: str) -> str:
    """A word with one slip of a finger."""
    at = random.randrange(len(word))
    letter = random.choice("abcdefghijklmnopqrstuvwxyz")
    letter = letter.upper() if word.isupper() else letter
    return random.choice(
        (
            word[:at] + word[at + 1 :],
            word[:at] + word[at] + word[at:],
            word[:at] + letter + word[at + 1 :],
            word[:at] + word[at : at + 2][::-1] + word[at + 2 :],
        )
    )


def typing(pattern: str) -> Slip:
    """A slip of a finger in the first group of one match."""

    def slip(random: Random, text: str) -> str | None:
        found = one(random, pattern, text)
        if found is None:
            return None
        return text[: found.start(1)] + mistyped(random, found[1]) + text[found.end(1) :]

    return slip


def other_value(random: Random, text: str, name: str, value: str) -> str | None:
    """Another value of an attribute of this name in the document."""
    others = sorted({found[1] for found in re.finditer(rf'\b{name}="([^"]*)"', text)} - {value})
    return random.choice(others) if others else None


def pasted_identifier(random: Random, text: str) -> str | None:
    """An identifier has the value of another one of its kind."""
    found = one(random, r'\b(eid|eiid|tid|sid|lid)="([^"]*)"', text)
    other = other_value(random, text, found[1], found[2]) if found else None
    return None if other is None else put(text, found, lambda found: f'{found[1]}="{other}"')


def twice_in_one(random: Random, text: str) -> str | None:
    """An attribute has two identifiers."""
    found = one(random, rf'\b({"|".join(REFERENCES)}|eid|eiid|tid)="([^"]*)"', text)
    other = other_value(random, text, found[1], found[2]) if found else None
    if found is None or other is None:
        return None
    both = random.sample((found[2], random.choice((other, found[2] + "0"))), 2)
    return put(text, found, lambda found: f'{found[1]}="{" ".join(both)}"')


def attribute_twice(random: Random, text: str) -> str | None:
    """An attribute stands twice, with one value or two."""
    found = one(random, r' (\w+)="([^"]*)"(?=[^<>]*>)', text)
    other = random.choice((found[2], other_value(random, text, found[1], found[2]) or found[2])) if found else ""
    return put(text, found, lambda found: "".join(random.sample((found[0], f' {found[1]}="{other}"'), 2)))


def in_itself(random: Random, text: str) -> str | None:
    """A tag of the text is pasted into itself."""
    found = one(random, rf"<({MARKED}) [^<>]*>(.*?)</\1>", text)
    return put(text, found, lambda found: found[0].replace(f">{found[2]}<", f">{found[0]}<"))


def in_another(random: Random, text: str) -> str | None:
    """The end tag of a tag of the text is put behind the next one."""
    found = one(random, r"<(EVENT|TIMEX3) [^<>]*>[^<>]*(</\1>)[^<>]*<(EVENT|TIMEX3) [^<>]*>[^<>]*</\3>", text)

    def moved(found: re.Match[str]) -> str:
        start, end = (place - found.start() for place in found.span(2))
        return found[0][:start] + found[0][end:] + found[2]

    return put(text, found, moved)


def cut_off(random: Random, text: str) -> str:
    """The end of the file is lost."""
    return text[: random.randrange(len(text) // 3, len(text.rstrip()))]


def cut_after_line(random: Random, text: str) -> str:
    """The last lines of the file are lost."""
    lines = text.splitlines(keepends=True)
    return "".join(lines[: random.randrange(4, len(lines))])


def two_documents(random: Random, text: str) -> str:
    """A second document stands after the first one."""
    from stories import Story

    between = random.choice(("", "\n", "<!-- next -->\n", "\ufeff"))
    return text + between + Story(random).document()


def run_together(random: Random, text: str) -> str:
    """The same, and the end of the first one is lost."""
    return two_documents(random, text.replace("</TimeML>\n", ""))


def both_versions(random: Random, text: str) -> str:
    """A merge that was not finished: two versions of a line with the marks of version control."""
    lines = text.splitlines(keepends=True)
    at = random.randrange(len(lines))
    other = re.sub(
        r"PAST|BEFORE|POS|1998", lambda found: {"PAST": "PRESENT", "BEFORE": "AFTER", "POS": "NEG", "1998": "1997"}[found[0]], lines[at]
    )
    marked = ["<<<<<<< HEAD\n", lines[at], "=======\n", other, ">>>>>>> branch\n"]
    keep = random.choice((marked, marked[1:], marked[:3] + marked[4:], marked[2:]))
    return "".join(lines[:at] + keep + lines[at + 1 :])


def line_twice(random: Random, text: str) -> str | None:
    """A line of an instance or a link is pasted twice."""
    return put(text, one(random, rf"^<({LINKS}) .*\n", text), lambda found: found[0] * 2)


def other_date(write: Callable[[int, int, int], str]) -> Slip:
    """A day is written in another way."""
    return replaced(r'value="(\d{4})-(\d\d)-(\d\d)"', lambda found: f'value="{write(*map(int, found.groups()))}"')


def moved_day(random: Random, text: str) -> str | None:
    """The value of a weekday is some days off."""
    from datetime import date, timedelta

    found = one(random, r'value="(1998-\d\d-\d\d)"([^<>]*)>(?=\w+day)', text)
    days = timedelta(random.choice((-3, -2, -1, 1, 2, 3)))
    return put(text, found, lambda found: f'value="{date.fromisoformat(found[1]) + days}"{found[2]}>')


def crossed(random: Random, text: str) -> str | None:
    """Two end tags are exchanged: a tag of the text ends after the paragraph."""
    return put(text, one(random, rf"(</(?:{MARKED})>)(\.?)(</P>)", text), lambda found: found[3] + found[2] + found[1])


def wrong_end(random: Random, text: str) -> str | None:
    """An end tag has the name of another kind."""
    found = one(random, rf"</({MARKED})>", text)
    other = random.choice([name for name in MARKED.split("|") if found is None or name != found[1]])
    return put(text, found, lambda found: f"</{other}>")


def lost_tags(random: Random, text: str) -> str | None:
    """The tags around some words are gone, and the words are there."""
    return put(text, one(random, rf"<({MARKED}) [^<>]*>([^<>]*)</\1>", text), lambda found: found[2])


def to_itself(random: Random, text: str) -> str | None:
    """A link is from an interval to itself."""
    pattern = r'(eventInstanceID="([^"]*)".*?(?:relatedTo|subordinated)Event(?:Instance)?=")[^"]*"'
    return put(text, one(random, pattern, text), lambda found: f'{found[1]}{found[2]}"')


def opposed(random: Random, text: str) -> str | None:
    """An instance of an event is pasted with another name, and a link of it is written the other way round for that."""
    links = [
        link for link in re.finditer(r'^<TLINK [^<>]*?eventInstanceID="([^"]*)"[^<>]*relType="(BEFORE|AFTER)"/>\n', text, re.MULTILINE)
    ]
    link = random.choice(links) if links else None
    instance = re.search(rf'^<MAKEINSTANCE eiid="{link[1]}".*\n', text, re.MULTILINE) if link else None
    if link is None or instance is None:
        return None
    other = link[0].replace(f'"{link[1]}"', '"ei900"', 1).replace(link[2], {"BEFORE": "AFTER", "AFTER": "BEFORE"}[link[2]])
    other = re.sub(' lid="[^"]*"', ' lid="l900"', other)
    text = text[: link.end()] + other + text[link.end() :]
    return text[: instance.end()] + instance[0].replace(f'"{link[1]}"', '"ei900"') + text[instance.end() :]


def invisible(pattern: str) -> Slip:
    """A letter that nobody sees at the place where a pattern matches."""
    return lambda random, text: put(
        text, one(random, pattern, text), lambda found: found[0] + random.choice("\u00a0\u200b\u2060\ufeff\u00ad")
    )


TAG_OF_TEXT = rf"<(?:{MARKED}) "

GROUPS: dict[str, dict[str, Slip]] = {
    "start and end tags lost": {
        "end tag lost": replaced(rf"</({MARKED})>", ""),
        "end tag of a wrapper lost": replaced(r"</(P|TEXT|DCT)>", ""),
        "end tag of the root lost": replaced(r"</TimeML>", ""),
        "start tag lost": replaced(rf"{TAG_OF_TEXT}[^<>]*>", ""),
        "start tag of a wrapper lost": replaced(r"<(P|TEXT|DCT|TimeML)>", ""),
    },
    "signs of a tag lost or too many": {
        "< lost": replaced(rf"<(?=/?(?:{MARKED}|{LINKS}))", ""),
        "> lost": replaced(r"(?<=[\"TL3])>", ""),
        "/ of an empty tag lost": replaced(r"/>", ">"),
        "/ of an end tag lost": replaced(rf"</(?={MARKED})", "<"),
        "> of an empty tag lost": replaced(r"/>", "/"),
        "/> lost": replaced(r"/>", ""),
        "< twice": replaced(r"<(?=\w)", "<<"),
        "space after <": replaced(r"<(?=\w)", "< "),
        "name of a tag lost": replaced(rf"<(?:{MARKED}|{LINKS})", "<"),
    },
    "quotes, and what is between attributes": {
        "opening quote lost": replaced(r'="', "="),
        "closing quote lost": replaced(r'="([^"]*)"', r'="\1'),
        "both quotes lost": replaced(r'="([^"]*)"', r"=\1"),
        "one quote too many": replaced(r'="([^"]*)"', r'="\1""'),
        "curly quotes": replaced(r'="([^"]*)"', "=\u201c\\1\u201d"),
        "space between attributes lost": replaced(r'(?<=")( )(?=\w)', ""),
        "comma between attributes": replaced(r'(?<=")( )(?=\w)', ", "),
        "equals lost": replaced(r'(?<=\w)=(?=")', ""),
    },
    "names of tags and attributes": {
        "name of a start tag mistyped": typing(rf"<({MARKED}|{LINKS}|TEXT|DCT)\b"),
        "name of an end tag mistyped": typing(rf"</({MARKED}|TEXT|TimeML)>"),
        "name of a tag in small letters": replaced(rf"<({MARKED}|{LINKS})\b", lambda found: found[0].lower()),
        "name of an attribute mistyped": typing(r' (\w+)="[^"]*"(?=[^<>]*>)'),
        "name of an attribute in capitals": replaced(r' (\w+)="', lambda found: found[0].upper()),
    },
    "values of a list": {
        "value of a list mistyped": typing(rf'\b(?:{"|".join(LISTED)})="(\w+)"'),
        "value of a list in small letters": replaced(
            rf'\b(?:{"|".join(LISTED)})="\w+"', lambda found: found[0].split("=")[0] + "=" + found[0].split("=")[1].lower()
        ),
        "relation of another scheme": replaced(
            rf'relType="({"|".join(OF_ANOTHER_SCHEME)})"',
            lambda found: f'relType="{OF_ANOTHER_SCHEME[found[1]]}"',
        ),
    },
    "identifiers mistyped or pasted": {
        "reference mistyped": typing(rf'\b(?:{"|".join(REFERENCES)})="([^"]*)"'),
        "identifier mistyped": typing(r'\b(?:eid|eiid|tid|sid|lid)="([^"]*)"'),
        "letter for a digit in a reference": replaced(
            rf'\b({"|".join(REFERENCES)})="([a-z]+)([01]\d*)"',
            lambda found: f'{found[1]}="{found[2]}{found[3].replace("0", "O").replace("1", "l")}"',
        ),
        "identifier pasted": pasted_identifier,
        "two identifiers in one attribute": twice_in_one,
    },
    "attributes twice, lost or empty": {
        "attribute twice": attribute_twice,
        "attribute lost": replaced(r' \w+="[^"]*"(?=[^<>]*>)', ""),
        "attribute emptied": replaced(r' (\w+)="[^"]*"(?=[^<>]*>)', r' \1=""'),
    },
    "lines and tags pasted": {
        "line pasted twice": line_twice,
        "tag pasted into itself": in_itself,
        "tag pasted again": replaced(rf"<({MARKED}) [^<>]*>[^<>]*</\1>", lambda found: found[0] * 2),
        "tag around another": in_another,
    },
    "instances, links and tags of the text lost": {
        "instance lost": replaced(r"^<MAKEINSTANCE .*\n", ""),
        "link lost": replaced(r"^<TLINK .*\n", ""),
        "tags lost": lost_tags,
    },
    "dates, times and durations in another form": {
        "day first": other_date(lambda year, month, day: f"{day:02}/{month:02}/{year}"),
        "month first": other_date(lambda year, month, day: f"{month:02}/{day:02}/{year}"),
        "slashes": other_date(lambda year, month, day: f"{year}/{month:02}/{day:02}"),
        "no leading zeros": other_date(lambda year, month, day: f"{year}-{month}-{day}"),
        "no hyphens": other_date(lambda year, month, day: f"{year}{month:02}{day:02}"),
        "O for 0 in a date": other_date(lambda year, month, day: f"{year}-{month:02}-{day:02}".replace("0", "O", 1)),
        "l for 1 in a date": other_date(lambda year, month, day: f"{year}-{month:02}-{day:02}".replace("1", "l", 1)),
        "quarter before its year": replaced(r'value="(\d{4})-(Q\d)"', r'value="\2-\1"'),
        "hour of one digit": replaced(r'value="(\d{4}-\d\d-\d\d)T0(\d):', r'value="\1T\2:'),
        "zone by its name": replaced(r'value="([^"]*T\d\d:\d\d)"', r'value="\1 EST"'),
        "space for T": replaced(r'value="([^"]*)T(\d\d:\d\d)"', r'value="\1 \2"'),
        "P lost": replaced(r'value="P(\dD)"', r'value="\1"'),
    },
    "dates that are other ones": {
        "month and day exchanged": other_date(lambda year, month, day: f"{year}-{day:02}-{month:02}"),
        "some days off": moved_day,
        "another month": replaced(r'value="1998-(\d\d)">(?=[A-Z])', lambda found: f'value="1998-{int(found[1]) % 12 + 1:02}">'),
        "another year": replaced(r'value="1998-(\d\d-\d\d)"(?! func)', r'value="1898-\1"'),
        "date for a duration": replaced(r'type="DURATION"', 'type="DATE"'),
    },
    "files cut off": {
        "file cut off": cut_off,
        "lines cut off": cut_after_line,
    },
    "two documents or versions in one file": {
        "second document": two_documents,
        "second document in the first": run_together,
        "two versions": both_versions,
    },
    "encodings and invisible characters": {
        "Latin-1": lambda random, text: text.encode("latin-1") if not text.isascii() else None,
        "UTF-16": lambda random, text: text.encode("utf-16"),
        "one byte of Latin-1": lambda random, text: text.encode().replace("é".encode(), b"\xe9", 1) if "é" in text else None,
        "byte order mark twice": lambda random, text: "\ufeff\ufeff" + text,
        "invisible letter in an identifier": invisible(r'\b(?:eid|eiid|tid|eventID|relatedToTime)="\w+'),
        "invisible letter in a value": invisible(r'\b(?:value|relType|tense)="[\w-]+'),
        "invisible letter after a name": invisible(rf"<(?:{MARKED}|{LINKS})(?= )"),
        "invisible letter between attributes": invisible(r'(?<=")(?= \w+=)'),
        "invisible letter between links": invisible(r"/>$"),
    },
    "& and < in the text, entities, CDATA": {
        "& in the text": replaced(r"&amp;", "&"),
        "half a reference": replaced(r"&amp;", "&amp"),
        "HTML entity": replaced(r"é", "&eacute;"),
        "< in the text": replaced(r"&lt;", "<"),
        "CDATA": replaced(r"AT&amp;T", "<![CDATA[AT&T]]>"),
    },
    "end tags crossed, of another kind, or twice": {
        "end tags crossed": crossed,
        "end tag of another kind": wrong_end,
        "end tag twice": replaced(r"</\w+>", lambda found: found[0] * 2),
    },
    "what stands outside of the root": {
        "start tag of the root twice": replaced(r"<TimeML>\n", "<TimeML>\n<TimeML>\n"),
        "end tag of the root early": lambda random, text: put(
            text.replace("</TimeML>\n", ""), one(random, r"^<TLINK .*\n", text), lambda found: "</TimeML>\n" + found[0]
        ),
        "text after the root": lambda random, text: text + "The end.\n",
        "text before the root": lambda random, text: "From: desk\n" + text,
        "empty line before the prolog": lambda random, text: "\n" + text if text.startswith("<?xml") else None,
        "comment before the prolog": lambda random, text: "<!-- a story -->\n" + text if text.startswith("<?xml") else None,
    },
    "references to what is of another kind": {
        "event for its instance": replaced(r'\b(eventInstanceID|relatedToEventInstance)="ei(\d+)b?"', r'\1="e\2"'),
        "instance for its event": replaced(r'\beventID="e(\d+)"', r'eventID="ei\1"'),
        "attribute of the other kind": replaced(r'relatedToTime="', 'relatedToEventInstance="'),
        "both ends of one side": replaced(r'relatedToTime="(t\d+)"', r'relatedToEventInstance="ei1" relatedToTime="\1"'),
    },
    "links and creation times that contradict": {
        "link to itself": to_itself,
        "instances opposed": opposed,
        "two creation times": replaced(r'value="1998-\d\d-\d\d"(?=>)', r'\g<0> functionInDocument="CREATION_TIME"'),
        "creation time lost": replaced(r' functionInDocument="CREATION_TIME"', ""),
    },
}  # fmt: skip
"""The kinds of slips by their names, in groups."""

SLIPS = {name: slip for kinds in GROUPS.values() for name, slip in kinds.items()}
"""All kinds of slips."""
