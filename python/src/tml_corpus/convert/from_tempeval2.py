"""Makes TimeML documents out of the tables of a folder in the form of TempEval-2.

The tables have a line for each token or value, with tabs between the columns:

  base-segmentation.tab   document, sentence, token number, token
  event-extents.tab       document, sentence, token number, "event", event, instance
  event-attributes.tab    document, sentence, token number, "event", event, instance, attribute, value
  timex-extents.tab       document, sentence, token number, "timex3", time, instance
  timex-attributes.tab    document, sentence, token number, "timex3", time, instance, attribute, value
  dct.txt                 document, date of creation, as 1998-01-08 or 19980108
  tlinks-*.tab            document, event or time, event or time, relation

Only the first file is required; all have to be regular files, of at most 16 MiB together. Each document is written to
OUT/DOCUMENT.xml, over a file of that name. So the name of a document has to be one for a file, and no two may differ only in the
case of letters.

Example: tools/from-tempeval2 english/data timeml

Status 0 says that all was written, 1 that a table has another form, with its file, line and column on standard
error, and 2 that the words are of no known form or that a file could not be read or written.
"""

from __future__ import annotations

import glob
import os
import re
import unicodedata
from collections import defaultdict
from collections.abc import Iterable, Iterator, Sequence
from dataclasses import dataclass, field
from functools import partial
from xml.sax.saxutils import escape, quoteattr

from tml.attempts import attempted

from ..command_line.output import ProgramParser, RawFormatter, complain, run
from ..command_line.statuses import Status
from ..files.replacing import make_folder, replace_file
from .tables import BadTable, Word, at_least, rows

EVENT_ATTRIBUTES = ("class",)
INSTANCE_ATTRIBUTES = ("tense", "aspect", "pos", "polarity", "modality", "cardinality")
NAME = re.compile(r"[A-Za-z_][A-Za-z0-9_.-]*")
LONGEST_NAME = 200

BASE = "base-segmentation.tab"
OTHERS = ("event-extents.tab", "event-attributes.tab", "timex-extents.tab", "timex-attributes.tab", "dct.txt")

MOST_BYTES = 16 * 1024 * 1024
"""How many bytes all tables have together at most. What is known of a token takes up to some twenty times as much as its line."""


@dataclass
class Tag:
    """An event or a time: where its tokens are, and its attributes."""

    kind: str
    name: str
    word: Word
    tokens: list[tuple[int, int]] = field(default_factory=list)
    attributes: dict[str, str] = field(default_factory=dict)

    def opening(self) -> str:
        """The start tag."""
        if self.kind == "event":
            return f"<EVENT{in_tag({'eid': self.name, **self.chosen(EVENT_ATTRIBUTES)})}>"
        return f"<TIMEX3{in_tag({'tid': self.name, **self.attributes})}>"

    def closing(self) -> str:
        """The end tag."""
        return "</EVENT>" if self.kind == "event" else "</TIMEX3>"

    def chosen(self, names: tuple[str, ...]) -> dict[str, str]:
        """Some of the attributes."""
        return {name: self.attributes[name] for name in names if name in self.attributes}


@dataclass
class Source:
    """What the tables have of one document."""

    tokens: dict[tuple[int, int], str] = field(default_factory=dict)
    tags: dict[str, Tag] = field(default_factory=dict)
    created: str | None = None
    links: list[tuple[str, str, str]] = field(default_factory=list)

    def text(self) -> str:
        """The document in TimeML."""
        lines = ['<?xml version="1.0" encoding="UTF-8"?>', "<TimeML>"]
        if self.created is not None:
            words = {"tid": "t0", "type": "DATE", "value": self.created, "functionInDocument": "CREATION_TIME"}
            lines.append(f"<DCT><TIMEX3{in_tag(words)}>{escape(self.created)}</TIMEX3></DCT>")
        lines += ["<TEXT>", *self.sentences(), "</TEXT>"]
        events = [tag for tag in self.tags.values() if tag.kind == "event"]
        for event in events:
            words = {"eiid": "i." + event.name, "eventID": event.name, **event.chosen(INSTANCE_ATTRIBUTES)}
            lines.append(f"<MAKEINSTANCE{in_tag(words)}/>")
        names = {event.name for event in events}
        for left, right, relation in self.links:
            words = {"eventInstanceID": "i." + left} if left in names else {"timeID": left}
            words |= {"relatedToEventInstance": "i." + right} if right in names else {"relatedToTime": right}
            lines.append(f"<TLINK{in_tag({**words, 'relType': relation})}/>")
        return "\n".join([*lines, "</TimeML>", ""])

    def sentences(self) -> Iterator[str]:
        """The sentences, each on a line, with a space between tokens and the tags around theirs."""
        before, after = self.tag_places()
        words: list[str] = []
        last = None
        for place in sorted(self.tokens):
            if last is not None and place[0] != last:
                yield " ".join(words)
                words = []
            last = place[0]
            words.append("".join(before.get(place, ())) + escape(self.tokens[place]) + "".join(reversed(after.get(place, ()))))
        if words:
            yield " ".join(words)

    def tag_places(self) -> tuple[dict[tuple[int, int], list[str]], dict[tuple[int, int], list[str]]]:
        """The tags that begin before each token and end after it. Of two tags one lies within the other, or they are apart."""
        before: dict[tuple[int, int], list[str]] = defaultdict(list)
        after: dict[tuple[int, int], list[str]] = defaultdict(list)
        inside: list[Tag] = []
        for tag in sorted(self.tags.values(), key=lambda tag: (tag.tokens[0], -len(tag.tokens))):
            first, end = tag.tokens[0], tag.tokens[-1]
            if tag.tokens != [(first[0], first[1] + step) for step in range(len(tag.tokens))]:
                raise tag.word.wrong(f"the tokens of {tag.name} do not follow each other")
            while inside and inside[-1].tokens[-1] < first:
                inside.pop()
            if inside and inside[-1].tokens[-1] < end:
                raise tag.word.wrong(f"the tokens of {tag.name} lie partly within those of {inside[-1].name}")
            inside.append(tag)
            before[first].append(tag.opening())
            after[end].append(tag.closing())
        return before, after


def in_tag(attributes: dict[str, str]) -> str:
    """Attributes as a tag has them."""
    return "".join(f" {name}={quoteattr(value)}" for name, value in attributes.items())


def table(folder: str, name: str, columns: int, what: str) -> Iterator[list[Word]]:
    """The lines of a table, which have so many columns at least; nothing where it is not there."""
    path = os.path.join(folder, name)
    return (at_least(words, columns, what) for words in rows(path)) if os.path.lexists(path) else iter(())


def read_tables(folder: str) -> dict[str, Source]:
    """All documents of the tables."""
    if not os.path.lexists(os.path.join(folder, BASE)):
        raise BadTable(f"{os.path.join(folder, BASE)} is not there")
    links = sorted(glob.glob(os.path.join(glob.escape(folder), "tlinks-*.tab")))
    check_size(folder, [*(os.path.join(folder, name) for name in (BASE, *OTHERS)), *links])
    sources: dict[str, Source] = {}
    names: dict[str, str] = {}
    for name, sentence, number, token, *_ in table(folder, BASE, 4, "document, sentence, token number, token"):
        if name.text not in sources:
            check_name(name, names)
            sources[name.text] = Source()
        sources[name.text].tokens[sentence.number(), number.number()] = token.text
    for kind in ("event", "timex"):
        read_extents(sources, folder, kind)
        read_attributes(sources, folder, kind)
    for name, created, *_ in table(folder, "dct.txt", 2, "document, date of creation"):
        source_of(sources, name).created = re.sub(r"^(\d{4})(\d\d)(\d\d)$", r"\1-\2-\3", created.text)
    for path in links:
        for name, left, right, relation, *_ in table(folder, os.path.basename(path), 4, "document, event or time, event or time, relation"):
            source_of(sources, name).links.append((left.text, right.text, relation.text))
    return sources


def check_size(folder: str, paths: Iterable[str]) -> None:
    """Sees that the tables which are there have no more bytes than they may have."""
    if sum(os.path.getsize(path) for path in paths if os.path.isfile(path)) > MOST_BYTES:
        raise BadTable(f"{folder}: the tables have more than {MOST_BYTES:,} bytes")


def check_name(name: Word, names: dict[str, str]) -> None:
    """Sees that a document can have a file of its name, and that no system takes it for the name of another document."""
    text = name.text
    if os.path.basename(text) != text or text in ("", ".", "..") or not text.isprintable() or len(text.encode()) > LONGEST_NAME:
        raise name.wrong(f"{text[:40]!r} is not a name for a file")
    other = names.setdefault(unicodedata.normalize("NFC", text.casefold()), text)
    if other != text:
        raise name.wrong(f"{text[:40]!r} and {other[:40]!r} differ only in the case of letters")


def source_of(sources: dict[str, Source], name: Word) -> Source:
    """The document of a name, which has to have tokens."""
    if name.text not in sources:
        raise name.wrong(f"{name.text[:40]!r} is not a document of base-segmentation.tab")
    return sources[name.text]


def read_extents(sources: dict[str, Source], folder: str, kind: str) -> None:
    """The tokens of the events or of the times."""
    for name, sentence, number, _, tag, *_ in table(folder, f"{kind}-extents.tab", 5, "document, sentence, token number, kind, name"):
        source, place = source_of(sources, name), (sentence.number(), number.number())
        if place not in source.tokens:
            raise number.wrong(f"{tag.text} is at a token that is not there: sentence {sentence.text}, token {number.text}")
        source.tags.setdefault(tag.text, Tag(kind, tag.text, tag)).tokens.append(place)


def read_attributes(sources: dict[str, Source], folder: str, kind: str) -> None:
    """The attributes of the events or of the times."""
    what = "document, sentence, token number, kind, name, instance, attribute, value"
    for name, _, _, _, tag, _, attribute, value, *_ in table(folder, f"{kind}-attributes.tab", 8, what):
        source = source_of(sources, name)
        if tag.text not in source.tags:
            raise tag.wrong(f"{tag.text} has attributes and no extent")
        if not NAME.fullmatch(attribute.text):
            raise attribute.wrong(f"{attribute.text[:40]!r} is not a name of an attribute")
        source.tags[tag.text].attributes[attribute.text] = value.text


def convert(words: list[str]) -> int:
    """Writes the documents and answers the status."""
    parser = ProgramParser(description=__doc__, formatter_class=RawFormatter)
    parser.add_argument("tables", metavar="FOLDER", help="the folder with the tables")
    parser.add_argument("out", metavar="OUT", help="the folder for the documents, which is made if it is not there")
    options = parser.parse_args(words)
    try:
        sources = sorted(read_tables(options.tables).items())
    except BadTable as problem:
        return complain(str(problem), Status.FINDING)
    make_folder(options.out)
    return max((attempted(partial(write, options.out), one, not_written) for one in sources), default=Status.SUCCESS)


def write(folder: str, one: tuple[str, Source]) -> Status:
    """Writes a document, by its name and what the tables have of it."""
    name, source = one
    try:
        text = source.text()
    except BadTable as problem:
        complain(str(problem))
        return Status.FINDING
    replace_file(os.path.join(folder, f"{name}.xml"), text.encode("utf-8"))
    return Status.SUCCESS


def not_written(one: tuple[str, Source], problem: str) -> Status:
    """Says what went wrong with a document."""
    complain(f"{one[0]}: not written: {problem}")
    return Status.TROUBLE


def main(words: Sequence[str] | None = None) -> int:
    """Runs the program and answers its status."""
    return run(convert, words)
