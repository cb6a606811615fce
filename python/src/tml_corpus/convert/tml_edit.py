"""Changes tags, attributes and links of documents, so that `tml` reads them. All other bytes stay as they are.

The changes are made in the order of the options below, whatever their order on the command line: --rename, --unwrap,
--value, --iso, --instances, --links, --drop-links, --overlaps, --touching-dates. The changed document goes to standard
output; of a folder or several files the changes are printed, and --write overwrites the files with the changed documents.
Whether they are accepted is for `tml check` to say. --touching-dates needs a document that is accepted by then,
and lists what it changes on standard error.

Examples:
  tools/tml-edit --unwrap FILEID,DATELINE --rename HL=HEADLINE old.tml > new.tml
  tools/tml-edit --value MAKEINSTANCE pos NONE OTHER --drop-links VAGUE,NONE old.tml > new.tml
  tools/tml-edit --touching-dates old.tml > new.tml
  tools/tml-edit --unwrap FILEID --write corpus

Status 0 says that the document was written, or that no file is left to change; 1 that a document cannot be changed, with
the reason on standard error, or that files would be changed by --write; and 2 that the words are of no known form or that a
file or `tml` could not be run or read.
"""

from __future__ import annotations

import argparse
import os
import re
import sys
from collections.abc import Callable, Iterable, Sequence
from functools import partial
from itertools import count

from tml.attempts import attempted
from tml.explaining.faults import BAD_MARKUP, read_fault
from tml.places import Places
from tml.running import Expected
from tml.statuses import TmlStatus
from tml.tags.cutting import units_of_whole
from tml.tags.edits import Edit, applied, applied_in_order, with_spaces_before, with_value
from tml.tags.profile import IDENTIFIERS
from tml.tags.units import Attribute, Unit, Units

from ..asking.pool import Interruption
from ..asking.program import ACCEPTED, DOCUMENT_LIMIT, FAULT, MEANINGS, CannotRun, Program
from ..clash.touching import Change, asks, touching_changes, with_changes
from ..command_line.main import Words, prepared, settings_of
from ..command_line.output import ProgramParser, RawFormatter, complain, run, standard_input
from ..command_line.parser import glob_words, shared_words
from ..command_line.run import Run
from ..command_line.statuses import Status
from ..document.words import Wording
from ..files.finding import Found, counted, read_document, shown
from ..files.standard_input import STANDARD_INPUT
from .tables import BadTable, Word, rows

LINK_TAGS = ("TLINK", "ALINK", "SLINK")
TO_INSTANCES = {"eventID": "eventInstanceID"} | {
    f"{name}{end}": f"{name}Instance" for name in ("relatedToEvent", "subordinatedEvent") for end in ("", "ID")
}
REFERENCES = ("signalID", "anchorTimeID", "beginPoint", "endPoint", "timeID", "relatedToTime", *TO_INSTANCES, *TO_INSTANCES.values())
OF_INSTANCES = ("tense", "aspect", "pos", "polarity", "modality", "cardinality", "signalID")
OVERLAPS = ("OVERLAP", "BEFORE-OR-OVERLAP", "OVERLAP-OR-AFTER")
IDENTIFIER = re.compile(r"[A-Za-z0-9_.-]{1,64}")
LETTERS = {"b": "BEFORE", "a": "AFTER", "i": "INCLUDES", "ii": "IS_INCLUDED", "s": "SIMULTANEOUS", "v": "VAGUE"}


class CannotEdit(Expected):
    """The document is not one that this program can change."""


class Document:
    """A document and its units. After each change `tml check` is asked whether it can be cut into units, and what else is at fault."""

    def __init__(self, program: Program, text: bytes) -> None:
        self.program, self.text = program, text
        self.cut()

    def cut(self) -> None:
        """Cuts the document into units, whatever fault its tags have."""
        self.reply = self.program.check(self.text)
        fault = read_fault(self.reply.text) if self.reply.status == FAULT else None
        if fault is None or fault.number <= BAD_MARKUP:
            self.without_fault()
        self.units = units_of_whole(self.program, self.text)
        self.ends: dict[int, int] | None = None

    def without_fault(self) -> None:
        """Refuses to go on where the document has a fault."""
        fault = read_fault(self.reply.text) if self.reply.status == FAULT else None
        if fault is not None:
            place = Places(self.text).place(fault.offset)
            raise CannotEdit(f"fault {fault.title()} at {place.line}:{place.column}: mend it first")
        if self.reply.status != ACCEPTED:
            raise CannotEdit(self.reply.problem())

    def change(self, edits: Iterable[Edit]) -> None:
        """Makes some edits."""
        self.put(applied(self.text, edits))

    def put(self, text: bytes) -> None:
        """Puts another text in the place of the document, if it is another one. The units of the old one are let go first."""
        if text != self.text:
            self.text, self.units = text, Units()
            self.cut()

    def opening(self, *names: str) -> list[Unit]:
        """The start and empty tags of these names."""
        return self.units.opening(*names)

    def value(self, unit: Unit, name: str) -> str:
        """The value of an attribute, or nothing."""
        return unit.value_of(name, self.text) or ""

    def written(self, attribute: Attribute) -> str:
        """An attribute as it is written."""
        return self.text[attribute.start : attribute.end].decode("utf-8", "surrogateescape")

    def identifiers(self) -> set[str]:
        """The values of all attributes that identify a tag."""
        return {self.value(unit, IDENTIFIERS[unit.name]) for unit in self.opening(*IDENTIFIERS)}

    def fresh(self, wanted: str, taken: set[str]) -> str:
        """An identifier that is not taken; it is taken from now on."""
        name, number = wanted, 1
        while name in taken:
            number += 1
            name = f"{wanted}.{number}"
        taken.add(name)
        return name

    def instances(self) -> dict[str, str]:
        """The first instance of each event."""
        found: dict[str, str] = {}
        for unit in self.opening("MAKEINSTANCE"):
            found.setdefault(self.value(unit, "eventID"), self.value(unit, "eiid"))
        return found

    def before_the_end(self, tags: list[str]) -> list[Edit]:
        """Puts tags on lines of their own before the end of the root."""
        ends = [unit for unit in self.units.named("TimeML") if unit.kind == "end"]
        if not ends:
            raise CannotEdit("there is no </TimeML>")
        text = "".join(tag + "\n" for tag in tags)
        return [Edit(ends[-1].start, ends[-1].start, text.encode("utf-8", "surrogateescape"))] if tags else []

    def whole(self, unit: Unit, text: str = "") -> Edit:
        """Puts a text in place of an empty tag, or of a start tag up to its end tag."""
        self.ends = self.units.end_tags() if self.ends is None else self.ends
        if unit.kind == "start" and unit.start not in self.ends:
            place = Places(self.text).place(unit.start)
            raise CannotEdit(f"<{unit.name}> at {place.line}:{place.column} is never closed")
        end = self.units[self.ends[unit.start]] if unit.kind == "start" else unit
        return Edit(unit.start, end.end, text.encode("utf-8", "surrogateescape"))


def rename_tags(document: Document, old: str, new: str) -> None:
    """Gives tags another name."""
    size = len(old.encode("utf-8", "surrogateescape"))
    starts = (unit.start + (2 if unit.kind == "end" else 1) for unit in document.units.named(old))
    document.put(applied_in_order(document.text, (Edit(start, start + size, new.encode()) for start in starts)))


def unwrap(document: Document, names: set[str]) -> None:
    """Takes tags out and leaves what they hold."""
    document.put(applied_in_order(document.text, (Edit(unit.start, unit.end, b"") for unit in document.units.named(*names))))


def change_values(document: Document, tag: str, name: str, old: str, new: str) -> None:
    """Gives an attribute another value, or takes it out where the new value is empty. The old value `*` is any."""
    edits: list[Edit] = []
    for unit in document.opening(tag):
        for attribute in unit.attributes:
            value = attribute.value(document.text)
            if attribute.name == name and old in ("*", value.decode("utf-8", "surrogateescape")):
                edits.append(with_value(attribute, document.text, new.encode()) if new else with_spaces_before(document.text, attribute))
    document.change(edits)


def from_iso(document: Document) -> None:
    """Turns `xml:id` into the identifiers of TimeML, and takes the `#` of references out."""
    edits: list[Edit] = []
    for unit in document.opening(*IDENTIFIERS):
        for attribute in unit.attributes:
            if attribute.name == "xml:id":
                edits.append(Edit(attribute.start, attribute.start + len("xml:id"), IDENTIFIERS[unit.name].encode()))
            elif attribute.name in REFERENCES and attribute.value(document.text).startswith(b"#"):
                edits.append(with_value(attribute, document.text, attribute.value(document.text)[1:]))
    document.change(edits)


def make_instances(document: Document) -> None:
    """Makes a MAKEINSTANCE for each event that has none, and lets links between events refer to instances."""
    instances, taken, tags = document.instances(), document.identifiers(), []
    for event in document.opening("EVENT"):
        eid = document.value(event, "eid")
        if IDENTIFIER.fullmatch(eid) and eid not in instances:
            instances[eid] = document.fresh("i." + eid, taken)
            words = [document.written(attribute) for attribute in event.attributes if attribute.name in OF_INSTANCES]
            words[:0] = [f'eiid="{instances[eid]}"', f'eventID="{eid}"']
            tags.append(f"<MAKEINSTANCE {' '.join(words)}/>")
    own = set(instances.values())
    edits = document.before_the_end(tags)
    for link in document.opening(*LINK_TAGS):
        for attribute in link.attributes:
            value = attribute.value(document.text).decode("utf-8", "surrogateescape")
            name = TO_INSTANCES.get(attribute.name, attribute.name)
            if name in TO_INSTANCES.values() and value not in own and value in instances:
                edits.append(Edit(attribute.start, attribute.end, f'{name}="{instances[value]}"'.encode("utf-8", "surrogateescape")))
    document.change(edits)


def drop_links(document: Document, relations: set[str]) -> None:
    """Takes links out by their relation."""
    links = [unit for unit in document.opening(*LINK_TAGS) if document.value(unit, "relType") in relations]
    document.change([document.whole(unit) for unit in links])


def end_of_link(document: Document, unit: Unit, names: tuple[str, str], other: tuple[str, str]) -> str:
    """One end of a link, as the target of another link."""
    for name, target in zip(names, other, strict=True):
        value = document.value(unit, name)
        if value:
            return f'{target}="{value}"'
    place = Places(document.text).place(unit.start)
    raise CannotEdit(f"<{unit.name}> at {place.line}:{place.column} lacks {names[0]} or {names[1]}")


def say_overlaps(document: Document) -> None:
    """Says OVERLAP and its kin by TIMEX3 tags without a value, which lie within the two intervals.

    Two intervals share some time where one interval lies within both. The first one starts before the other ends where an
    interval within the first one comes before one within the other.
    """
    taken, edits = document.identifiers(), []
    names = (name for name in map("o.{}".format, count(1)) if name not in taken)
    targets = ("relatedToEventInstance", "relatedToTime")
    for unit in document.opening("TLINK"):
        relation = document.value(unit, "relType")
        if relation not in OVERLAPS:
            continue
        first = end_of_link(document, unit, ("eventInstanceID", "timeID"), targets)
        second = end_of_link(document, unit, targets, targets)
        if relation == "OVERLAP-OR-AFTER":
            first, second = second, first
        one = next(names)
        other = one if relation == "OVERLAP" else next(names)
        tags = [f'<TIMEX3 tid="{name}" type="DURATION"/>' for name in dict.fromkeys((one, other))]
        tags += [f'<TLINK timeID="{name}" {target} relType="DURING"/>' for name, target in ((one, first), (other, second))]
        if other != one:
            tags.append(f'<TLINK timeID="{one}" relatedToTime="{other}" relType="BEFORE"/>')
        edits.append(document.whole(unit, "".join(tags)))
    document.change(edits)


def add_links(document: Document, name: str, path: str) -> None:
    """Adds a TLINK for each line of a table that begins with the name: name, interval, interval, relation."""
    instances = document.instances()
    events = {document.value(unit, "eiid") for unit in document.opening("MAKEINSTANCE")}
    intervals = events | {document.value(unit, "tid") for unit in document.opening("TIMEX3")}
    tags = []
    for words in rows(path, tabs=False):
        if words[0].text != name:
            continue
        if len(words) != 4 or not IDENTIFIER.fullmatch(words[3].text):
            raise words[min(len(words), 4) - 1].wrong("the line is not a name, two intervals and a relation")
        left, right = (interval_of(word, instances, events, intervals) for word in words[1:3])
        first = "eventInstanceID" if left in events else "timeID"
        second = "relatedToEventInstance" if right in events else "relatedToTime"
        tags.append(f'<TLINK {first}="{left}" {second}="{right}" relType="{LETTERS.get(words[3].text, words[3].text)}"/>')
    document.change(document.before_the_end(tags))


def interval_of(word: Word, instances: dict[str, str], events: set[str], intervals: set[str]) -> str:
    """The instance or time that a word of a table names: of an event the first instance."""
    name = word.text if word.text in events else instances.get(word.text, word.text)
    if name not in intervals or not IDENTIFIER.fullmatch(name):
        raise word.wrong(f"{word.text} is not an event or a time of the document")
    return name


def touch_dates(document: Document) -> list[Change]:
    """Gives links between dates that touch the relation that holds, as IBEFORE for BEFORE, and answers what was changed.

    This is the last change, and so the document is not cut anew.
    """
    document.without_fault()
    changes = touching_changes(Wording(document.program, document.text, document.units))
    document.text = with_changes(document.text, changes)
    if len(document.text) > DOCUMENT_LIMIT:
        raise CannotEdit(MEANINGS[TmlStatus.TOO_LONG])
    return changes


def listed(name: str, changes: list[Change]) -> str:
    """A line for each link that was changed."""
    lines = []
    for change in changes:
        place, relation = change.link.place, change.link.relation
        text = f"{relation} is now {change.relation}: {change.reason}, and {asks(relation)}"
        lines.append(f"{shown(name)}:{place.line}:{place.column}: {shown(text)}\n")
    return "".join(lines)


def names_of(text: str) -> list[str]:
    """Names with commas between them."""
    return [name for name in text.split(",") if name]


def renaming(text: str) -> tuple[str, str]:
    """OLD=NEW."""
    found = re.fullmatch(r"([^=]+)=([A-Za-z_][A-Za-z0-9_.-]*)", text)
    if found is None:
        raise ValueError(text)
    return found[1], found[2]


def utf8(text: str) -> str:
    """A word that can stand in a document."""
    try:
        text.encode()
    except UnicodeEncodeError:
        raise argparse.ArgumentTypeError(f"{text} is not UTF-8") from None
    return text


def parser() -> ProgramParser:
    """The words that are understood."""
    words = ProgramParser(description=__doc__, formatter_class=RawFormatter)
    words.add_argument("paths", nargs="+", metavar="DOC", help="the document, or a folder to search; - is standard input")
    words.add_argument("--write", action="store_true", help="overwrite the files with the changed documents")
    glob_words(words)
    words.add_argument("--rename", type=renaming, action="append", default=[], metavar="OLD=NEW", help="rename tags")
    words.add_argument("--unwrap", type=names_of, action="extend", default=[], metavar="NAMES", help="remove tags, and keep what they hold")
    words.add_argument(
        "--value",
        type=utf8,
        nargs=4,
        action="append",
        default=[],
        metavar=("TAG", "ATTRIBUTE", "OLD", "NEW"),
        help="give an attribute another value; * as OLD stands for any value, and an empty NEW removes the attribute",
    )
    words.add_argument("--iso", action="store_true", help="xml:id becomes eid, tid, sid, lid, and #e1 becomes e1; then as --instances")
    words.add_argument("--instances", action="store_true", help="make a MAKEINSTANCE for each EVENT without one, and let links refer to it")
    words.add_argument(
        "--links", metavar="TABLE", help="add the links of a table with four words a line: document, interval, interval, relation"
    )
    words.add_argument("--name", help="the name of the document in the table (default: that of the file without its ending)")
    words.add_argument(
        "--drop-links",
        type=lambda text: text.split(","),
        action="extend",
        default=[],
        metavar="RELATIONS",
        help="drop links by their relType; an empty name means links without one",
    )
    words.add_argument("--overlaps", action="store_true", help=f"express {', '.join(OVERLAPS)} by TIMEX3 tags that lie within")
    words.add_argument(
        "--touching-dates", action="store_true", help="give links between dates that touch the relation that holds, as IBEFORE for BEFORE"
    )
    shared_words(words)
    return words


def edited(program: Program, options: argparse.Namespace, path: str, text: bytes) -> bytes:
    """The changed document."""
    document = Document(program, text)
    for old, new in options.rename:
        rename_tags(document, old, new)
    unwrap(document, set(options.unwrap))
    for tag, name, old, new in options.value:
        change_values(document, tag, name, old, new)
    if options.iso:
        from_iso(document)
    if options.iso or options.instances:
        make_instances(document)
    if options.links is not None:
        name = options.name or os.path.splitext(os.path.basename(path))[0]
        add_links(document, name, options.links)
    drop_links(document, set(options.drop_links))
    if options.overlaps:
        say_overlaps(document)
    if options.touching_dates:
        sys.stderr.write(listed(path, touch_dates(document)))
    return document.text


def edit(words: list[str]) -> int:
    """Writes the changed document, or what there is to say of many, and answers the status."""
    options = parser().parse_args(words, Words(command="tml-edit"))
    first, *others = options.paths
    if STANDARD_INPUT in options.paths and (others or options.write):
        raise CannotRun("- has to be the only path, and goes without --write")
    changed_tags = {*options.unwrap, *(old for old, _ in options.rename), *(tag for tag, *_ in options.value)}
    settings = settings_of(options)
    # A wrapper that is to be changed has to be seen.
    settings = settings._replace(wrappers=tuple(name for name in settings.wrappers if name not in changed_tags))
    with prepared(options, settings, Interruption()) as made:
        if others or options.write or os.path.isdir(first):
            return edit_files(made, options)

        def print_changed(one: Found) -> None:
            text = standard_input(DOCUMENT_LIMIT + 1) if first == STANDARD_INPUT else read_document(one.place())
            sys.stdout.buffer.write(edited(made.program, options, first, text))

        return attempted(partial(tried, print_changed), Found(first), not_changed)


def tried(work: Callable[[Found], None], one: Found) -> Status:
    """Does something with one document, and says what keeps it from being changed."""
    try:
        work(one)
        return Status.SUCCESS
    except (CannotEdit, BadTable) as problem:
        complain(f"{one.path}: not changed: {problem}" if isinstance(problem, CannotEdit) else str(problem))
        return Status.FINDING


def not_changed(one: Found, problem: str) -> Status:
    """Says what went wrong with a document."""
    complain(f"{one.path}: {problem}")
    return Status.TROUBLE


def edit_files(made: Run, options: argparse.Namespace) -> int:
    """Changes all files that are named or lie in folders, or prints how it would, and answers the status."""
    from ..check.fix import Fixed, difference, write

    found = made.files.search()
    changed: list[Found] = []

    def change(one: Found) -> None:
        before = read_document(one.place())
        after = edited(made.program, options, one.path, before)
        if after == before:
            return
        fixed = Fixed(before, after)
        if options.write:
            write(fixed, one)
        changed.append(one)
        sys.stdout.write(f"{shown(one.path)}: changed\n" if options.write else difference(one.path, fixed, "changed"))

    statuses = [attempted(partial(tried, change), one, not_changed) for one in found]
    done = "changed" if options.write else "can be changed (--write does it)"
    left = len(statuses) - statuses.count(Status.SUCCESS)
    sys.stdout.write(f"{counted(len(found), 'file')}: {len(changed)} {done}, {left} that cannot be\n")
    return max([*statuses, Status.FINDING if changed and not options.write else Status.SUCCESS])


def main(words: Sequence[str] | None = None) -> int:
    """Runs the program and answers its status."""
    return run(edit, words)
