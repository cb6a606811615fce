"""Repeated identifiers, references that find no tag, and tags beyond the limits.

No cure is taken for the only one that would let a reference find another tag than before the slip: where two tags have one
identifier, nothing but their order may tell which of them has it by a slip.
"""

from __future__ import annotations

import re
from collections.abc import Callable, Iterable, Iterator
from functools import partial
from itertools import islice, pairwise

from ..statuses import INTERVAL_LIMIT, LINK_LIMIT
from ..tags.edits import Edit, Ways, encoded, known, with_value
from ..tags.profile import IDENTIFIERS, LEFT, LINK_TAGS, RIGHT, ROOT, TABLE, Kind, Row
from ..tags.similar import LOOKALIKES, MOST_CHOICES, one_letter_apart, plain
from ..tags.source import Explanation, Note, Source, attribute_of
from ..tags.units import Attribute, Unit
from .attributes import Cures, about, article, number_of, tell_all, text_of, with_values
from .faults import DUPLICATE, MANY_INTERVALS, MANY_LINKS, UNKNOWN_REFERENCE

MOST_NAMED = 8
"""How many identifiers are named at most."""

IN_ORDER = 6
"""How many identifiers beside the two have to stand in the order of their numbers, for this order to say which tag has a wrong one."""

UNKNOWN = {"tense": "NONE", "aspect": "NONE", "pos": "UNKNOWN", "polarity": "POS"}
"""What an instance has of whose event nothing is known but that it is said."""

NUMBERED = re.compile(r"([^0-9]*)([0-9]{1,9})")
"""An identifier that ends with a number."""


def some(names: Iterable[str]) -> str:
    """Some names in a sentence."""
    first = list(islice(names, MOST_NAMED + 1))
    return ", ".join(first[:MOST_NAMED]) + (" .." if len(first) > MOST_NAMED else "")


def duplicate(source: Source, tag: Unit, found: Explanation) -> None:
    """Fault 14: an identifier that a tag before has."""
    attribute = attribute_of(tag, IDENTIFIERS[tag.name]) if tag.name in IDENTIFIERS else None
    if attribute is None:
        return
    first = source.bearer(text_of(source, attribute))
    if first is not None and first.start < tag.start:
        about(found, attribute)
        found.notes.append(Note(first.start, f"{article(first.name)} {first.name} has it here"))
        said = f"{attribute.written(source.document)} is the {IDENTIFIERS[first.name]} of the {first.name} at {source.at(first.start)} too"
        found.text = f"{said}: {cure_of_two(source, first, tag, attribute, found)}"


def cure_of_two(source: Source, first: Unit, tag: Unit, attribute: Attribute, found: Explanation) -> str:
    """What to do about two tags with one identifier."""
    name, names = text_of(source, attribute), source.dangling(tag.name)
    if first.kind == "start" and is_inside(source, tag, first):
        found.edits += without_copy(source, first, tag)
        found.offered.append(lambda: [source.without(one) for one in (tag, first)])
        return "it is inside that one, so delete one of the two, and leave the words"
    if names:
        return cure_by_lost_name(source, first, tag, attribute, names, found)
    if is_copy(source, first, tag):
        found.edits.append(Edit(tag.start, whole_end(source, tag), b""))
        return "it is there word for word, so delete it here"
    number = number_by_order(source, first, tag, name)
    if number is not None:
        found.edits.append(with_value(attribute, source.document, encoded(number)))
        return f"write {number}, the next one, here"
    if tag.name not in LINK_TAGS or name in source.referred[tag.name]:
        found.offered.append(lambda: [(Edit(tag.start, whole_end(source, tag), b""),)])
    found.offered.append(lambda: with_values(source, attribute, [source.fresh(tag.name)]))
    if name in source.referred[tag.name]:
        other = source.referred[tag.name][name]
        return (
            f"delete one of the two if it was pasted; if not, the {other.name} at {source.at(other.start)} means one of "
            f"them, and the other "
            f"one needs another identifier, such as {source.fresh(tag.name)}"
        )
    if tag.name in LINK_TAGS:
        return f"write another one here, such as {source.fresh(tag.name)}"
    return f"delete it if it was pasted, and if not write another one here, such as {source.fresh(tag.name)}"


def is_copy(source: Source, first: Unit, tag: Unit) -> bool:
    """Whether a tag was pasted twice: a link or an instance that is the same, or words in the same tags right after these."""
    if tag.name in LINK_TAGS:
        return written(source, first) == written(source, tag)
    ends = whole_end(source, first), whole_end(source, tag)
    return ends[0] == tag.start and source.document[first.start : ends[0]] == source.document[tag.start : ends[1]]


def whole_end(source: Source, tag: Unit) -> int:
    """Where a tag ends with what it holds."""
    end = source.end_of(tag)
    return tag.end if end is None else end.end


def without_copy(source: Source, first: Unit, tag: Unit) -> list[Edit]:
    """The edits that take a tag inside of the same tag out, where both are around the same words."""
    end, outer = source.end_of(tag), source.end_of(first)
    if end is None or outer is None or written(source, first) != written(source, tag) or (first.end, end.end) != (tag.start, outer.start):
        return []
    return [Edit(one.start, one.end, b"") for one in (tag, end)]


def cure_by_lost_name(source: Source, first: Unit, tag: Unit, attribute: Attribute, names: dict[str, Unit], found: Explanation) -> str:
    """What to do about two tags with one identifier where tags refer to others that no tag has."""
    [(name, other), *more] = names.items()
    found.offered.append(lambda: () if found.edits else lost_names(source, first, tag, attribute, names))
    if more:
        return f"one of the two is meant to be one of {some(names)}, to which tags refer and which no tag has"
    said = f'{IDENTIFIERS[tag.name]}="{name}", to which the {other.name} at {source.at(other.start)} refers and which no tag has'
    if first.name != tag.name or is_by_order(source, first, tag, name):
        found.edits.append(with_value(attribute, source.document, encoded(name)))
        return f"write {said}"
    return f"in one of the two write {said}"


def lost_names(source: Source, first: Unit, tag: Unit, attribute: Attribute, names: Iterable[str]) -> Iterator[tuple[Edit, ...]]:
    """The edits that give one of two tags a name to which tags refer in vain: to the second one, and to the first of the same kind."""
    own = attribute_of(first, IDENTIFIERS[first.name]) if first.name == tag.name else None
    for name in islice(names, MOST_NAMED):
        yield from (way for one in (attribute, own) if one is not None for way in with_values(source, one, [name]))


def written(source: Source, tag: Unit) -> bytes:
    """A tag as it is written."""
    return source.document[tag.start : tag.end]


def is_inside(source: Source, tag: Unit, outer: Unit) -> bool:
    """Whether a tag stands between another one and its end tag."""
    end = source.end_of(outer)
    return end is not None and tag.start < end.start


def numbers_beside(source: Source, first: Unit, tag: Unit) -> list[tuple[int, int]]:
    """The places and numbers of the identifiers of a kind without those of two tags; none where they are few or in no order."""
    found: list[tuple[int, int]] = []
    for one in source.tags(tag.name) if len(source.tags(tag.name)) <= INTERVAL_LIMIT else ():
        numbered = NUMBERED.fullmatch(source.value(one, IDENTIFIERS[tag.name]))
        if numbered is None:
            return []
        if one not in (first, tag):
            found.append((one.start, int(numbered[2])))
    in_order = len(found) >= IN_ORDER and all(one[1] < other[1] for one, other in pairwise(found))
    return found if in_order else []


def fits_between(numbers: list[tuple[int, int]], *placed: tuple[int, int]) -> bool:
    """Whether identifiers are in the order of their numbers together with some others, each given by its place and number."""
    return all(one[1] < other[1] for one, other in pairwise(sorted([*numbers, *placed])))


def is_by_order(source: Source, first: Unit, tag: Unit, name: str) -> bool:
    """Whether the order of all identifiers of a kind says that the second one of two tags was to have another name, and not the first."""
    numbers, twice = numbers_beside(source, first, tag), NUMBERED.fullmatch(source.value(tag, IDENTIFIERS[tag.name]))
    lost = NUMBERED.fullmatch(name)
    if not numbers or twice is None or lost is None or twice[1] != lost[1]:
        return False
    there = fits_between(numbers, (first.start, int(twice[2])), (tag.start, int(lost[2])))
    return there and not fits_between(numbers, (first.start, int(lost[2])), (tag.start, int(twice[2])))


def number_by_order(source: Source, first: Unit, tag: Unit, name: str) -> str | None:
    """The identifier that comes after the one that two tags have, where the order of all says that the second one was to have it."""
    numbered = NUMBERED.fullmatch(name)
    if first.name != tag.name or numbered is None:
        return None
    following = f"{numbered[1]}{int(numbered[2]) + 1}"
    number = int(numbered[2])
    numbers = numbers_beside(source, first, tag)
    before = max((one for place, one in numbers if place < first.start), default=-1)
    is_last = following not in source.identifiers[tag.name] and before == number - 1
    return following if is_last and fits_between(numbers, (first.start, number), (tag.start, number + 1)) else None


def unknown_reference(source: Source, tag: Unit, found: Explanation) -> None:
    """Fault 15: references that find no tag."""
    cures: list[Cures] = []
    for attribute, row in unknown_references(source, tag):
        about(found, attribute)
        said, meant = lost(source, tag, attribute, row)
        edits = [Edit(attribute.start, attribute.end, encoded(meant))] if meant else []
        found.edits += edits
        ways: Ways = partial(ways_of_lost, source, tag, attribute, row)
        cures.append((said, known(tuple(edits)) if edits else ways))
    tell_all(cures, found)


def unknown_references(source: Source, tag: Unit) -> Iterator[tuple[Attribute, Row]]:
    """The references of a tag that find no tag of their kind."""
    for attribute in tag.attributes:
        row = TABLE.get(tag.name, {}).get(attribute.name)
        if row is not None and row.form.kind is Kind.REFERENCE and (name := text_of(source, attribute)):
            if name not in source.identifiers[row.form.target]:
                yield attribute, row


def lost(source: Source, tag: Unit, attribute: Attribute, row: Row) -> tuple[str, str | None]:
    """What a reference that finds no tag was probably meant to be; and the attribute as it was to be written where that is clear."""
    name, target = text_of(source, attribute), row.form.target
    sentence = f'no {target} has {IDENTIFIERS[target]}="{name}"'
    names = source.identifiers[target]
    other = source.bearer(name)
    if other is not None:
        said, meant = of_other_kind(source, tag, attribute, row, other)
        return f"{sentence}; {said}", meant
    twice = source.once("twice", target, lambda: stands_twice(source, target))
    if twice is not None:
        places = f"{source.at(twice[0].start)} and {source.at(twice[1].start)}"
        return (
            f"{sentence}, and two have {source.value(twice[0], IDENTIFIERS[target])}, at {places}: one of the two is probably meant",
            None,
        )
    near = meant_identifier(source, name, target)
    if near is not None:
        return f"{sentence}; did you mean {near}?", f'{attribute.name}="{near}"'
    if target == "MAKEINSTANCE" and source.without_instance():
        return f"{sentence}: {lost_instance(source, name)}", None
    if not names:
        return f"{sentence}, and the document has no {target}: add one", None
    return f"{sentence}; there {'is' if len(names) == 1 else 'are'} {some(names)}", None


def ways_of_lost(source: Source, tag: Unit, attribute: Attribute, row: Row) -> Iterator[tuple[Edit, ...]]:
    """What `lost` names where it is not clear what was meant: a tag that is to be added or to have the identifier, or other identifiers."""
    name, target = text_of(source, attribute), row.form.target
    other, twice = source.bearer(name), source.once("twice", target, lambda: stands_twice(source, target))
    if other is None and twice is not None:
        for one in filter(None, (attribute_of(tag, IDENTIFIERS[target]) for tag in reversed(twice))):
            yield (with_value(one, source.document, encoded(name)),)
    elif target == "MAKEINSTANCE" and other is not None and other.name == "EVENT" and not source.instances.get(name):
        fresh = source.fresh("MAKEINSTANCE")
        yield added(source, new_instance(source, fresh, name, filled=True)), with_value(attribute, source.document, encoded(fresh))
    elif target == "MAKEINSTANCE" and other is None and source.without_instance():
        events = events_of_lost(source, name)
        yield from ((added(source, new_instance(source, name, event, filled=True)),) for event in islice(events, MOST_NAMED))
    else:
        yield from with_values(source, attribute, islice(others_than(source, name, other, target), MOST_NAMED))


def others_than(source: Source, name: str, other: Unit | None, target: str) -> Iterable[str]:
    """The identifiers of a kind that are named in the place of one that no such tag has."""
    if other is not None and other.name == "EVENT" and target == "MAKEINSTANCE":
        return source.instances.get(name, [])
    event = source.value(other, "eventID") if other is not None and target == "EVENT" else ""
    return [event] if event in source.identifiers["EVENT"] else source.identifiers[target]


def added(source: Source, written: str, after: Iterable[str] = ("MAKEINSTANCE",)) -> Edit:
    """The edit that adds a tag on a line of its own, as an instance: after the last one of the first of some kinds that is there, else
    before the links, else at the end."""
    line_end = "\r\n" if b"\r\n" in source.document else "\n"
    same = next(filter(None, map(source.tags, after)), None)
    if same:
        end = whole_end(source, same[-1])
        return Edit(end, end, encoded(line_end + written))
    links = [tag.start for one in LINK_TAGS for tag in source.tags(one)[:1]]
    ends = [unit.start for unit in source.units.named(ROOT) if unit.kind == "end"]
    at = min(links) if links else ends[-1] if ends else len(source.document)
    return Edit(at, at, encoded(written + line_end))


def stands_twice(source: Source, kind: str) -> tuple[Unit, Unit] | None:
    """Two tags of a kind with one identifier."""
    for tag, values in source.valued(kind):
        first = source.identifiers[kind].get(values.get(IDENTIFIERS[kind], ""))
        if first is not None and first != tag:
            return first, tag
    return None


def meant_identifier(source: Source, name: str, kind: str) -> str | None:
    """The identifier of a kind that was probably meant: the same but for case or for letters like digits, or for one other letter.

    Its number is the same, since another number is that of another tag, which may be the one that was lost. And no identifier may begin
    as the name does, since then the name is in the manner of the document.
    """
    for what, key in (("plain", plain), ("looks", looks_like), ("number", number_of)):
        alike = source.once(what, kind, partial(grouped, source.identifiers[kind], key)).get(key(name), [])
        if key is number_of:
            begin = NUMBERED.fullmatch(name)
            if begin is None or begin[1] in source.once("begins", "", lambda: beginnings(source)):
                return None
            alike = [one for one in alike[:MOST_CHOICES] if one_letter_apart(one, name)]
        if len(alike) == 1:
            return alike[0]
    return None


def looks_like(name: str) -> str:
    """A name with digits for the letters that look like them."""
    return name.translate(LOOKALIKES)


def grouped(names: Iterable[str], key: Callable[[str], str]) -> dict[str, list[str]]:
    """Some names by what is the same of them."""
    found: dict[str, list[str]] = {}
    for name in names:
        found.setdefault(key(name), []).append(name)
    return found


def beginnings(source: Source) -> set[str]:
    """With what the identifiers of the document begin before their numbers."""
    return {one[1] for of_kind in source.identifiers.values() for name in of_kind if (one := NUMBERED.fullmatch(name))}


def lost_instance(source: Source, name: str) -> str:
    """What to add where an instance was lost: the whole tag where it is known of which event."""
    events = events_of_lost(source, name)
    if len(events) > 1:
        return (
            f'it was probably lost: add <MAKEINSTANCE eiid="{name}" eventID=".."/> for one of the events without an '
            f"instance, {some(events)}"
        )
    return f"it was probably lost: add {new_instance(source, name, events[0])}"


def events_of_lost(source: Source, name: str) -> list[str]:
    """The events without an instance of which one was probably that of an instance that was lost."""
    same = bare_of_number(source, number_of(name))
    return same if len(same) == 1 else source.without_instance()


def bare_of_number(source: Source, number: str) -> list[str]:
    """The events without an instance whose identifiers have a number."""
    return source.once("bare", "number", lambda: grouped(source.without_instance(), number_of)).get(number, [])


def new_instance(source: Source, name: str, event: str, *, filled: bool = False) -> str:
    """A new instance of an event; what all others say of theirs is to be filled in, or is as if nothing were known of it."""
    usual = source.once("usual", "MAKEINSTANCE", lambda: usual_of_instances(source))
    more = "".join(f' {attribute}="{UNKNOWN[attribute] if filled else ".."}"' for attribute in usual)
    return f'<MAKEINSTANCE eiid="{name}" eventID="{event}"{more}/>'


def usual_of_instances(source: Source) -> list[str]:
    """The attributes with a listed value that all instances have."""
    others = [values for _, values in source.valued("MAKEINSTANCE")]
    listed = [row.name for row in TABLE["MAKEINSTANCE"].values() if row.form.kind is Kind.LISTED]
    return [name for name in listed if others and all(one.get(name, "") for one in others)]


def of_other_kind(source: Source, tag: Unit, attribute: Attribute, row: Row, other: Unit) -> tuple[str, str | None]:
    """What to write where the identifier is that of a tag of another kind; and the attribute where that is clear."""
    name, target = text_of(source, attribute), row.form.target
    itself = other.start == tag.start
    sentence = f"{name} is {'this' if itself else article(other.name)} {other.name}"
    if target == "MAKEINSTANCE" and other.name == "EVENT":
        instances = source.instances.get(name, [])
        if len(instances) == 1:
            return f"{sentence}, its instance is {instances[0]}", f'{attribute.name}="{instances[0]}"'
        if instances:
            return f"{sentence}, its instances are {some(instances)}", None
        return f"{sentence} without an instance: add {new_instance(source, source.fresh('MAKEINSTANCE'), name)}", None
    if target == "EVENT" and other.name == "MAKEINSTANCE":
        return of_instance(source, tag, attribute, sentence, other)
    pair = next((pair for pair in (LEFT, RIGHT) if tag.name == "TLINK" and attribute.name in pair), None)
    if pair is not None and other.name in ("MAKEINSTANCE", "TIMEX3"):
        meant = f'{pair[other.name == "TIMEX3"]}="{name}"'
        return f"{sentence}: write {meant}", meant
    names = source.identifiers[target]
    return (
        sentence + (f", and there {'is' if len(names) == 1 else 'are'} {some(names)}" if names else f", and the document has no {target}"),
        None,
    )


def of_instance(source: Source, tag: Unit, attribute: Attribute, sentence: str, other: Unit) -> tuple[str, str | None]:
    """What to write where an instance is named in the place of its event."""
    same = bare_of_number(source, number_of(text_of(source, attribute)))
    if len(same) == 1:
        return f"{sentence}; did you mean {same[0]}, which has no instance?", f'{attribute.name}="{same[0]}"'
    if other.start == tag.start:
        return (
            f"{sentence}; there are {some(source.identifiers['EVENT'])}"
            if source.identifiers["EVENT"]
            else f"{sentence}, and the document has no EVENT",
            None,
        )
    return f"{sentence}, of the EVENT {source.value(other, 'eventID')}", None


def many_intervals(source: Source, tag: Unit, found: Explanation) -> None:
    """Fault 16: more intervals than `tml` takes."""
    found.start, found.end = tag.start, tag.end
    count = len(source.tags("MAKEINSTANCE")) + len(source.tags("TIMEX3"))
    found.text = f"the document has {count:,} MAKEINSTANCE and TIMEX3, and tml takes {INTERVAL_LIMIT:,}: split it here or before"


def many_links(source: Source, tag: Unit, found: Explanation) -> None:
    """Fault 17: more links than `tml` takes."""
    found.start, found.end = tag.start, tag.end
    count = len(source.tags("TLINK"))
    found.text = (
        f"the document has {count:,} TLINK, and tml takes {LINK_LIMIT:,}: split it, or leave out links that follow from others "
        "(`redundant-links` names them)"
    )


EXPLAINERS = {DUPLICATE: duplicate, UNKNOWN_REFERENCE: unknown_reference, MANY_INTERVALS: many_intervals, MANY_LINKS: many_links}
