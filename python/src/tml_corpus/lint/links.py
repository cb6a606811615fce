"""What is suspect in links and instances: links that say nothing or the same twice, and what is in no link."""

from __future__ import annotations

from collections.abc import Iterator
from functools import partial
from itertools import combinations

from tml.explaining.references import added, new_instance, whole_end
from tml.statuses import INVERSES
from tml.tags.edits import Edit
from tml.tags.profile import LINK_TAGS, TABLE
from tml.tags.source import Source, Suspect
from tml.tags.units import Unit

ENDS = {"SLINK": ("eventInstanceID", "subordinatedEventInstance"), "ALINK": ("eventInstanceID", "relatedToEventInstance")}
TO_TIME, TO_EVENT = ("BEFORE", "IS_INCLUDED", "AFTER"), ("BEFORE", "AFTER", "INCLUDES", "IS_INCLUDED", "SIMULTANEOUS")
"""The relations that events mostly have to the creation time, and to the event before them."""

OF_INSTANCE = tuple(name for name in TABLE["MAKEINSTANCE"] if name != "eiid")


def self_link(source: Source) -> Iterator[Suspect]:
    """A link from an interval to itself."""
    for tag, (left, _, right) in zip(source.tags("TLINK"), source.links, strict=True):
        if left == right:
            yield to_itself(tag, left)
    for kind, (first, second) in ENDS.items():
        for tag, values in source.valued(kind):
            if values.get(first, "") == values.get(second, "") != "":
                yield to_itself(tag, values.get(first, ""))


def to_itself(tag: Unit, name: str) -> Suspect:
    """The warning on one link."""
    return Suspect(tag, f"this link is from {name} to {name}: probably one of the two should be another one")


def repeated_link(source: Source) -> Iterator[Suspect]:
    """A link that was given before, perhaps the other way round."""
    seen: dict[tuple[str, str, str], Unit] = {}
    for tag, (left, relation, right) in zip(source.tags("TLINK"), source.links, strict=True):
        first = seen.get((left, relation, right)) or seen.get((right, INVERSES.get(relation, ""), left))
        if first is None:
            seen[left, relation, right] = tag
        elif left != right:
            lid = source.value(first, "lid")
            where = f"by {lid} at {source.at(first.start)}" if lid else f"at {source.at(first.start)}"
            text = f"{left} {relation} {right} is given {where} already: see whether another pair is meant, or delete one of the two"
            yield Suspect(tag, text, choices=partial(one_of_two, source, tag, first))


def one_of_two(source: Source, *tags: Unit) -> list[tuple[Edit, ...]]:
    """The edits that delete one of some tags."""
    return [(Edit(tag.start, whole_end(source, tag), b""),) for tag in tags]


def opposed_instances(source: Source) -> Iterator[Suspect]:
    """An instance of an event that differs from another one only by links that say the opposite."""
    groups: dict[tuple[str, ...], list[tuple[str, Unit]]] = {}
    for tag, values in source.valued("MAKEINSTANCE"):
        groups.setdefault(tuple(values.get(name, "") for name in OF_INSTANCE), []).append((values.get("eiid", ""), tag))
    pairs = [pair for group in groups.values() if len(group) > 1 for pair in combinations(group, 2)]
    related = relations_of(source) if pairs else {}
    for (name, tag), (other, later) in pairs:
        opposite = {
            (INVERSES.get(relation, ""), right) for relation, right in related.get(name, set()) if INVERSES.get(relation) != relation
        }
        for relation, right in sorted(opposite & related.get(other, set())):
            event = source.value(tag, "eventID")
            text = (
                f"{name} and {other} are instances of {event} with the same attributes, and {name} "
                f"{INVERSES[relation]} {right}, {other} {relation} {right}"
            )
            yield Suspect(
                later, f"{text}: see whether one of the two instances was pasted", choices=partial(without_instances, source, tag, later)
            )
            break


def without_instances(source: Source, *instances: Unit) -> list[tuple[Edit, ...]]:
    """The edits that delete one of some instances, and all links that name it."""
    return [tuple(without_instance(source, tag)) for tag in instances]


def without_instance(source: Source, instance: Unit) -> Iterator[Edit]:
    """The edits that delete an instance, and all links that name it."""
    name = source.value(instance, "eiid")
    yield Edit(instance.start, whole_end(source, instance), b"")
    for kind in LINK_TAGS:
        ends = [row.name for row in TABLE[kind].values() if row.form.target == "MAKEINSTANCE"]
        for tag, values in source.valued(kind):
            if name in (values.get(end, "") for end in ends):
                yield Edit(tag.start, whole_end(source, tag), b"")


def relations_of(source: Source) -> dict[str, set[tuple[str, str]]]:
    """Of each interval its relations to others, whichever way round the links are."""
    found: dict[str, set[tuple[str, str]]] = {}
    for left, relation, right in source.links:
        found.setdefault(left, set()).add((relation, right))
        found.setdefault(right, set()).add((INVERSES.get(relation, ""), left))
    return found


def event_without_instance(source: Source) -> Iterator[Suspect]:
    """An event that no MAKEINSTANCE names, so that no link can."""
    for name in source.without_instance():
        tag, fresh = source.identified("EVENT")[name], source.fresh("MAKEINSTANCE")
        text = f"{name} has no instance, so no link can name it: add {new_instance(source, fresh, name)}"
        yield Suspect(tag, text, choices=partial(with_instance, source, fresh, name))


def with_instance(source: Source, fresh: str, event: str) -> list[tuple[Edit, ...]]:
    """The edits that add an instance of an event."""
    return [(added(source, new_instance(source, fresh, event, filled=True)),)]


def unlinked_instance(source: Source) -> Iterator[Suspect]:
    """An instance that is in no link."""
    names = ("eventInstanceID", "relatedToEventInstance", "subordinatedEventInstance")
    linked = {values.get(name, "") for kind in ("ALINK", "SLINK") for _, values in source.valued(kind) for name in names}
    linked.update(values.get(names[2], "") for _, values in source.valued("TLINK"))
    for left, _, right in source.links:
        linked.update((left, right))
    for name, tag in source.identified("MAKEINSTANCE").items():
        if name not in linked:
            text = f"{name} is in no link, so nothing orders it: add a TLINK"
            yield Suspect(tag, text, choices=partial(with_link, source, name, source.value(tag, "eventID")))


def with_link(source: Source, name: str, event: str) -> list[tuple[Edit, ...]]:
    """The edits that add a link from an instance to the creation time or to the event beside it, with the relations that are usual.

    Where nothing orders an instance each relation is possible, so a person has to say which one the text means.
    """
    time = next((source.value(one, "tid") for one in source.creation_times), "")
    neighbour = event_beside(source, event)
    ends = [("relatedToTime", time, TO_TIME)] * bool(time) + [("relatedToEventInstance", neighbour, TO_EVENT)] * bool(neighbour)
    begin = f'<TLINK lid="{source.fresh("TLINK")}" eventInstanceID="{name}"'
    tags = (f'{begin} {attribute}="{other}" relType="{relation}"/>' for attribute, other, relations in ends for relation in relations)
    return [(added(source, tag, ("TLINK", "MAKEINSTANCE")),) for tag in tags]


def event_beside(source: Source, event: str) -> str:
    """The first instance of the event before another one in the text, or of the one after it; nothing where there is none."""
    names = [name for _, name in sorted((tag.start, name) for name, tag in source.identified("EVENT").items())]
    at = names.index(event)
    beside = (source.instances.get(name, [""])[0] for name in (*reversed(names[:at]), *names[at + 1 :]))
    return next(filter(None, beside), "")
