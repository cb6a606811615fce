"""Tags that do not nest: which tag was left open, what has to be the root, and what a name was meant to be."""

from __future__ import annotations

from collections import Counter
from collections.abc import Iterator

from ..places import BYTE_ORDER_MARK
from ..saying import counted
from ..statuses import OPEN_LIMIT
from ..tags.edits import Edit, encoded
from ..tags.invisible import first_invisible, without_invisible
from ..tags.profile import CARRIED, IDENTIFIERS, LEFT, LINK_TAGS, RIGHT, ROOT, TABLE, TAGS, Kind
from ..tags.similar import near, nearest, same_but_for_case
from ..tags.source import Explanation, Note, Source, cut, described, renamed
from ..tags.units import END, START, Unit, end_of, open_tags, unit_at
from .faults import MISPLACED, TOO_DEEP, UNBALANCED, UNCLOSED, UNKNOWN_TAG

BY_BYTE = "names are compared letter by letter, upper and lower case differ"


def unknown_tag(source: Source, unit: Unit | None, found: Explanation) -> None:
    """Fault 4: a name."""
    if unit is None:
        return
    name = cut(unit.name)
    found.start, found.end = unit.start + 1, unit.start + 1 + len(encoded(unit.name))
    choices = meant_tags(source, unit)
    both = [tag for tag in (unit, partner(source, unit)) if tag is not None]
    if len(choices) == 1:
        found.edits += [renamed(tag, choices[0]) for tag in both]
    else:
        found.offered.append(lambda: [tuple(renamed(tag, choice) for tag in both) for choice in choices])
    hidden, same = first_invisible(unit.name), same_but_for_case(unit.name, TAGS)
    if hidden and same:
        found.text = f"<{name}> has {hidden} in its name, which nobody sees: write {same}"
    elif same:
        hint = "names are in upper case" if same == unit.name.upper() else BY_BYTE
        found.text = f"<{name}> is not known; did you mean {same}? ({hint})"
    elif not has_tag_before(source, unit) and choices != [ROOT]:
        found.text = f"<{name}> is not known, and the root has to be {ROOT}: `tml-edit --rename {name}={ROOT}` renames it"
        found.edits.clear()
        found.offered = [lambda: [tuple(renamed(tag, ROOT) for tag in both)]]
    elif choices:
        found.text = f"<{name}> is not known; did you mean {' or '.join(choices)}?"
    else:
        found.text = f"<{name}> is not known: `tml-edit --unwrap {name}` takes such tags out and leaves what they hold"
        found.offer(*(Edit(tag.start, tag.end, b"") for tag in both))


def meant_tags(source: Source, unit: Unit) -> list[str]:
    """The tags of which one was probably meant by an unknown name: what its identifier says goes before what its letters say."""
    if unit.kind == "end":
        inner = [tag.name for tag in open_tags(source.units, unit.start)[-1:] if tag.name in TAGS]
        return [one for one in inner if nearest(unit.name, inner)] or near(unit.name, TAGS)
    names = {attribute.name for attribute in unit.attributes}
    for kind in ("EVENT", "MAKEINSTANCE", "TIMEX3", "SIGNAL"):
        if IDENTIFIERS[kind] in names:
            return [kind]
    if names & {"relType", "lid", *LEFT, *RIGHT, "subordinatedEventInstance"}:
        return meant_links(source, unit, names)
    return near(unit.name, TAGS)


def meant_links(source: Source, unit: Unit, names: set[str]) -> list[str]:
    """The kinds of links that have the attributes and the relation of a tag."""
    relation = source.value(unit, "relType")
    kinds = [
        kind
        for kind in ("TLINK", "ALINK", "SLINK")
        if names <= {*TABLE[kind], *CARRIED[kind]} and TABLE[kind]["relType"].form.fits(relation)
    ]
    return kinds or near(unit.name, TAGS) or ["TLINK", "ALINK", "SLINK"]


def partner(source: Source, unit: Unit) -> Unit | None:
    """The end tag of a start tag with an unknown name, where it has the same name."""
    return end_of(source.units, unit) if unit.kind == "start" else None


def unbalanced(source: Source, unit: Unit | None, found: Explanation) -> None:
    """Fault 5: an end tag."""
    if unit is None:
        return
    found.start, found.end = unit.start, unit.end
    tags = open_tags(source.units, unit.start)
    if not tags or not any(tag.name == unit.name for tag in tags):
        closes_nothing(source, unit, tags[-1] if tags else None, found)
        return
    inner = tags[-1]
    following = next((one for one in source.units.after(unit.start) if one.kind == "end"), None)
    crosses = following is not None and following.name == inner.name
    found.notes.append(Note(unit.start, f"here stands </{cut(unit.name)}>"))
    found.start, found.end = inner.start, inner.end
    name, other, where = cut(inner.name), cut(unit.name), source.at(unit.start)
    if inner.name in LINK_TAGS:
        unclosed_link(source, inner, f"</{other}>", unit, found)
    elif crosses and following is not None and following.start == unit.end:
        found.edits += [renamed(unit, inner.name), renamed(following, unit.name)]
        found.text = f"<{name}> opened here crosses </{other}> at {where}: exchange </{other}> and the </{name}> after it"
    elif crosses and following is not None:
        found.text = f"<{name}> opened here crosses </{other}> at {where}: one has to end inside the other"
        end, following_end = (source.document[one.start : one.end] for one in (unit, following))
        found.offer(Edit(unit.start, unit.start, following_end), Edit(following.start, following.end, b""))
        found.offer(Edit(unit.start, unit.end, b""), Edit(following.end, following.end, end))
    else:
        no_end_tag(source, inner, tags, found)


def closes_nothing(source: Source, unit: Unit, inner: Unit | None, found: Explanation) -> None:
    """An end tag of a name that is not open; it is deleted only where it appears twice, since else its start tag was lost."""
    name = cut(unit.name)
    before = source.units.last_tag_before(unit.start)
    opened = f"<{cut(inner.name)}>, opened at {source.at(inner.start)}" if inner is not None else ""
    if inner is not None and (nearest(unit.name, [inner.name]) or is_wrong_name(source, unit, inner)):
        found.text = f"</{name}> does not close {opened}: write </{cut(inner.name)}>"
        found.edits.append(renamed(unit, inner.name))
    elif (
        before is not None
        and before.kind == "end"
        and before.name == unit.name
        and before.end == unit.start
        and not (unit.name in TABLE and source.dangling(unit.name))
    ):
        found.text = f"</{name}> appears twice: delete one of the two"
        found.edits.append(Edit(unit.start, unit.end, b""))
    elif inner is None and unit.name == ROOT and source.units.opening(ROOT):
        found.text = f"</{name}> appears twice: the root is already closed, so delete one of the two"
        found.edits += [Edit(unit.start, unit.end, b"")] if before is not None and before.name == ROOT else []
    else:
        found.text = (
            f"</{name}> closes nothing{f', since the tag that is open is {opened}' if opened else ''}: {lost_start(source, unit.name)}"
        )
        words = words_before(source, unit)
        if words is not None:
            found.offer(Edit(words, words, encoded(start_of(source, unit.name, filled=True))))


def is_wrong_name(source: Source, unit: Unit, inner: Unit) -> bool:
    """Whether an end tag has the name of another kind, as one of this kind is too many and one of the open tag's is missing."""
    counts = Counter({inner.name: 0, unit.name: 0})
    for one in source.units.named(inner.name, unit.name):
        counts[one.name] += {"start": 1, "end": -1}.get(one.kind, 0)
    return counts[inner.name] == 1 and counts[unit.name] == -1


def lost_start(source: Source, name: str) -> str:
    """What to write where a start tag was lost: its identifier is that to which tags refer in vain."""
    what = "its words" if name in TABLE else "what it holds"
    return f"its start tag was lost: write {start_of(source, name)} before {what}"


def start_of(source: Source, name: str, *, filled: bool = False) -> str:
    """A start tag that was lost, with what is not known to be filled in, or filled with a new identifier and the first value of a list."""
    if name not in TABLE:
        return f"<{name if filled else cut(name)}>"
    names, values = list(source.dangling(name)), dict[str, str]()
    for row in TABLE[name].values():
        if row.needs:
            new = source.fresh(name) if row.form.kind is Kind.IDENTIFIER else next(iter(row.form.values), "")
            is_known = len(names) == 1 and row.form.kind is Kind.IDENTIFIER
            values[row.name] = names[0] if is_known else new if filled else ".."
    return f"<{name}{''.join(f' {attribute}={chr(34)}{value}{chr(34)}' for attribute, value in values.items())}>"


def words_before(source: Source, unit: Unit) -> int | None:
    """Where the last word begins of the text right before a tag; None where no text is there."""
    before = source.document[: unit.start].rstrip()
    begin = max(before.rfind(sign) for sign in (b" ", b"\n", b"\t", b"\r", b">")) + 1
    return begin if begin < len(before) else None


def no_end_tag(source: Source, inner: Unit, tags: list[Unit], found: Explanation) -> None:
    """A start tag that is open where another one is closed. How far it was to go is known of wrappers alone."""
    name, outer = cut(inner.name), tags[-2] if len(tags) > 1 else None
    if outer is not None and outer.name == inner.name and inner.name in TABLE and next(inner.attributes, None) is None:
        found.text = f"<{name}> here is not a start tag, since it has no attributes: write </{name}> for it"
        found.edits.append(Edit(inner.start + 1, inner.start + 1, b"/"))
    elif inner.name in TABLE:
        found.text = f"<{name}> is never closed: write </{name}> right after its words"
        found.offered.append(lambda: [(end_tag_at(inner, place),) for place in words_after(source, inner)])
    else:
        following = latest_end(source, inner)
        before = f", before {described(following)} at {source.at(following.start)}" if following is not None else ""
        found.text = f"<{name}> is never closed: write </{name}> after what it holds{before}"
        if following is not None:
            found.offer(end_tag_at(inner, following.start))


def end_tag_at(tag: Unit, place: int) -> Edit:
    """The edit that closes a tag at a place."""
    return Edit(place, place, encoded(f"</{tag.name}>"))


def words_after(source: Source, tag: Unit) -> list[int]:
    """Where the words of a tag may end that is never closed: after the first word, and before the next tag."""
    text = source.document[tag.end : source.document.find(b"<", tag.end)]
    lines = text.split(b"\n")
    first = len(text) - len(text.lstrip()) + len((text.split() or [b""])[0])
    return list(dict.fromkeys(tag.end + size for size in (first, len(lines[0].rstrip()), len(text.rstrip())) if size))


def latest_end(source: Source, inner: Unit) -> Unit | None:
    """Before what a wrapper ends at the latest: before the next one of its kind, or before the instances and links."""
    return next((one for one in source.units.after(inner.start) if one.kind != "end" and one.name in (inner.name, *LINK_TAGS)), None)


def unclosed(source: Source, unit: Unit | None, found: Explanation) -> None:
    """Fault 6: the end of the document, where its root was not opened or another name closes it."""
    tags = open_tags(source.units, len(source.document) + 1)
    if not source.document.strip():
        found.text = f"the document is empty: write <{ROOT}> .. </{ROOT}>"
        enclose(source, 0, found)
    elif not tags:
        found.text = f"the document has no tag: write <{ROOT}> before its text and </{ROOT}> after it"
        enclose(source, 0, found)
    else:
        inner = tags[-1]
        found.start, found.end = inner.start, inner.end
        found.text = f"<{cut(inner.name)}> is never closed: see whether the end of the file was lost"


def enclose(source: Source, start: int, found: Explanation) -> None:
    """Offers the root around all from a place on."""
    end = len(source.document)
    found.offer(Edit(start, start, encoded(f"<{ROOT}>\n")), Edit(end, end, encoded(f"</{ROOT}>\n")))


def misplaced(source: Source, unit: Unit | None, found: Explanation) -> None:
    """Fault 7: what stands where it may not."""
    if unit is None:
        return
    found.start, found.end = unit.start, min(unit.end, unit.start + 80)
    if begins_document(source, unit):
        second_document(source, unit, found)
    elif unit.kind == "declaration":
        late_declaration(source, unit, found)
    elif unit.kind == "doctype":
        found.text = "a doctype may appear only once, before all tags: delete this one"
        found.offer(Edit(unit.start, unit.end, b""))
    elif unit.kind == "text":
        misplaced_text(source, unit, found)
    else:
        misplaced_tag(source, unit, found)


def begins_document(source: Source, unit: Unit) -> bool:
    """Whether a second document begins with a unit, or with what follows it at once: where files were put together."""
    if not has_tag_before(source, unit):
        return False
    if unit.kind == "text":
        following = next(source.units.after(unit.start), None)
        seen = without_invisible(source.document[unit.start : unit.end].decode("utf-8", "replace")).strip()
        return not seen and following is not None and begins_document(source, following)
    is_closed = not open_tags(source.units, unit.start)
    if unit.kind == "declaration" or (is_closed and unit.kind == "doctype"):
        return any(one.start > unit.start for one in source.units.opening(ROOT))
    return is_closed and unit.opens() and unit.name == ROOT


def second_document(source: Source, unit: Unit, found: Explanation) -> None:
    """A second document after the first one, or inside of it where the first has lost its end."""
    inside = f", inside <{ROOT}>, whose end was lost" if open_tags(source.units, unit.start) else ""
    found.second = size = unit.start - (len(BYTE_ORDER_MARK) if source.document[: unit.start].endswith(BYTE_ORDER_MARK) else 0)
    found.text = (
        f"a second document begins here{inside}: split it off; `head -c {size} FILE > FIRST` and `tail -c +{size + 1} FILE > SECOND` do it"
    )


def late_declaration(source: Source, unit: Unit, found: Explanation) -> None:
    """A declaration with something before it that is not a document."""
    before = source.document[: unit.start]
    if not without_invisible(before.decode("utf-8", "replace")).strip():
        found.text = f"<?xml ..?> has to come first: delete what is before it ({counted(unit.start, 'byte')})"
        found.edits.append(Edit(0, unit.start, b""))
    elif all(one.kind == "comment" or not source.document[one.start : one.end].strip() for one in source.units if one.start < unit.start):
        found.text = "<?xml ..?> has to come first: move it to the beginning, before the comment"
        found.edits += [Edit(0, 0, source.document[unit.start : unit.end]), Edit(unit.start, unit.end, b"")]
    elif has_tag_before(source, unit):
        found.text = "<?xml ..?> has to come first: delete this one"
        found.offer(Edit(unit.start, unit.end, b""))
    else:
        found.text = f"<?xml ..?> has to come first: delete what is before it ({counted(unit.start, 'byte')})"
        found.offer(Edit(0, unit.start, b""))


def misplaced_text(source: Source, unit: Unit, found: Explanation) -> None:
    """Text outside of the root or inside a link."""
    raw = source.document[unit.start : unit.end]
    begin = unit.start + len(raw) - len(raw.lstrip())
    text = cut(" ".join(raw[: 4 * 80].decode("utf-8", "replace").split()))
    found.start, found.end = begin, min(unit.start + len(raw.rstrip()), begin + 80)
    link = open_link(source, unit)
    hidden = first_invisible(text) if not without_invisible(text).strip() else None
    if link is not None:
        left_open(source, link, f"text ({text})", unit, found)
    elif hidden:
        found.text = f"{hidden}, which is invisible, is outside <{ROOT}>, where nothing may be: delete it"
        found.edits.append(Edit(found.start, unit.start + len(raw.rstrip()), b""))
    elif has_tag_before(source, unit):
        found.text = f"there is text after </{ROOT}>: delete it or move </{ROOT}> after it"
        last = source.units.last_tag_before(unit.start)
        delete_or_move(source, unit, last if last is not None and last.kind == "end" else None, found)
    elif roots := source.units.opening(ROOT):
        found.text = f"there is text before <{ROOT}>: delete it or move it inside"
        delete_or_move(source, unit, roots[0], found)
    else:
        found.text = f"the document has no <{ROOT}>: write <{ROOT}> before its text and </{ROOT}> after it"
        enclose(source, unit.start, found)


def delete_or_move(source: Source, text: Unit, root: Unit | None, found: Explanation) -> None:
    """Offers to delete a text that is outside of the root, or to move the tag of the root to its other side."""
    found.offer(Edit(text.start, text.end, b"\n" if text.end == len(source.document) else b""))
    if root is not None:
        at = text.end if root.start < text.start else text.start
        found.offer(Edit(root.start, root.end, b""), Edit(at, at, source.document[root.start : root.end]))


def misplaced_tag(source: Source, unit: Unit, found: Explanation) -> None:
    """A tag outside of the root or inside a link, or another root."""
    link = open_link(source, unit)
    first, last = source.units.first_tag(), source.units.last_tag_before(unit.start)
    if link is not None:
        left_open(source, link, described(unit), unit, found)
    elif first is None or last is None:
        found.text = f"the root has to be <{ROOT}>: write <{ROOT}> before <{cut(unit.name)}> and </{ROOT}> at the end"
        enclose(source, unit.start, found)
    elif open_tags(source.units, unit.start):
        root_inside(source, unit, first, last, found)
    else:
        found.text = f"<{cut(unit.name)}> comes after </{ROOT}> at {source.at(last.start)}: move </{ROOT}> to the end of the document"
        if last.name == ROOT and last.kind == "end" and not any(one.name == ROOT for one in source.units.after(last.start)):
            end = source.document[last.start : last.end]
            found.edits += [Edit(last.start, last.end, b""), Edit(len(source.document), len(source.document), end + b"\n")]


def root_inside(source: Source, unit: Unit, first: Unit, last: Unit, found: Explanation) -> None:
    """A root inside of a root: pasted twice, or the beginning of another document."""
    said = f"<{ROOT}> is inside <{ROOT}>, opened at {source.at(first.start)}"
    if last != first:
        found.text = f"{said}: does a second document begin here? If so, split it off; otherwise delete the tag"
        found.second = unit.start
        found.offer(*source.without(unit))
        found.offer(Edit(unit.start, unit.end, b""))
        return
    ends = [one for one in source.units.named(ROOT) if one.kind == "end"]
    found.text = f"{said}, so it appears twice: delete one of the two" + (", and one of the end tags" if len(ends) > 1 else "")
    found.edits += [Edit(one.start, one.end, b"") for one in (unit, *ends[1:2])]


def has_tag_before(source: Source, unit: Unit) -> bool:
    """Whether a start or empty tag stands before a unit."""
    first = source.units.first_tag()
    return first is not None and first.start < unit.start


def open_link(source: Source, unit: Unit) -> Unit | None:
    """The link tag that is open before a unit."""
    tags = open_tags(source.units, unit.start)
    return tags[-1] if tags and tags[-1].name in LINK_TAGS else None


def left_open(source: Source, link: Unit, what: str, unit: Unit, found: Explanation) -> None:
    """A link tag that holds something."""
    found.notes.append(Note(unit.start, f"here stands {what}"))
    ended = next((one for one in source.units.after(unit.start) if one.name in LINK_TAGS), None)
    found.start, found.end = link.start, link.end
    if ended is not None and ended.kind == "end" and ended.name == link.name:
        found.text = f"<{link.name}> holds {what}, and has to be empty: move it before this tag"
        whole = (source.end_of(unit) or unit).end
        found.offer(Edit(link.start, link.start, source.document[unit.start : whole]), Edit(unit.start, whole, b""))
    else:
        unclosed_link(source, link, what, unit, found)


def unclosed_link(source: Source, link: Unit, what: str, unit: Unit, found: Explanation) -> None:
    """A link tag without its slash."""
    found.text = f"<{link.name}> opened here is not closed before {what} at {source.at(unit.start)}: write /> for its >"
    found.edits.append(Edit(link.end - 1, link.end - 1, b"/"))


def too_deep(source: Source, unit: Unit | None, found: Explanation) -> None:
    """Fault 8: many tags are open."""
    tags = open_tags(source.units, unit.start) if unit is not None else []
    if unit is None or not tags:
        return
    [(name, count)] = Counter(tag.name for tag in tags).most_common(1)
    first = next(tag for tag in tags if tag.name == name)
    found.start, found.end = first.start, first.end
    found.text = (
        f"<{name}> opened here is one of {count} that are open at {source.at(unit.start)}, and tml takes "
        f"{OPEN_LIMIT} open tags: write the end tags"
    )


EXPLAINERS = {UNKNOWN_TAG: unknown_tag, UNBALANCED: unbalanced, UNCLOSED: unclosed, MISPLACED: misplaced, TOO_DEEP: too_deep}


def nesting(source: Source, number: int, offset: int) -> Explanation:
    """Faults 4 to 8."""
    found = Explanation(start=offset, end=offset)
    EXPLAINERS[number](source, unit_at(source.units, offset), found)
    return found


def name_edits(source: Source) -> Iterator[Edit]:
    """The edits for all names of tags that were meant to be another one, where only one is near."""
    closed: dict[int, str] = {}
    for unit in source.units.named(*(source.units.tag_names() - set(TAGS))):
        name = closed.get(unit.start)
        if name is None:
            choices = near(unit.name, TAGS) if unit.kind == "end" else meant_tags(source, unit)
            name = choices[0] if len(choices) == 1 else None
        if name is not None:
            end = source.end_of(unit)
            if end is not None:
                closed[end.start] = name
            yield renamed(unit, name)


def end_edits(source: Source) -> Iterator[Edit]:
    """The edits for end tags that differ from the tag that is open in upper and lower case alone."""
    units, open_rows = source.units, list[int]()
    for row in units.rows:
        if units.kinds[row] == START:
            open_rows.append(row)
        elif units.kinds[row] == END and open_rows:
            name, found = (units.words[units.names[one]] for one in (open_rows.pop(), row))
            if name != found and name.casefold() == found.casefold():
                yield renamed(units.unit(row), name)
