"""Does what is printed of a document, word for word and without a thought, and says what came of it.

A slip is made in a clean document, and what is printed first of it is done, again and again: by what `fix` does, without `--unsafe` or with
it, or if `fix` leaves it by the words of the sentence. At each step the document has to be the clean one, or something has still to be
reported of it.
"""

from __future__ import annotations

import os
import re
import sys
import unittest
from collections import Counter
from collections.abc import Callable
from enum import Enum
from functools import lru_cache
from itertools import cycle, islice
from random import Random
from unittest import mock

from corpus import LIBRARY, of_type
from reference import Outcome as Answered
from reference import expected
from slips import GROUPS, SLIPS, Slip
from stories import Story
from tml.finding import AtPath
from tml_corpus.asking.program import Program, Reply
from tml_corpus.check import fix, judging
from tml_corpus.check.fix import mended
from tml_corpus.check.judgement import Judgement
from tml_corpus.check.judging import judge_document
from tml_corpus.check.placed import PlacedFault, PlacedWarning
from tml_corpus.lint.kinds import chosen
from tml_corpus.origins.restored import found_origin
from tml_corpus.serve import document as opened

LINT = chosen((), ())
MOST_STEPS, MOST_STORIES = 4, 20
"""How many steps are done at most, and how many stories are looked at for a place for a slip."""


class Outcome(Enum):
    """What came of a slip."""

    HARMLESS = "the document says the same"
    SILENT = "nothing is reported"
    CURED = "cured in one step"
    CURED_LATER = "cured in more steps"
    REPORTED = "reported"
    DAMAGED = "accepted and different"


class Reference(Program):
    """`tml` in this process: its library if that was built, or else `python/dev/reference`."""

    def __init__(self) -> None:
        super().__init__("reference", AtPath(LIBRARY) if os.path.isfile(LIBRARY) else None)
        self.load()

    def ask(self, words: list[str], document: bytes, other: bytes | None = None) -> Reply:
        if self.loaded is not None:
            return super().ask(words, document, other)
        return answer(words[0], document)


def search_once() -> None:
    """Has the keystroke that explains a fault of a document searched for once, whoever of `check`, `fix` and the editor wants it."""
    remembered = lru_cache(maxsize=16)(found_origin)
    for module in (fix, judging, opened):
        unittest.enterModuleContext(mock.patch.object(module, "found_origin", remembered))


@lru_cache(maxsize=8)
def answer(command: str, document: bytes) -> Reply:
    """What the reference answers; `fix` and `check` ask about the same documents."""
    answered = of_type(Answered, expected([command.encode(), b"-"], {b"-": document}))
    return Reply(int(answered.status), answered.text, command, len(document))


def judged(program: Program, document: bytes) -> Judgement:
    """What `check --lint` says of a document."""
    return judge_document(program, "d.xml", document, explained=True, more=0, lint=LINT)


def tried(program: Program, random: Random, slip: Slip) -> tuple[Outcome, list[bytes]] | None:
    """What came of one slip, with the clean document and all that came after it; None where there is no place for it."""
    clean = Story(random).document()
    slipped = slip(random, clean)
    if slipped is None or slipped == clean:
        return None
    documents = [clean.encode(), slipped if isinstance(slipped, bytes) else slipped.encode()]
    return outcome(program, documents), documents


def outcome(program: Program, documents: list[bytes]) -> Outcome:
    """Does what is printed, as long as something is, and notes each document."""
    clean = said_by(documents[0])
    judgement = judged(program, documents[1])
    if judgement.accepted() and said_by(documents[1]) == clean:
        return Outcome.HARMLESS
    if judgement.is_plain():
        return Outcome.SILENT
    for step in range(MOST_STEPS):
        after = done(program, documents[-1], judgement)
        if after is None or after == documents[-1]:
            break
        documents.append(after)
        judgement = judged(program, after)
        if judgement.accepted() and said_by(after) == clean:
            return Outcome.CURED_LATER if step else Outcome.CURED
        if judgement.is_plain():
            return Outcome.DAMAGED
    return Outcome.REPORTED


def said_by(document: bytes) -> list[object]:
    """The tags and words of a document, whatever its white space is and its identifiers are called; its prolog and comments say nothing."""
    text = re.sub(r"<\?.*?\?>|<!--.*?-->", "", document.decode("utf-8", "replace").removeprefix("\ufeff"), flags=re.DOTALL)
    names: dict[str, int] = {}
    found: list[object] = []
    for piece in re.findall(r"<[^<>]*>|[^<>]+", text):
        tag = re.fullmatch(r"<(/?\w+)((?:\s+\w+\s*=\s*(?:\"[^\"]*\"|'[^']*'))*)\s*/?>", piece)
        if tag is None:
            found += re.findall(r"\S+", piece)
            continue
        values = {name: first or second for name, first, second in re.findall(r"(\w+)\s*=\s*(?:\"([^\"]*)\"|'([^']*)')", tag[2])}
        numbered = {
            name: names.setdefault(value, len(names)) if re.search("(?:id|ID|Instance|relatedToTime|Point)$", name) else value
            for name, value in values.items()
        }
        found.append((tag[1], sorted(numbered.items(), key=str)))
    return found


def done(program: Program, document: bytes, judgement: Judgement) -> bytes | None:
    """The document after what is printed first of it was done; None where a person has to see."""
    if judgement.faults:
        first: PlacedFault | PlacedWarning = judgement.faults[0]
        for unsafe in (False, True):
            fixed = mended(program, document, unsafe)
            if fixed.after != document:
                return fixed.after
    else:
        first = judgement.warnings[0]
    for pattern, do in DOING:
        found = re.search(pattern, first.text)
        if found:
            return do(document, first.mark.start.offset, first.mark.end.offset, found)
    return None


def put(document: bytes, start: int, end: int, text: str) -> bytes:
    """The document with a text in the place of a stretch."""
    return document[:start] + text.encode() + document[end:]


def new_value(document: bytes, start: int, end: int, value: str) -> bytes:
    """Another value of the attribute, or for the tag or the name that is marked."""
    marked = document[start:end].decode()
    attribute = re.match(r"(\w+\s*=\s*[\"'])([^\"']*)", marked)
    if attribute and not value.endswith('"'):
        return put(document, start + len(attribute[1].encode()), start + len(attribute[0].encode()), value)
    return put(document, start, end, value)


def with_attribute(document: bytes, start: int, attribute: str) -> bytes:
    """A further attribute of the tag that begins here."""
    return document[:start] + re.sub(rb"<\w+", lambda tag: tag[0] + attribute.encode(), document[start:], count=1)


def at_the_end(document: bytes, tag: str) -> bytes:
    """A tag on a line of its own, after the other ones."""
    place = document.rindex(b"</TimeML>")
    return put(document, place, place, tag + "\n")


DOING: list[tuple[str, Callable[[bytes, int, int, re.Match[str]], bytes]]] = [
    (r"`head -c (\d+) FILE", lambda document, start, end, found: document[: int(found[1])]),
    (r"did you mean ([^\s?]+)\?(?! \()", lambda document, start, end, found: new_value(document, start, end, found[1])),
    (r": write another one here, such as (\S+)", lambda document, start, end, found: new_value(document, start, end, found[1])),
    (
        r"^(\w+) is missing: an identifier that no other tag has, such as (\S+)",
        lambda document, start, end, found: with_attribute(document, start, f' {found[1]}="{found[2]}"'),
    ),
    (r"add (<MAKEINSTANCE [^<>]*/>)", lambda document, start, end, found: at_the_end(document, found[1])),
    (r"delete what is before it", lambda document, start, end, found: document[start:]),
    (r": delete it(?! or move)", lambda document, start, end, found: document[:start] + document[end:]),
    (r"^write (\S+) for|: write (/>|&\w+;|<\w+)$", lambda document, start, end, found: put(document, start, end, found[1] or found[2])),
]  # fmt: skip
"""What a sentence says, and how it is done to the stretch that is marked."""


def tally(program: Program, count: int, seed: int) -> tuple[dict[str, Counter[Outcome]], list[tuple[str, list[bytes]]]]:
    """What came of so many slips, by their kinds, and those after which a document was accepted and different."""
    random = Random(seed)
    kinds: dict[str, Counter[Outcome]] = {name: Counter() for name in SLIPS}
    damaged: list[tuple[str, list[bytes]]] = []
    for name, slip in islice(cycle(SLIPS.items()), count):
        result = next(filter(None, (tried(program, random, slip) for _ in range(MOST_STORIES))), None)
        if result is not None:
            kinds[name][result[0]] += 1
            if result[0] is Outcome.DAMAGED:
                damaged.append((name, result[1]))
    return kinds, damaged


def row(name: str, counts: Counter[Outcome]) -> str:
    """A line of the table."""
    return f"{name:46}" + "".join(f"{counts[one]:13}" for one in Outcome)


def main(count: int, seed: int) -> int:
    """Prints a table of what came of so many slips, and the documents after which one was accepted and different."""
    kinds, damaged = tally(Reference(), count, seed)
    print(f"{'':46}" + "".join(f"{one.name.lower():>13}" for one in Outcome))
    for group, names in GROUPS.items():
        print(row(group, sum((kinds[name] for name in names), Counter[Outcome]())))
        print(*(row(f"  {name}", kinds[name]) for name in names), sep="\n")
    print(row("all", sum(kinds.values(), Counter[Outcome]())))
    for name, documents in damaged:
        print(f"--- {name}", *(document.decode("utf-8", "replace") for document in documents), sep="\n")
    return 1 if damaged else 0


if __name__ == "__main__":
    sys.exit(main(int(sys.argv[1]), int(sys.argv[2]) if len(sys.argv) > 2 else 1))
