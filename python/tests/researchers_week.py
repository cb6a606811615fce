"""A researcher's week with the package `tml` over generated documents: each answer is compared with what the reference of python/dev says.

    export PYTHONPATH=python/src:python/dev:python/tests
    python3 python/tests/researchers_week.py            # 20 documents
    python3 python/tests/researchers_week.py --whole    # 200 documents

Each day does one kind of work. A difference is a line, and the status is 1 if there is any.
"""

from __future__ import annotations

import argparse
import os
import sys
import tempfile
from collections.abc import Callable, Iterator, Sequence
from dataclasses import dataclass, field
from fractions import Fraction
from functools import cache, cached_property
from importlib import import_module
from itertools import chain, product
from pathlib import Path
from random import Random
from typing import Any

import tml
from reference import Outcome, expected, judge
from reference.answers import Free
from written import STYLES

FEW, MANY = 20, 200
"""How many documents there are, and how many with `--whole`."""

COLUMNS = ["first", "relation", "second"]

PREDICTED = 8
"""How many relations are predicted for a document."""


@dataclass(frozen=True)
class Item:
    """A document of the week, and another annotation of the same text."""

    number: int
    content: bytes
    key: bytes


@dataclass
class Week:
    """The documents, who is asked about them, and what was found to differ."""

    items: Sequence[Item]
    by: Any = None
    folder: str = field(default_factory=str)

    @cached_property
    def pandas(self) -> Any:
        """The package for frames."""
        return import_module("pandas")

    def paths(self, what: str) -> list[str]:
        """Where the documents or their keys lie."""
        return [os.path.join(self.folder, what, f"{item.number:03}.xml") for item in self.items]


def items_of(count: int, by: Any) -> Iterator[Item]:
    """Documents of all styles by turns. Their keys have one link fewer."""
    for number in range(count):
        style = [*STYLES.values()][number % len(STYLES)]
        content = style(Random(number)).encode()
        random, triples = Random(number), triples_of(content)
        left_out = random.randrange(len(triples)) if triples else None
        kept = [tml.Relation(*triple) for place, triple in enumerate(triples) if place != left_out]
        yield Item(number, content, tml.expect(tml.with_links(content, kept, by), bytes))


@cache
def right(command: str, content: bytes, *words: str, other: bytes | None = None) -> Any:
    """What the reference answers."""
    files = {b"d": content} if other is None else {b"d": content, b"k": other}
    names = [b"d"] if other is None else [b"d", b"k"]
    return expected([command.encode(), *names, *(word.encode() for word in words)], files)


def lines(answer: Any) -> list[list[str]]:
    """The words of the lines of an answer of the reference."""
    return [line.split(" ") for line in answer.text.decode().splitlines()]


def triples_of(content: bytes) -> list[tuple[str, ...]]:
    """What the links of a document say, as the reference reads them."""
    return [tuple(words[2:]) for words in lines(right("check", content)) if words[0] == "tlink"]


def names_of(content: bytes) -> list[str]:
    """The names of the intervals of a document."""
    return [words[2] for words in lines(right("check", content)) if words[0] == "interval"]


def fits(content: bytes) -> bool:
    """Whether a timeline fits a document, as the reference says."""
    return int(right("solve", content).status) == 0


def monday(week: Week, item: Item) -> Iterator[object]:
    """Frames: links, intervals and events, and a document that is made of a frame."""
    document: Any = tml.read(item.content, week.by)
    yield document.ok, True
    counts = {words[0]: int(words[1]) for words in lines(right("check", item.content)) if len(words) == 2}
    frame = week.pandas.DataFrame([tag.attributes for tag in document.events])
    yield len(frame), counts["events"]
    yield len(week.pandas.DataFrame(document.instances)) + len(document.times), counts["instances"] + counts["timex"]
    links = week.pandas.DataFrame([link.says() for link in document.links], columns=COLUMNS)
    yield [tuple(row) for row in links.to_numpy()], triples_of(item.content)
    yield triples_of(tml.expect(tml.with_links(document, links.iloc[::-1], week.by), bytes)), triples_of(item.content)[::-1]


def tuesday(week: Week, item: Item) -> Iterator[object]:
    """The relations that follow, as a table."""
    found: Any = tml.relations(item.content, week.by)
    yield isinstance(found, list), fits(item.content)
    if isinstance(found, list):
        table = week.pandas.DataFrame(found, columns=COLUMNS)
        yield [tuple(row) for row in table.itertuples(index=False)], [tuple(words) for words in lines(right("relations", item.content))]
        matrix: Any = tml.matrix(item.content, week.by)
        cells = [" ".join(matrix.possible(first, second)) for first, second, *_ in lines(right("matrix", item.content))]
        yield cells, [" ".join(words[2:]) for words in lines(right("matrix", item.content))]


def wednesday(week: Week, item: Item) -> Iterator[object]:
    """Scores."""
    found, wanted = tml.score(item.content, item.key, week.by), right("score", item.content, other=item.key)
    if isinstance(wanted, Free) or int(wanted.status):
        yield getattr(found, "ok"), False
        return
    (_, matched, _, links), (_, other, _, key_links) = lines(wanted)
    yield found, tml.Score(int(matched), int(links), int(other), int(key_links))
    score: Any = found
    yield score.precision, Fraction(int(matched), int(links)) if int(links) else None
    yield (sum([score, score], tml.Score()), score.ok), (tml.Score(*(2 * int(one) for one in (matched, links, other, key_links))), True)


def thursday(week: Week, item: Item) -> Iterator[object]:
    """Relations that were predicted with a confidence each, in a frame that was sorted and filtered."""
    random, names = Random(item.number), names_of(item.content)
    rows = [(random.choice(names), random.choice(tml.RELATIONS), random.choice(names)) for _ in range(PREDICTED)]
    frame = week.pandas.DataFrame(rows, columns=COLUMNS).assign(p=[random.choice((0.1, 0.5, 0.9, random.random())) for _ in rows])
    chosen = frame[frame["p"] > 0.1].sort_values("p", kind="stable")
    found: Any = tml.consistent(item.content, chosen, chosen["p"], week.by)
    kept = list[Any]()
    ordered = [(row.first, row.relation, row.second) for row in chosen.sort_values("p", ascending=False, kind="stable").itertuples()]
    for triple in ordered:
        kept += [triple] if fits(tml.expect(tml.with_links(item.content, [*kept, triple], week.by), bytes)) else []
    yield sorted(found.kept), sorted(kept)
    yield triples_of(found.document), [triple for triple in map(tuple, chosen[COLUMNS].to_numpy()) if triple in kept]


def friday(week: Week, item: Item) -> Iterator[object]:
    """Proofs in words: what follows and what does not, with evidence that the reference accepts."""
    found: Any = tml.solve(item.content, week.by)
    if not found.ok:
        yield judge([b"solve", b"d"], {b"d": item.content}, Outcome(2, found.evidence)), None
        yield [link for link in found.links if str(link) not in str(found)], []
        return
    entailed, model = lines(right("relations", item.content)), tml.expect(tml.read(item.content, week.by), tml.Document)
    random = Random(item.number)
    for first, relation, second in random.sample(entailed, min(len(entailed), 2)):
        proof: Any = tml.ask(model, first, relation, second, week.by)
        yield wrong_answer(item.content, (first, relation, second), proof), None
        yield proof.ok, True
        links = [str(model.links[step.first]) for walk in proof.walks for step in walk if step.kind == "via"]
        yield [one for one in (*links, first, relation, second) if one not in str(proof)], []
    first, second = random.choices(list(model.intervals), k=2)
    other: Any = tml.ask(model, first, "BEFORE", second, week.by)
    yield wrong_answer(item.content, (first, "BEFORE", second), other), None
    yield [one for one in (first, "BEFORE", second) if one not in str(other)], []
    yield verified(week, item.content, found.evidence), ["timeline"]


def wrong_answer(content: bytes, words: Sequence[str], answer: Any) -> object:
    """What the reference finds wrong with what `ask` answered."""
    return judge([b"ask", b"d", *(word.encode() for word in words)], {b"d": content}, Outcome(0, answer.evidence))


def verified(week: Week, content: bytes, evidence: bytes) -> list[str]:
    """The kinds of claims that evidence shows."""
    return [claim.kind for claim in tml.expect(tml.verify(content, evidence, week.by), tml.Verified).claims]


def saturday(week: Week, item: Item) -> Iterator[object]:
    """Offsets: tags and words by bytes, by characters and in the text without tags."""
    document: Any = tml.read(item.content, week.by)
    starts = {int(words[0]): words[3] for words in lines(right("spans", item.content)) if words[2] in ("start", "empty")}
    texts = [item.content[int(words[0]) : int(words[1])].decode() for words in lines(right("spans", item.content)) if words[2] == "text"]
    yield len(document.text) <= sum(map(len, texts)), True
    yield len([*document]), len(document)
    for identifier in document:
        tag = document.get(identifier)
        yield starts[tag.bytes.start], tag.name
        yield document.source[tag.characters.start : tag.characters.end], item.content[tag.bytes.start : tag.bytes.end].decode()
        yield document.text[tag.stretch.start : tag.stretch.end], tag.text


def sunday(week: Week) -> Iterator[object]:
    """A folder in parallel: timelines of all documents."""
    for item, (path, answer) in zip(week.items, tml.folder(os.path.join(week.folder, "documents"), tml.solve, jobs=2), strict=True):
        yield os.path.basename(path), f"{item.number:03}.xml"
        found: Any = answer
        yield judge([b"solve", b"d"], {b"d": item.content}, Outcome(0 if found.ok else 2, found.evidence)), None


def sunday_evening(week: Week) -> Iterator[object]:
    """Scores of all pairs of documents and keys, in parallel."""
    folder: Any = tml.folder
    pairs = zip(week.paths("documents"), week.paths("keys"), strict=True)
    for item, (_, answer) in zip(week.items, folder(pairs, tml.score, jobs=2), strict=True):
        wanted = right("score", item.content, other=item.key)
        yield answer.ok, not isinstance(wanted, Free) and int(wanted.status) == 0


DAYS: Sequence[Callable[[Week, Item], Iterator[object]]] = (monday, tuesday, wednesday, thursday, friday, saturday)
"""The days on which each document is worked on by itself."""


def differences(day: str, compared: Iterator[Any]) -> Iterator[str]:
    """A line for each pair of values that are not the same, and for what is raised."""
    try:
        yield from (f"{day}: {str(found)[:200]} and not {str(wanted)[:200]}" for found, wanted in compared if found != wanted)
    except Exception as error:
        yield f"{day}: {type(error).__name__}: {str(error)[:200]}"


def differences_of_week(count: int, by: Any = None) -> Iterator[str]:
    """What differs in a week over so many documents."""
    with tempfile.TemporaryDirectory() as folder:
        week = Week([*items_of(count, by)], by, folder)
        save(week.paths("documents"), [item.content for item in week.items])
        save(week.paths("keys"), [item.key for item in week.items])
        for day, item in product(DAYS, week.items):
            yield from differences(f"{day.__name__}, document {item.number}", day(week, item))
        yield from differences("sunday", chain(sunday(week), sunday_evening(week)))


def save(paths: Sequence[str], contents: Sequence[bytes]) -> None:
    """Writes some files to a new folder."""
    os.mkdir(os.path.dirname(paths[0]))
    for path, content in zip(paths, contents, strict=True):
        Path(path).write_bytes(content)


def main(words: Sequence[str]) -> int:
    """Prints the differences and answers the status."""
    parser = argparse.ArgumentParser(description=__doc__, formatter_class=argparse.RawDescriptionHelpFormatter)
    parser.add_argument("--whole", action="store_true", help=f"over {MANY} documents, and not {FEW}")
    count = MANY if parser.parse_args(words).whole else FEW
    found = 0
    for line in differences_of_week(count):
        print(line)
        found += 1
    print(f"{count} documents, {found} differences")
    return 1 if found else 0


if __name__ == "__main__":
    sys.exit(main(sys.argv[1:]))
