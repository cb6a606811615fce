"""The timeline of the page for browsers, in Node: its model is that of the companions, and its picture states what follows, and no more."""

from __future__ import annotations

import io
import json
import re
import subprocess
import unittest
from collections import Counter
from dataclasses import replace
from itertools import pairwise
from pathlib import Path
from random import Random
from typing import Any

from building.page import tables
from corpus import TESTS, TOP
from picture_reader import Picture
from reference import Outcome
from reference.judge import expected
from test_pictures import KINDS, Truth, closure, random_document
from test_web import needs_node
from tml.matrices import Matrix, read_matrix
from tml_corpus.document.asserted import SUBORDINATING
from tml_corpus.matrix.orders import PointOrders
from tml_corpus.timeline.extents import Positions
from tml_corpus.timeline.known import Known
from tml_corpus.timeline.rows import Row
from tml_corpus.timeline.sentences import place_called, sentences
from tml_corpus.timeline.timeline import known_of, sorting

NETS = 200
COMMANDS = ("check", "spans", "dates", "solve", "matrix")
SCRIPT = Path(TESTS, "timeline_models.mjs")


class Called(Row):
    """A row that is called by its text, as the page calls dates too."""

    def dates(self) -> str:
        return self.text


def partly_asserted(number: int) -> str:
    """A random document that does not assert some of its events."""
    chance, content = Random(f"asserted {number}"), random_document(number)
    instances = re.findall(r'eiid="(i\d+)"', content)
    for name in instances:
        if chance.random() < 0.15:
            content = content.replace(f'eiid="{name}"', f'eiid="{name}" polarity="{chance.choice(("NEG", "POS"))}"')
        if chance.random() < 0.15:
            relation = chance.choice((*SUBORDINATING, "FACTIVE", "EVIDENTIAL"))
            slink = f'<SLINK eventInstanceID="{instances[0]}" subordinatedEventInstance="{name}" relType="{relation}"/>'
            content = content.replace("</TimeML>", slink + "</TimeML>")
    return content


def answers_to(content: str) -> dict[str, str]:
    """What the reference answers to some commands about a document."""
    found = {command: expected([command.encode(), b"d"], {b"d": content.encode()}) for command in COMMANDS}
    return {command: outcome.text.decode() for command, outcome in found.items() if isinstance(outcome, Outcome)}


def rows_of(answers: dict[str, str], content: str) -> list[Row]:
    """The rows of the companions, in the order of the text."""
    names = re.findall(r"^interval \d+ (\S+)$", answers["check"], re.MULTILINE)
    kinds = dict(line.split(" ")[:2] for line in answers["dates"].splitlines())
    ranks = [(int(start), int(end)) for start, end in re.findall(r"^at (\d+) (\d+)$", answers["solve"], re.MULTILINE)]
    texts = [name.replace("i", "w") for name in names]
    reasons = {name: "negative polarity" for name in re.findall(r'eiid="(i\d+)" polarity="NEG"', content)}
    reasons |= {name: how for name, how in re.findall(r'Instance="(i\d+)" relType="(\w+)"/>', content) if how in SUBORDINATING}
    return [
        Called(name, text, kinds.get(name, "event"), *pair, place=content.index(f">{text}<"), unasserted=reasons.get(name, ""))
        for name, text, pair in zip(names, texts, ranks, strict=True)
    ]


def model_of(answers: dict[str, str], content: str) -> dict[str, Any]:
    """The model of the companions, as the script prints that of the page."""
    rows = rows_of(answers, content)
    matrix: Matrix = read_matrix(io.BytesIO(answers["matrix"].encode()), [row.name for row in rows])
    known = known_of(rows, PointOrders.of(matrix), range(len(rows)))
    listed = set(known.listed)
    tied = [replace(row, is_tied=number not in listed) for number, row in enumerate(rows)]
    order = sorted(range(len(rows)), key=lambda number: sorting(tied[number], number, False))
    numbered = dict(enumerate(rows))
    said = sentences(known, numbered)
    return {
        "axis": known.axis,
        "order": order,
        "kinds": [rows[number].filling() for number in order],
        "listed": [number for number in order if number in listed],
        "lines": [[one.first, one.sign, one.second] for one in known.orders if not listed & {one.first // 2, one.second // 2}],
        "extents": [extent_of(known, number) for number in order if number not in listed],
        "said": [list(said[number]) for number in order],
        "places": [place_called(known, numbered, place) for place in range(len(known.axis))],
    }


def extent_of(known: Known, number: int) -> dict[str, Any]:
    """A bar of the companions on an axis with even places."""
    count = len(known.axis)
    extent = Positions([20.0 * (place + 1) for place in range(count)], 0.0, 20.0 * (count + 1)).extent(known, number)
    return {
        "outer": list(extent.outer),
        "isOpen": list(extent.is_open),
        "solid": extent.solid and list(extent.solid),
        "begun": extent.begun,
        "notEnded": extent.not_ended,
    }


def stretch_of(text: tuple[float, float, str, float, str]) -> tuple[float, float]:
    """From where to where a label reaches at least."""
    x, _, anchor, size, words = text
    broad = 0.6 * size * len(re.sub("[\u2068\u2069]", "", words))
    return (x - broad, x) if anchor == "end" else (x, x + broad)


@needs_node
class Models(unittest.TestCase):
    """The model and the picture of documents that some timeline fits."""

    contents: list[str]
    answers: list[dict[str, str]]
    found: list[dict[str, Any]]

    @classmethod
    def setUpClass(cls) -> None:
        cls.contents = [partly_asserted(number) for number in range(NETS)]
        cls.answers = list(map(answers_to, cls.contents))
        given = [
            json.dumps({**answers, "document": content, "width": 200 + 10 * (number % 40)})
            for number, (answers, content) in enumerate(zip(cls.answers, cls.contents, strict=True))
        ]
        words = ["node", str(SCRIPT), str(Path(TOP, "web")), json.dumps(tables())]
        done = subprocess.run(words, input="\n".join(given), capture_output=True, text=True, check=True, timeout=120)
        cls.found = [json.loads(line) for line in done.stdout.splitlines()]

    def test_the_model_is_that_of_the_companions(self) -> None:
        for content, answers, found in zip(self.contents, self.answers, self.found, strict=True):
            for key, value in model_of(answers, content).items():
                self.assertEqual(found[key], value, f"{key} of {content}")

    def test_pictures_state_what_follows_and_no_more(self) -> None:
        counts = Counter[str]()
        for content, answers, found in zip(self.contents, self.answers, self.found, strict=True):
            truth = Truth(answers["matrix"])
            stated = list(Picture.read(found["svg"]).statements())
            self.assertEqual([said for said in stated if not truth.confirms(said)], [], content)
            named = re.findall(r"(?:eiid|tid)=\"(i\d+)\"", content)
            weak, strict = closure(stated, {name + end for name in named for end in "-+"})
            self.assertEqual((truth.never_after - weak, truth.before - strict), (set(), set()), content)
            counts.update(said.kind for said in stated)
        self.assertEqual([kind for kind in KINDS if not counts[kind]], [])

    def test_each_bar_has_a_label_and_no_two_meet(self) -> None:
        saved = 0
        for found in self.found:
            picture, count = Picture.read(found["svg"]), len(found["order"]) - len(found["listed"])
            bars = picture.whole_bars()
            labels = [text for text in picture.texts if text[3] > 1]
            self.assertEqual((len(bars), len(labels)), (count, count))
            self.assertEqual(sorted(round(bar.top - 1.8, 2) for bar in bars), sorted(y for _, y, *_ in labels))
            for lane in {bar.top for bar in bars}:
                stretches = sorted((bar.left, bar.right) for bar in bars if bar.top == lane)
                stretches_of_labels = sorted(map(stretch_of, [text for text in labels if text[1] == round(lane - 1.8, 2)]))
                for (_, right), (left, _) in [*pairwise(stretches), *pairwise(stretches_of_labels)]:
                    self.assertLess(right, left, found["svg"])
            saved += count - len({bar.top for bar in bars})
        self.assertGreater(saved, NETS)


if __name__ == "__main__":
    unittest.main()
