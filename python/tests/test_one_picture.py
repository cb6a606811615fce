"""The picture of a timeline in a notebook is the one of `tml-corpus timeline`, which states only what follows: nothing else draws."""

from __future__ import annotations

import ast
import os
import pickle
import re
import unittest
from collections.abc import Iterator
from pathlib import Path

import tml
from answer_kinds import BY, FITS
from corpus import COMPANION, SOURCES, TML, TOP
from forked import run_forked

SAMPLES = ("rates.xml", "bridge.xml", "ferry.xml")
SHAPES = frozenset(("circle", "ellipse", "g", "line", "path", "polygon", "polyline", "rect", "svg", "text", "tspan"))
"""What pictures are made of."""


def without_name(picture: str) -> str:
    """A picture without what says which file it is of."""
    return re.sub(r"^<\?xml[^>]*\?>\n|<title>Timeline[^<]*</title>\n?", "", picture).strip()


def shapes_in(path: Path) -> Iterator[str]:
    """The shapes that a module makes by itself."""
    for node in ast.walk(ast.parse(path.read_text(encoding="utf-8"))):
        match node:
            case ast.Call(func=ast.Name(id="element" | "tags"), args=[ast.Constant(value=str(name)), *_]) if name in SHAPES:
                yield f"{path.name}: {name}"


@unittest.skipUnless(os.access(TML, os.X_OK), f"no program {TML}: build it as README.md says, or name one by TML=PROGRAM")
class OnePicture(unittest.TestCase):
    def test_it_is_the_picture_of_the_companion(self) -> None:
        for name in SAMPLES:
            path = os.path.join(TOP, "samples", name)
            ended = run_forked(COMPANION, "timeline", "--tml", os.path.abspath(TML), "-o", "-", path, folder=TOP)
            wanted = without_name(ended.out.decode())
            self.assertIn("<path", wanted)
            for question in (tml.timeline, tml.solve):
                found = tml.expect(question(path, BY), tml.Timeline)
                for answer in (found, pickle.loads(pickle.dumps(found)), question(Path(path).read_bytes(), BY)):
                    with self.subTest(name, question=question.__name__):
                        self.assertEqual(without_name(answer._repr_svg_()), wanted)

    def test_it_stands_in_a_page(self) -> None:
        for document in (FITS, b"<TimeML/>"):
            drawn = tml.expect(tml.timeline(document, BY), tml.Timeline)._repr_svg_()
            self.assertTrue(drawn.startswith('<svg xmlns="http://www.w3.org/2000/svg"'), drawn[:80])
            self.assertIn("<desc>" if document == FITS else "<title>", drawn)
            self.assertNotIn("ranks of starts and ends", drawn)

    def test_nothing_in_the_package_draws(self) -> None:
        found = [shape for path in sorted(Path(SOURCES, "tml").rglob("*.py")) for shape in shapes_in(path)]
        self.assertEqual(found, [])
        drawing = [shape for path in sorted(Path(SOURCES, "tml_corpus", "figure").rglob("*.py")) for shape in shapes_in(path)]
        self.assertGreater(len(drawing), 2)


if __name__ == "__main__":
    unittest.main()
