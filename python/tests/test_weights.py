"""Relations and weights as researchers have them: frames, columns, arrays, rows of data sets and generators, each read once, in order."""

from __future__ import annotations

import os
import unittest
from collections.abc import Callable, Iterable, Iterator, Mapping
from decimal import Decimal
from fractions import Fraction
from functools import partial
from importlib import import_module
from importlib.util import find_spec
from itertools import product
from typing import Any

import tml
from answer_kinds import BY, FITS, RATES, public_functions
from corpus import TML

IS_INSTALLED = find_spec("pandas") is not None
pandas: Any = import_module("pandas") if IS_INSTALLED else None
numpy: Any = import_module("numpy") if IS_INSTALLED else None
needs_pandas = unittest.skipUnless(IS_INSTALLED, "no pandas")

SURE, UNSURE, LAST = ("ei2", "BEFORE", "ei1"), ("ei1", "BEFORE", "ei2"), ("ei2", "IS_INCLUDED", "t1")
TRIPLES = [UNSURE, SURE, LAST]
"""Relations of which the first two clash."""

COLUMNS = ["first", "relation", "second"]
NO_NUMBERS: tuple[Any, ...] = ("0.9", "high", None, "", b"1", [0.9], 1j, float("nan"), Decimal("nan"))


def frame_of(triples: Iterable[tuple[str, str, str]] = TRIPLES, **more: Any) -> Any:
    """Relations as a frame, with further columns."""
    return pandas.DataFrame(list(triples), columns=COLUMNS).assign(**more)


class Once:
    """What can be read once, from its first element on."""

    def __init__(self, elements: Iterable[Any]) -> None:
        self.elements, self.read = elements, 0

    def __iter__(self) -> Iterator[Any]:
        self.read += 1
        assert self.read == 1, "it is read again"
        return iter(self.elements)


def forms() -> Iterator[tuple[str, Any]]:
    """The same three relations in each form in which they may be given."""
    frame = frame_of(p=[0.3, 0.9, 0.5])
    yield "triples", TRIPLES
    yield "lists", [list(one) for one in TRIPLES]
    yield "generator", (one for one in TRIPLES)
    yield "read once", Once(TRIPLES)
    yield "frame", frame_of()
    yield "frame with more columns", frame
    yield "frame with columns in another order", frame[["p", "second", "first", "relation"]]
    yield "frame with other labels of its rows", frame.set_index(pandas.Index([2, 0, 1]))
    yield "frame without names of columns", pandas.DataFrame(TRIPLES)
    yield "frame of relations", pandas.DataFrame([tml.Relation(*one) for one in TRIPLES])
    yield "filtered frame", frame_of([UNSURE, ("t0", "BEFORE", "ei1"), SURE, LAST], p=[0.3, 0.1, 0.9, 0.5]).query("p > 0.2")
    yield "sorted frame", frame_of([LAST, SURE, UNSURE], place=[3, 2, 1]).sort_values("place")
    yield "rows of a frame", frame.itertuples()
    yield "rows of a frame without labels", frame_of().itertuples(index=False)
    yield "nameless rows of a frame", frame_of().itertuples(index=False, name=None)
    yield "array of a frame", frame_of().to_numpy()
    yield "array of texts", numpy.array(TRIPLES)
    yield "dictionaries", frame.to_dict("records")
    yield "dictionaries with the names in another order", [dict(zip(COLUMNS[::-1], one[::-1])) for one in TRIPLES]
    yield "dictionaries of relations", [tml.Relation(*one).to_dict() for one in TRIPLES]


def said_by(document: Any) -> list[tuple[str, ...]]:
    """What the links of a document say."""
    return [tuple(link.says()) for link in tml.expect(tml.check(tml.expect(document), BY), tml.Accepted).links]


def kept_of(links: Any, weights: Any) -> list[tuple[str, ...]]:
    """What is kept of some relations by their weights."""
    return [tuple(one) for one in tml.expect(tml.consistent(RATES, links, weights, BY), tml.Consistent).kept]


TAKERS: Mapping[str, Callable[[Any], Any]] = {
    "consistent": lambda given: tml.expect(tml.consistent(RATES, given, [0.3, 0.9, 0.5], BY), tml.Consistent).document,
    "document_of": lambda given: tml.document_of(given, {"t1": "1998"}),
    "with_links": lambda given: tml.with_links(RATES, given, BY),
}
"""The public functions that take relations."""


@needs_pandas
@unittest.skipUnless(os.access(TML, os.X_OK), f"no program {TML}: build it as README.md says, or name one by TML=PROGRAM")
class Relations(unittest.TestCase):
    def test_each_form_in_each_function(self) -> None:
        arguments = {name: set(one.__annotations__) for name, one in public_functions().items()}
        self.assertEqual({name for name, found in arguments.items() if found & {"links", "relations"}}, set(TAKERS))
        for name, form, given in ((name, *one) for name in TAKERS for one in forms()):
            with self.subTest(name, form=form):
                self.assertEqual(said_by(TAKERS[name](given)), [SURE, LAST] if name == "consistent" else TRIPLES)

    def test_none_at_all(self) -> None:
        for given in (frame_of([]), frame_of().iloc[:0], frame_of([]).to_numpy(), iter(())):
            with self.subTest(type(given).__name__):
                self.assertEqual(tml.document_of(given), tml.document_of([]))
                self.assertEqual(said_by(tml.with_links(RATES, given, BY)), [])
                self.assertEqual(kept_of(given, iter(())), [])

    def test_links_as_rows_keep_their_lids(self) -> None:
        links = tml.expect(tml.check(FITS, BY), tml.Accepted).links
        wanted = tml.with_links(FITS, links, BY)
        rows: list[tuple[str, Any]] = [
            ("dictionaries", [link.to_dict() for link in links]), ("frame", pandas.DataFrame(links)),
            ("rows", pandas.DataFrame(links).itertuples()),
        ]  # fmt: skip
        for form, given in rows:
            with self.subTest(form):
                self.assertEqual(tml.with_links(FITS, given, BY), wanted)

    def test_rows_that_say_no_relation_are_named(self) -> None:
        rows: list[tuple[Any, str]] = [
            (frame_of().drop(columns="relation"), "relation"), ([{"first": "ei1", "second": "ei2"}], "relation"),
            (frame_of().rename(columns={"first": "one"}).assign(p=1), "first"),
            ([{"first": "ei1", "relation": None, "second": "ei2"}], "None"),
        ]  # fmt: skip
        for given, said in rows:
            with self.subTest(said):
                with self.assertRaisesRegex(TypeError, f"^a relation is a triple of .*{said}"):
                    tml.document_of(given)


@needs_pandas
@unittest.skipUnless(os.access(TML, os.X_OK), f"no program {TML}: build it as README.md says, or name one by TML=PROGRAM")
class Weights(unittest.TestCase):
    def test_weights_are_paired_by_position(self) -> None:
        frame = frame_of(p=[0.9, 0.3, 0.5])
        for ordered in (frame, frame.sort_values("p"), frame.sort_values("p", ascending=False), frame.iloc[[2, 0, 1]]):
            labels = list(ordered.index)
            with self.subTest(labels):
                triples = [TRIPLES[label] for label in labels]
                wanted = [one for one in triples if one != SURE]
                self.assertEqual(kept_of(triples, ordered["p"]), wanted)
                self.assertEqual(kept_of(ordered, ordered["p"]), wanted)
                self.assertEqual(kept_of(ordered, ordered["p"].to_numpy()), wanted)

    def test_a_filtered_column(self) -> None:
        frame = frame_of([UNSURE, ("t0", "BEFORE", "ei1"), SURE, LAST], p=[0.3, 0.1, 0.9, 0.5])
        chosen = frame[frame["p"] > 0.2]
        self.assertEqual(kept_of(chosen, chosen["p"]), [SURE, LAST])
        self.assertEqual(kept_of(chosen[COLUMNS].to_numpy(), chosen["p"]), [SURE, LAST])

    def test_weights_are_read_once(self) -> None:
        numbers = [0.3, 0.9, 0.5]
        given: list[Any] = [
            Once(numbers), iter(numbers), (one for one in numbers), dict(zip("abc", numbers)).values(), numpy.array(numbers, "float32"),
            pandas.Series(numbers, index=["x", "y", "z"]), pandas.array(numbers), map(Fraction, numbers), map(Decimal, numbers),
            map(numpy.float64, numbers), [1, 10**400, 2],
        ]  # fmt: skip
        for weights in given:
            with self.subTest(type(weights).__name__):
                self.assertEqual(kept_of(Once(TRIPLES), weights), [SURE, LAST])

    def test_what_is_no_weight(self) -> None:
        columns = partial(pandas.Series, dtype="object")
        for wrong, form in product((*NO_NUMBERS, numpy.float64("nan"), pandas.NA), (list, iter, columns)):
            with self.subTest(wrong, form=form):
                with self.assertRaisesRegex(ValueError, "^the weight of ei2 BEFORE ei1 is not a number"):
                    tml.consistent(RATES, TRIPLES, form([0.3, wrong, 0.5]), BY)
        # What is not a number is said as it was given.
        texts: Any = ["0.3", "0.9", "0.5"]
        with self.assertRaisesRegex(ValueError, r"^the weight of ei1 BEFORE ei2 is not a number: '0\.3'$"):
            tml.consistent(RATES, TRIPLES, texts, BY)

    def test_as_many_weights_as_relations(self) -> None:
        for count, form in product((0, 2, 4), (list, iter, partial(pandas.Series, dtype="float"))):
            with self.subTest(count, form=form):
                with self.assertRaisesRegex(ValueError, f"^there are 3 relations and {count} weights: each relation has one$"):
                    tml.consistent(RATES, iter(TRIPLES), form([1.0] * count), BY)

    def test_the_same_whether_the_document_is_right_or_not(self) -> None:
        wrong: Any = ["0.3"]
        documents: tuple[tml.File, ...] = (RATES, b"<TimeML>")
        for document in documents:
            with self.assertRaisesRegex(ValueError, "is not a number"):
                tml.consistent(document, [SURE], wrong, BY)


if __name__ == "__main__":
    unittest.main()
