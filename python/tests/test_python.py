"""The package `tml`: the same answers by the library and by the program, as classes; its misuse; and the examples of docs/PYTHON.md."""

import importlib.util
import os
import re
import shutil
import subprocess
import sys
import tempfile
import threading
import unittest
from collections.abc import Callable
from fractions import Fraction
from functools import partial
from pathlib import Path
from unittest import mock

import tml
from corpus import SOURCES, TML, TOO_LONG, TOP, of_type, text_at
from processes import PATIENCE, WITH_PACKAGES, with_own_bytecode
from tml import asking, finding
from tml.running import CannotRun
from tml.statuses import INTERVAL_LIMIT

Question = Callable[[bytes, tml.Answerer], object]
"""A question about one document."""

SAMPLES = Path(TOP, "samples")
RATES = SAMPLES / "rates.xml"
EVENTS = '<EVENT eid="e" class="STATE">x</EVENT>' + "".join(f'<MAKEINSTANCE eiid="{name}" eventID="e"/>' for name in "abc")
LINK = '<TLINK eventInstanceID="{}" relatedToEventInstance="{}" relType="{}"/>'
DAY = '<TIMEX3 tid="d" type="DATE" value="1998-01-08"/><TIMEX3 tid="p" type="DURATION" value="P1D"/>'


def document(*parts: str) -> bytes:
    """A document of these tags."""
    return f"<TimeML>{''.join(parts)}</TimeML>\n".encode()


FITS = document(EVENTS, LINK.format("a", "b", "BEFORE"), LINK.format("b", "c", "BEFORE"))
CLASHES = document(EVENTS, LINK.format("a", "b", "BEFORE"), LINK.format("b", "c", "BEFORE"), LINK.format("c", "a", "BEFORE"))
FAULTY = "<TimeML>\né<EVENT/></TimeML>".encode()


def library_path() -> str:
    """The shared library that the tests load: the one that the environment names, or the one that was built."""
    return os.environ.get("TML_LIBRARY") or finding.BUILT_LIBRARY


class Questions(unittest.TestCase):
    """What both answer: each class below says who is asked. The name is taken away at the end, since this is no test by itself."""

    by: tml.Answerer

    def test_check(self) -> None:
        found = of_type(tml.Accepted, tml.check(RATES, by=self.by))
        counts = (found.events, found.instances, found.times, found.signals, found.tlinks, found.alinks, found.slinks)
        self.assertEqual(counts, (2, 2, 2, 1, 2, 0, 0))
        self.assertEqual(found.intervals, ("t0", "t1", "ei1", "ei2"))
        self.assertEqual(found.links, (tml.Link(0, "ei1", "BEFORE", "ei2", "l1"), tml.Link(1, "ei2", "IS_INCLUDED", "t1", "l2")))
        self.assertEqual(found.links[1].says(), ("ei2", "IS_INCLUDED", "t1"))
        self.assertEqual(tml.check(document(), by=self.by), tml.Accepted(0, 0, 0, 0, 0, 0, 0, (), ()))

    def test_files_are_bytes_or_paths(self) -> None:
        whole = RATES.read_bytes()
        files: tuple[tml.File, ...] = (whole, bytearray(whole), memoryview(whole), RATES, str(RATES))
        for file in files:
            self.assertEqual(tml.check(file, by=self.by), tml.check(RATES, by=self.by))
        with self.assertRaises(FileNotFoundError):
            tml.check("no such file", by=self.by)

    def test_what_is_neither_bytes_nor_a_path_is_misuse(self) -> None:
        asks: tuple[Callable[..., object], ...] = (
            tml.check, tml.spans, partial(tml.score, b"<TimeML/>"), partial(tml.with_links, relations=[])
        )  # fmt: skip
        for wrong in (0, True, 60, [60, 84], (60,), None, 1.5, {60}, {"a": 1}):
            with self.subTest(wrong):
                for ask in asks:
                    with self.assertRaisesRegex(TypeError, "^a file is bytes or a path, and not "):
                        ask(wrong, by=self.by)

    def test_a_fault_has_its_place(self) -> None:
        fault = tml.Fault(10, "MissingAttribute", 11, 2, 2)
        asks: tuple[Question, ...] = (
            tml.check, tml.dates, tml.solve, tml.clash, tml.relations, tml.matrix, tml.reduce, tml.seconds, tml.canon
        )  # fmt: skip
        for ask in asks:
            found = of_type(tml.Fault, ask(FAULTY, self.by))
            self.assertEqual(found, fault)
            self.assertEqual(str(found), "2:2: 10 MissingAttribute: this EVENT has no text: delete it, or add eid and class if it is meant")
        self.assertEqual(of_type(tml.Fault, tml.spans(b"<TimeML>&", by=self.by)).name, "BadReference")
        self.assertEqual(tml.verify(FAULTY, b"", by=self.by), fault)
        self.assertEqual(tml.confirm(FAULTY, b"", by=self.by), fault)

    def test_too_long(self) -> None:
        self.assertEqual(tml.check(TOO_LONG, by=self.by), tml.TooLong("document"))
        self.assertEqual(tml.score(FITS, TOO_LONG, by=self.by), tml.TooLong("key"))
        with tempfile.TemporaryDirectory() as folder:
            path = Path(folder, "long")
            path.write_bytes(TOO_LONG + TOO_LONG)
            self.assertEqual(tml.solve(path, by=self.by), tml.TooLong("document"))

    def test_evidence_that_is_too_long(self) -> None:
        whole = bytes(16 * len(TOO_LONG))
        self.assertEqual(tml.verify(FITS, whole, by=self.by), tml.TooLong("evidence"))
        self.assertEqual(tml.confirm(FITS, whole, by=self.by), tml.TooLong("seconds"))
        self.assertEqual(tml.renew(whole, by=self.by), tml.TooLong("evidence"))
        self.assertEqual(tml.join(self.timeline().evidence, whole, by=self.by), tml.TooLong("second"))

    def timeline(self) -> tml.Timeline:
        """The timeline of the document that has one."""
        return of_type(tml.Timeline, tml.solve(FITS, by=self.by))

    def test_spans(self) -> None:
        text = "<?xml version='1.0'?><TimeML a='' é=\"x\">t<!-- c --><P/></TimeML>"
        found = of_type(list, tml.spans(text.encode(), by=self.by))
        self.assertEqual([unit.kind for unit in found], ["declaration", "start", "text", "comment", "empty", "end"])
        self.assertEqual(found[1], tml.Unit(21, 41, "start", "TimeML", (tml.Attribute(29, 33, "a"), tml.Attribute(34, 40, "é"))))
        self.assertEqual((found[2], found[4].name, found[5].attributes), (tml.Unit(41, 42, "text"), "P", ()))
        self.assertEqual(tml.spans(b"", by=self.by), [])

    def test_dates(self) -> None:
        found = of_type(dict, tml.dates(document(DAY, '<TIMEX3 tid="w" type="DATE" value="1998-XX"/>'), by=self.by))
        self.assertEqual(found["d"], tml.Date("exact", 884217600, 884304000, "1998-01-08T00:00:00", "1998-01-09T00:00:00"))
        self.assertEqual((found["p"], found["w"].kind, found["w"].end_text), (tml.Date("free"), "within", "1999-01-01T00:00:00"))

    def test_solve(self) -> None:
        found = self.timeline()
        self.assertEqual(found.ranks, {"a": (0, 1), "b": (2, 3), "c": (4, 5)})
        self.assertEqual((found.ranks["b"].start, found.ranks["b"].end), (2, 3))
        self.assertEqual(tml.verify(FITS, found.evidence, by=self.by), tml.Verified((tml.Claim("timeline"),)))
        self.assertIsNone(tml.clash(FITS, by=self.by))

    def test_a_clash(self) -> None:
        asks: tuple[Question, ...] = (tml.solve, tml.clash, tml.relations, tml.matrix, tml.reduce)
        for answer in (*(ask(CLASHES, self.by) for ask in asks), tml.score(CLASHES, FITS, by=self.by)):
            found = of_type(tml.Clash, answer)
            self.assertEqual([link.number for link in found.links], [0, 1, 2])
        self.assertEqual(found.links[2].says(), tml.Relation("c", "BEFORE", "a"))
        self.assertEqual(sorted(step.first for step in found.walk if step.kind == "via"), [0, 1, 2])
        self.assertEqual(len(found.spares), 3)
        for spare, link in zip(found.spares, found.links, strict=True):
            for other in found.links:
                if other != link:
                    self.assertLess(spare[other.first].end, spare[other.second].start)
        self.assertEqual(tml.verify(CLASHES, found.evidence, by=self.by), tml.Verified((tml.Claim("clash", links=(0, 1, 2)),)))

    def test_ask(self) -> None:
        proof = of_type(tml.Proof, tml.ask(FITS, "a", "BEFORE", "c", by=self.by))
        self.assertEqual(proof.relation, ("a", "BEFORE", "c"))
        self.assertEqual([[step.kind for step in walk] for walk in proof.walks], [["via", "span", "via"]])
        equal = of_type(tml.Proof, tml.ask(FITS, "a", "SIMULTANEOUS", "a", by=self.by))
        self.assertEqual(len(equal.walks), 4)
        other = of_type(tml.Counterexample, tml.ask(FITS, "a", "IBEFORE", "b", by=self.by))
        self.assertLess(other.ranks["a"].end, other.ranks["b"].start)
        joined = of_type(bytes, tml.join(proof.evidence, other.evidence, by=self.by))
        claims = of_type(tml.Verified, tml.verify(FITS, joined, by=self.by))
        self.assertEqual(claims.claims, (tml.Claim("entails", proof.relation), tml.Claim("counter", other.relation)))
        self.assertIsInstance(tml.ask(CLASHES, "a", "BEFORE", "b", by=self.by), tml.Clash)

    def test_names_of_nothing_are_misuse(self) -> None:
        for words, name in ((("n", "BEFORE", "a"), "n"), (("a", "X", "a"), "X"), (("a", "BEFORE", "n"), "n"), (("a", "BEFORE", ""), "")):
            with self.assertRaises(tml.UnknownName) as raised:
                tml.ask(FITS, *words, by=self.by)
            self.assertEqual(raised.exception.args, (name,))
        with self.assertRaises(tml.UnknownName):
            tml.possible(FITS, "a", "n", by=self.by)
        for bad in ("\0", "\ud800"):
            with self.assertRaises(ValueError):
                tml.ask(FITS, bad, "BEFORE", "a", by=self.by)
        drill: Callable[..., object] = tml.drill
        for number in (0, INTERVAL_LIMIT + 1, "01"):
            with self.assertRaises(ValueError):
                drill(number, by=self.by)

    def test_relations(self) -> None:
        self.assertEqual(tml.relations(FITS, by=self.by), [("a", "BEFORE", "b"), ("a", "BEFORE", "c"), ("b", "BEFORE", "c")])
        self.assertEqual(tml.relations(document(), by=self.by), [])
        self.assertEqual(str(of_type(list, tml.relations(FITS, by=self.by))[0]), "a BEFORE b")

    def test_possible_and_matrix(self) -> None:
        found = of_type(tml.Possible, tml.possible(RATES, "ei1", "t1", by=self.by))
        self.assertEqual(list(found.timelines), ["BEFORE", "IS_INCLUDED", "IBEFORE", "BEGINS", "OVERLAPS"])
        for ranks in found.timelines.values():
            self.assertEqual(list(ranks), ["t0", "t1", "ei1", "ei2"])
        matrix = of_type(tml.Matrix, tml.matrix(RATES, by=self.by))
        self.assertEqual(matrix.possible("ei1", "t1"), tuple(found.timelines))
        self.assertEqual(matrix.possible("t1", "ei1"), ("AFTER", "INCLUDES", "IAFTER", "BEGUN_BY", "OVERLAPPED_BY"))
        self.assertEqual(matrix.possible("t1", "t1"), ("SIMULTANEOUS",))
        with self.assertRaises(KeyError):
            matrix.possible("t1", "n")

    def test_reduce_and_score(self) -> None:
        more = document(EVENTS, LINK.format("a", "c", "BEFORE"), LINK.format("a", "b", "BEFORE"), LINK.format("b", "c", "BEFORE"))
        self.assertEqual(tml.reduce(more, by=self.by), tml.Reduced((tml.Link(1, "a", "BEFORE", "b"), tml.Link(2, "b", "BEFORE", "c")), 3))
        less = document(EVENTS, LINK.format("a", "c", "BEFORE"))
        found = of_type(tml.Score, tml.score(more, less, by=self.by))
        self.assertEqual(found, tml.Score(0, 2, 1, 1))
        self.assertEqual((found.precision, found.recall, found.f1), (0, 1, 0))
        self.assertEqual((found + tml.Score(2, 2, 1, 1)).f1, Fraction(2, 3))
        self.assertEqual((tml.Score().precision, tml.Score().recall, tml.Score().f1), (None, None, None))
        self.assertEqual(tml.score(FITS, CLASHES, by=self.by), tml.KeyClash())
        self.assertEqual(tml.score(FITS, FAULTY, by=self.by), tml.Fault(10, "MissingAttribute", 11, 2, 2, "key"))

    def test_seconds_and_confirm(self) -> None:
        within = '<TLINK timeID="p" relatedToTime="d" relType="{}"/>'
        found = of_type(tml.Placing, tml.seconds(document(DAY, within.format("DURING")), by=self.by))
        self.assertEqual(found.seconds["p"], tml.Seconds(884217600, 884304000))
        self.assertEqual(tml.confirm(document(DAY, within.format("DURING")), found.text, by=self.by), tml.Confirmed("placing"))
        never = document(DAY, within.format("IS_INCLUDED"))
        cycle = of_type(tml.Cycle, tml.seconds(never, by=self.by))
        self.assertIn(tml.Step("least", 1), cycle.steps)
        self.assertEqual(tml.confirm(never, cycle.text, by=self.by), tml.Confirmed("cycle"))
        self.assertEqual(tml.confirm(never, found.text, by=self.by), tml.Refused("Link 0"))
        self.assertEqual(tml.confirm(never, found.text[:-1], by=self.by), tml.Malformed("seconds", 5))

    def test_evidence_that_is_not_right(self) -> None:
        good = self.timeline().evidence
        self.assertEqual(tml.verify(FITS, good.replace(b"at 2 3", b"at 1 3"), by=self.by), tml.Refused("Link 0", 0, 1))
        self.assertEqual(tml.verify(FITS, b"", by=self.by), tml.Malformed("evidence", 1))
        self.assertEqual(tml.renew(good + b"x", by=self.by), tml.Malformed("evidence", 8))
        self.assertEqual(tml.join(b"x", good, by=self.by), tml.Malformed("evidence", 1))
        self.assertEqual(tml.join(good, b"x", by=self.by), tml.Malformed("second", 1))
        self.assertEqual(tml.renew(b"tml-evidence 1\ntimeline 0\nend\n", by=self.by), b"tml-evidence 2\nclaims 1\ntimeline 0\nend\n")

    def test_canon(self) -> None:
        self.assertEqual(tml.canon(b"<TimeML b='' a='\"'/>", by=self.by), b'<TimeML a="&quot;" b=""/>\n')

    def test_drill(self) -> None:
        self.assertEqual(tml.drill(3, by=self.by), tml.Drill(3, 736, 6, 5, 3))

    def test_many_threads_at_once(self) -> None:
        wanted = {file: tml.solve(file, by=self.by) for file in (FITS, CLASHES, FAULTY)}
        found: list[bool] = []

        def ask() -> None:
            found.extend(tml.solve(file, by=self.by) == wanted[file] for _ in range(5) for file in wanted)

        threads = [threading.Thread(target=ask) for _ in range(8)]
        for one in threads:
            one.start()
        for one in threads:
            one.join()
        self.assertEqual(found, [True] * 120)

    def test_long_texts(self) -> None:
        many = document(*(f'<TIMEX3 tid="t{number}" type="SET"/>' for number in range(INTERVAL_LIMIT)))
        self.assertEqual(len(of_type(tml.Matrix, tml.matrix(many, by=self.by)).cells), INTERVAL_LIMIT * (INTERVAL_LIMIT - 1) // 2)
        self.assertEqual(len(of_type(list, tml.spans(many, by=self.by))), 1027)

    def test_a_document_with_other_links(self) -> None:
        wanted = [("ei2", "BEFORE", "t0"), ("t1", "INCLUDES", "ei1")]
        found = of_type(bytes, tml.with_links(RATES, wanted, by=self.by))
        self.assertEqual([link.says() for link in of_type(tml.Accepted, tml.check(found, by=self.by)).links], wanted)
        kept = re.sub(rb"<TLINK[^>]*>", b"", RATES.read_bytes())
        self.assertEqual(re.sub(rb"<TLINK[^>]*>\n", b"", found), kept)
        paired = FITS.replace(b'"BEFORE"/>', b'"BEFORE"><!-- c --></TLINK>')
        self.assertEqual(tml.with_links(paired, [], by=self.by), document(EVENTS))
        self.assertEqual(tml.with_links(b"<TimeML/>", [], by=self.by), b"<TimeML></TimeML>")
        self.assertEqual(of_type(tml.Fault, tml.with_links(FAULTY, [], by=self.by)).number, 10)
        for bad in (("ei1", "BEFORE", "e1"), ("ei1", "LATER", "t1")):
            with self.assertRaises(tml.UnknownName):
                tml.with_links(RATES, [bad], by=self.by)

    def test_a_document_of_relations(self) -> None:
        triples = [("event0", "BEFORE", "b"), ("b", "IS_INCLUDED", "t")]
        made = tml.document_of(triples, {"t": "1998-01", "u": "P2D", "v": "1998-01-08T10"})
        found = of_type(tml.Accepted, tml.check(made, by=self.by))
        self.assertEqual(found.intervals, ("t", "u", "v", "event0", "b"))
        self.assertEqual([link.says() for link in found.links], triples)
        self.assertEqual(of_type(tml.Accepted, tml.check(tml.document_of([]), by=self.by)).links, ())
        self.assertIsInstance(tml.dates(tml.document_of([], {"t": "<\"&'>"}), by=self.by), dict)
        for bad in ("", "a b", "é", "x" * 65, "x\n"):
            with self.assertRaises(ValueError):
                tml.document_of([(bad, "BEFORE", "b")])


@unittest.skipUnless(
    os.path.isfile(library_path()), f"no library {library_path()}: tools/library/build makes it, or name one by TML_LIBRARY="
)
class ByLibrary(Questions):
    """The questions, by the library in this process."""

    @classmethod
    def setUpClass(cls) -> None:
        cls.by = tml.Library(library_path())

    def test_it_is_what_is_found(self) -> None:
        asking.default_answerer.cache_clear()
        with mock.patch.dict(os.environ, {"TML_LIBRARY": library_path()}):
            self.assertIsInstance(asking.default_answerer(), tml.Library)
            self.assertEqual(tml.relations(FITS), tml.relations(FITS, by=self.by))
        asking.default_answerer.cache_clear()

    def test_python_goes_on_while_it_works(self) -> None:
        many = document(*(f'<TIMEX3 tid="t{number}" type="SET"/>' for number in range(INTERVAL_LIMIT)))
        counted, ended = [0], threading.Event()

        def count() -> None:
            while not ended.is_set():
                counted[0] += 1

        counting = threading.Thread(target=count)
        before = sys.getswitchinterval()
        sys.setswitchinterval(0.3)
        try:
            counting.start()
            first = counted[0]
            self.by.answer("matrix", (many,))
            self.assertGreater(counted[0], first)
        finally:
            ended.set()
            sys.setswitchinterval(before)
            counting.join()


@unittest.skipUnless(os.access(TML, os.X_OK), f"no program {TML}: build it as README.md says, or name one by TML=PROGRAM")
class ByProcess(Questions):
    """The same questions, by the program."""

    @classmethod
    def setUpClass(cls) -> None:
        cls.by = tml.Process(TML)

    def test_it_is_what_is_found_where_no_library_is(self) -> None:
        asking.default_answerer.cache_clear()
        with mock.patch.dict(os.environ, {"TML_LIBRARY": "", "TML": TML}):
            self.assertIsInstance(asking.default_answerer(), tml.Process)
            self.assertEqual(tml.relations(FITS), tml.relations(FITS, by=self.by))
        asking.default_answerer.cache_clear()

    def test_a_program_that_is_another_one(self) -> None:
        with self.assertRaises(CannotRun):
            tml.check(FITS, by=tml.Process("/bin/true"))


del Questions


class Finding(unittest.TestCase):
    def test_no_library_and_no_program(self) -> None:
        with self.assertRaises(CannotRun):
            tml.Library("/no/such/library")
        with self.assertRaises(CannotRun):
            tml.Library("libc.so.6")

    def test_what_is_exported_is_there(self) -> None:
        names: list[str] = getattr(tml, "__all__")
        self.assertGreater(len(names), 50)
        for name in names:
            self.assertIsNotNone(getattr(tml, name))
        with self.assertRaises(AttributeError):
            getattr(tml, "nothing")


@unittest.skipUnless(os.path.isfile(library_path()) or os.access(TML, os.X_OK), "neither the library nor the program is there")
class Examples(unittest.TestCase):
    """Each example of docs/PYTHON.md is run, and prints what stands below it."""

    def test_examples(self) -> None:
        examples = re.findall(r"```python\n(.*?)```\n(?:\n```text\n(.*?)```\n)?", text_at("docs/PYTHON.md"), re.DOTALL)
        self.assertGreaterEqual(len(examples), 5)
        for source, printed in examples:
            missing = [
                name for name in re.findall(r"^import (networkx|pandas)$", source, re.MULTILINE) if importlib.util.find_spec(name) is None
            ]
            with self.subTest(source.splitlines()[0]):
                if missing:
                    self.skipTest(f"no {' and no '.join(missing)}")
                self.assertEqual(self.ran(source), printed)

    def ran(self, source: str) -> str:
        """What an example prints, in a folder with a copy of the samples."""
        found = {"TML": TML, **({"TML_LIBRARY": library_path()} if os.path.isfile(library_path()) else {})}
        environment = {**with_own_bytecode(), **found, "PYTHONPATH": SOURCES}
        words = [*WITH_PACKAGES, "-c", source]
        with tempfile.TemporaryDirectory() as folder:
            shutil.copytree(SAMPLES, Path(folder, "samples"))
            done = subprocess.run(words, cwd=folder, env=environment, capture_output=True, text=True, check=False, timeout=PATIENCE)
        self.assertEqual((done.stderr, done.returncode), ("", 0))
        return done.stdout


if __name__ == "__main__":
    unittest.main()
