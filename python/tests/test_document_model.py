"""The model of a document, and what takes it or is made by it: questions, documents with other links, and answers as dictionaries."""

from __future__ import annotations

import json
import os
import pickle
import unittest
from pathlib import Path
from typing import Any

import tml
from corpus import TML, TOO_LONG, TOP
from tml.documents import decoded

PORT, RATES = Path(TOP, "samples", "port.xml"), Path(TOP, "samples", "rates.xml")
WIDE = (
    '\ufeff<TimeML>\n<!-- <TLINK lid="none"/> --><P>日本 &amp; é</P> <EVENT eid="e1" class="STATE"><S>fell &lt;</S>&#xe9;</EVENT>\n'
    '<TIMEX3 tid="t1" type="SET" comment=\'"&#65;" &gt;\'/><SIGNAL sid="s1">on</SIGNAL>\n'
    '<MAKEINSTANCE eiid="ei1" eventID="e1"></MAKEINSTANCE>\n'
    '<TLINK comment="lid=\'no\'" eventInstanceID="ei1" relatedToTime="t1" relType="BEFORE" signalID="s1"/>\n'
    '<TLINK relType="AFTER" timeID="t1" lid=\'l9\' relatedToEventInstance="ei1"/>\n</TimeML>\n'
).encode()


def read(file: Any) -> tml.Document:
    """The model of a document that is accepted."""
    return tml.expect(tml.read(file, by=tml.Process(TML)), tml.Document)


@unittest.skipUnless(os.access(TML, os.X_OK), f"no program {TML}: build it as README.md says, or name one by TML=PROGRAM")
class Model(unittest.TestCase):
    by = tml.Process(TML)

    def test_tags_with_their_attributes_and_texts(self) -> None:
        found = read(PORT)
        self.assertEqual(
            (len(found.events), len(found.instances), len(found.times), len(found.signals), len(found.links)), (10, 10, 3, 3, 13)
        )
        self.assertEqual((found.path, found.content), (str(PORT), PORT.read_bytes()))
        first = found.events[0]
        self.assertEqual((first.name, first.id, first.kind, first.text), ("EVENT", "e1", "OCCURRENCE", "failed"))
        self.assertEqual(first.attributes, {"eid": "e1", "class": "OCCURRENCE"})
        self.assertEqual((found.instances[3].event, found.instances[3].text), (found.events[3], "closed"))
        self.assertEqual((found.times[1].kind, found.times[1].value), ("DATE", "1998-03-09"))
        self.assertEqual(found.creation_time, found.times[0])
        self.assertEqual(found["ei4"], found.instances[3])

    def test_it_has_the_names_and_numbers_of_check(self) -> None:
        files: tuple[tml.File, ...] = (PORT, RATES, WIDE)
        for file in files:
            accepted = tml.expect(tml.check(file, by=self.by), tml.Accepted)
            found = read(file)
            self.assertEqual(tuple(found.intervals), accepted.intervals)
            self.assertEqual([(one.number, *one.says(), one.lid) for one in found.links], list(accepted.links))

    def test_places_in_bytes_and_in_characters(self) -> None:
        for file in (PORT, RATES, WIDE):
            found = read(file)
            for one in (*found.events, *found.times, *found.signals, *found.links, *found.instances):
                written = found.content[one.bytes.start : one.bytes.end].decode()
                self.assertEqual(found.source[one.characters.start : one.characters.end], written)
                self.assertTrue(written.startswith(f"<{one.name}") and written.endswith(">"), written)
                self.assertEqual(found.text[one.stretch.start : one.stretch.end], one.text)

    def test_references_are_decoded(self) -> None:
        found = read(WIDE)
        self.assertEqual((found.events[0].text, found.times[0].attributes["comment"]), ("fell <é", '"A" >'))
        self.assertEqual(found.text, "\n日本 & é fell <é\non\n\n\n\n\n")
        self.assertEqual(decoded("&amp;lt; &#128; &nbsp;"), "&lt; \x80 &nbsp;")
        self.assertEqual(
            [(one.called(), str(one)) for one in found.links], [("link 0", "link 0: ei1 BEFORE t1"), ("l9", "l9: t1 AFTER ei1")]
        )

    def test_what_is_not_accepted_is_an_answer(self) -> None:
        self.assertIsInstance(tml.read(b"<TimeML>", by=self.by), tml.Fault)
        self.assertEqual(tml.read(TOO_LONG, by=self.by), tml.TooLong("document"))

    def test_questions_take_it(self) -> None:
        found = read(RATES)
        self.assertEqual(tml.read(found, by=self.by), found)
        questions: tuple[Any, ...] = (
            tml.check, tml.solve, tml.dates, tml.relations, tml.clash, tml.matrix, tml.reduce, tml.canon, tml.spans, tml.seconds,
        )  # fmt: skip
        for question in questions:
            self.assertEqual(question(found, by=self.by), question(RATES, by=self.by))
        self.assertEqual(tml.score(found, found, by=self.by), tml.score(RATES, RATES, by=self.by))

    def test_it_can_be_sent(self) -> None:
        found = read(WIDE)
        self.assertEqual(pickle.loads(pickle.dumps(found)), found)
        self.assertEqual(len({found.events[0], found.events[0]}), 1)


@unittest.skipUnless(os.access(TML, os.X_OK), f"no program {TML}: build it as README.md says, or name one by TML=PROGRAM")
class Written(unittest.TestCase):
    by = tml.Process(TML)

    def links(self, document: bytes | tml.Fault | tml.TooLong) -> list[tml.Link]:
        """The links of a document that was made."""
        return list(tml.expect(tml.check(tml.expect(document, bytes), by=self.by), tml.Accepted).links)

    def test_links_that_were_answered_are_written(self) -> None:
        model, accepted = read(PORT), tml.expect(tml.check(PORT, by=self.by), tml.Accepted)
        both: tuple[Any, ...] = (model.links, accepted.links)
        for given in both:
            self.assertEqual(self.links(tml.with_links(PORT, given, by=self.by)), list(accepted.links))
            self.assertEqual([one.says() for one in self.links(tml.document_of(given))], [one.says() for one in accepted.links])

    def test_a_lid_stands_once(self) -> None:
        one = tml.Link(0, "ei1", "BEFORE", "ei2", "l1")
        self.assertEqual(
            [link.lid for link in self.links(tml.with_links(RATES, [one, one, one._replace(lid="e1")], by=self.by))], ["l1", None, None]
        )

    def test_times_keep_their_types(self) -> None:
        values = {
            "a": "PT5M",
            "b": "P1D",
            "c": "XXXX-WXX-1",
            "d": "XXXX-10",
            "e": "1998-01",
            "f": "1998-01-08T10:00",
            "g": "T12",
            "h": "PRESENT_REF",
            "i": "PAST_REF",
            "j": "1998-01-08TMO",
        }
        kinds = [one.kind for one in read(tml.document_of([], values)).times]
        self.assertEqual(kinds, ["DURATION", "DURATION", "SET", "SET", "DATE", "TIME", "TIME", "DATE", "DATE", "TIME"])

    def test_times_of_a_model(self) -> None:
        times = read(
            b'<TimeML><TIMEX3 tid="s" type="SET" value="P1D" quant="EVERY"/><TIMEX3 tid="m" type="DATE" value="1998" mod="END"/></TimeML>'
        ).times
        made = read(tml.document_of([("s", "BEFORE", "x")], times)).times
        self.assertEqual(
            [(one.id, one.kind, one.value, one.attributes.get("mod")) for one in made],
            [("s", "SET", "P1D", None), ("m", "DATE", "1998", "END")],
        )

    def test_what_is_no_relation(self) -> None:
        for wrong in ("abc", ("a", "BEFORE"), ("a", 1, "b"), None, b"abc"):
            with self.subTest(wrong):
                with self.assertRaisesRegex(TypeError, "^a relation is a triple of "):
                    tml.document_of([wrong])  # type: ignore[list-item]


@unittest.skipUnless(os.access(TML, os.X_OK), f"no program {TML}: build it as README.md says, or name one by TML=PROGRAM")
class Dictionaries(unittest.TestCase):
    by = tml.Process(TML)

    def test_each_answer_is_a_dictionary_for_json(self) -> None:
        clashing, placing = PORT, tml.expect(tml.seconds(RATES, by=self.by), tml.Placing)
        timeline = tml.expect(tml.timeline(RATES, by=self.by), tml.Timeline)
        answers: list[Any] = [
            read(RATES), tml.check(RATES, by=self.by), tml.check(b"<TimeML>", by=self.by), tml.clash(clashing, by=self.by), timeline,
            placing, tml.matrix(RATES, by=self.by), tml.possible(RATES, "ei1", "t1", by=self.by), tml.score(RATES, RATES, by=self.by),
            tml.reduce(RATES, by=self.by), tml.ask(RATES, "ei1", "BEFORE", "ei2", by=self.by),
            tml.ask(RATES, "ei1", "AFTER", "ei2", by=self.by), tml.confirm(RATES, placing.text, by=self.by),
            tml.verify(RATES, timeline.evidence, by=self.by), tml.verify(RATES, b"", by=self.by), tml.TooLong("key"), tml.KeyClash(),
            tml.drill(2, by=self.by), timeline.rows[0], tml.Relation("a", "BEFORE", "b"), *timeline_parts(timeline),
        ]  # fmt: skip
        for answer in answers:
            with self.subTest(type(answer).__name__):
                found = json.loads(json.dumps(answer.to_dict()))
                self.assertTrue(found)
                if not isinstance(answer, tuple):
                    self.assertEqual(found["result"], type(answer).__name__)

    def test_what_they_have(self) -> None:
        fault = tml.expect(tml.check(b"<TimeML>\n<EVENT/></TimeML>", by=self.by), tml.Fault)
        self.assertEqual({key: fault.to_dict()[key] for key in ("number", "line", "column")}, {"number": 10, "line": 2, "column": 1})
        self.assertEqual((fault.to_dict()["message"], "content" in fault.to_dict()), (fault.message, False))
        self.assertEqual(tml.Score(1, 2, 1, 1).to_dict()["f1"], 2 / 3)
        matrix = tml.expect(tml.matrix(RATES, by=self.by), tml.Matrix).to_dict()
        self.assertEqual(matrix["pairs"][0], {"first": "t0", "second": "t1", "possible": ["AFTER"]})


def timeline_parts(timeline: tml.Timeline) -> list[Any]:
    """The dates of its rows."""
    return [row.date for row in timeline.rows if row.date is not None]


if __name__ == "__main__":
    unittest.main()
