"""What `tml-corpus serve` makes of a selection: an EVENT with its MAKEINSTANCE, or a TIMEX3."""

from __future__ import annotations

import os
import re
import unittest

from corpus import EVENT, INSTANCE, TOP, CorpusTest, document
from serving import Json, done, state_of
from tml.statuses import INTERVAL_LIMIT
from tml_corpus.check.fix import first_fault
from tml_corpus.serve.actions import actions
from tml_corpus.serve.document import OpenDocument

ANNOTATE = "refactor.rewrite"
TEXT = document(
    f"<s>The bank of {EVENT} on 1998-01-07 &amp; <ENAMEX>Lund</ENAMEX> fell.</s>\n{INSTANCE}\n"
    '<TLINK eventInstanceID="i1" relatedToEventInstance="i1" relType="IDENTITY"/>\n'
)


def selected(state: OpenDocument, words: str, place: int | None = None) -> list[Json]:
    """What can be made of some words, those at a place or the first ones."""
    start = state.text.index(words.encode()) if place is None else place
    found = actions(state, (start, start + len(words.encode())), [ANNOTATE])
    return [one for one in found if one["title"].startswith("Annotate")]


class Selection(CorpusTest):
    def test_an_event_with_its_instance(self) -> None:
        state = state_of(TEXT)
        event, time = selected(state, "fell")
        self.assertEqual((event["title"], event["kind"]), ('Annotate "fell" as an EVENT with its MAKEINSTANCE', ANNOTATE))
        instance = '<MAKEINSTANCE eiid="ei2" eventID="e2"/>'
        wanted = TEXT.replace("fell", '<EVENT eid="e2" class="OCCURRENCE">fell</EVENT>').replace(INSTANCE, f"{INSTANCE}\n{instance}")
        self.assertEqual(done(state, event).decode(), wanted)
        self.assertEqual(time["title"], 'Annotate "fell" as a TIMEX3')
        self.assertEqual(done(state, time).decode(), TEXT.replace("fell", '<TIMEX3 tid="t0" type="DATE" value="XXXX-XX-XX">fell</TIMEX3>'))

    def test_the_value_of_a_time_where_the_words_are_one(self) -> None:
        for words, kind, value in (
            ("1998-01-07", "DATE", "1998-01-07"), ("07/31/1998", "DATE", "1998-07-31"), ("P3D", "DURATION", "P3D"),
            ("1998-01-07T10:30", "TIME", "1998-01-07T10:30"), ("07/01/1998", "DATE", "XXXX-XX-XX"), ("98", "DATE", "XXXX-XX-XX"),
        ):  # fmt: skip
            state = state_of(document(f"on {words} it"))
            [_, time] = selected(state, words)
            self.assertEqual(done(state, time).decode(), document(f'on <TIMEX3 tid="t0" type="{kind}" value="{value}">{words}</TIMEX3> it'))

    def test_it_is_accepted_where_the_document_was(self) -> None:
        for name in ("rates.xml", "port.xml", "talks.xml", "plant.xml", "bridge.xml"):
            with open(os.path.join(TOP, "samples", name), "rb") as file:
                state = state_of(file.read())
            word = re.compile(rb">\s+([a-z]+)[ .,]").search(state.text)
            assert word is not None
            found = selected(state, word[1].decode(), word.start(1))
            self.assertEqual(len(found), 2, (name, word[1]))
            for action in found:
                with self.subTest(name, title=action["title"]):
                    self.assertIsNone(first_fault(state.program, done(state, action)))

    def test_spaces_around_the_words_and_tags_among_them(self) -> None:
        state = state_of(TEXT)
        self.assertIn(b">&amp; <ENAMEX>Lund</ENAMEX> fell</EVENT>.", done(state, selected(state, " &amp; <ENAMEX>Lund</ENAMEX> fell")[0]))
        self.assertEqual(selected(state, "Lund")[0]["title"], 'Annotate "Lund" as an EVENT with its MAKEINSTANCE')

    def test_where_nothing_can_be_made(self) -> None:
        state = state_of(TEXT)
        inside_tags = ("of <EVENT", EVENT, "ENAMEX", "Lund</ENAMEX> fell", "amp; ", "TLINK", "\n<TLINK", "<TimeML>", "bank of " + EVENT)
        for words in (" ", "", "x", *inside_tags):
            with self.subTest(words):
                self.assertEqual(selected(state, words), [])
        self.assertEqual(selected(state_of("<TimeML>a < b</TimeML>"), "b"), [])
        self.assertEqual(selected(state_of("<TimeML>a" + " b" * 2_100_000 + "</TimeML>"), "b"), [])
        self.assertEqual(selected(state_of("a <TimeML>b</TimeML>"), "a"), [])

    def test_a_document_with_a_fault_keeps_it(self) -> None:
        text = TEXT.replace("STATE", "State").replace('relatedToEventInstance="i1"', 'relatedToEventInstance="ei2"')
        state = state_of(text)
        event, _ = selected(state, "fell")
        after = first_fault(state.program, done(state, event))
        self.assertEqual((after and after.number, state.fault and state.fault.number), (11, 11))
        self.assertIn(b'eiid="ei3" eventID="e2"', done(state, event))

    def test_no_more_than_tml_takes(self) -> None:
        instances = "".join(f'<MAKEINSTANCE eiid="j{number}" eventID="e1"/>' for number in range(INTERVAL_LIMIT))
        self.assertEqual(selected(state_of(document(EVENT + " word " + instances)), "word"), [])


if __name__ == "__main__":
    unittest.main()
