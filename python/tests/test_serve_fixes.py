"""Quick fixes of `tml-corpus serve`: for each cure that a sentence names, and for the links of a clash."""

from __future__ import annotations

import os
import re
import unittest
from random import Random
from typing import Any

import advice
import test_mistakes
from advice import Reference, judged, search_once
from corpus import EVENT, INSTANCE, TML, TOP, CorpusTest, document, needs_matrix
from serving import Json, ServeTest, done, state_of
from slips import SLIPS
from stories import Story
from tml.statuses import RELATIONS
from tml.tags.profile import CLASS
from tml_corpus.asking.program import Reply
from tml_corpus.check.judgement import Judgement
from tml_corpus.check.placed import PlacedFault, PlacedWarning
from tml_corpus.lint.links import TO_EVENT, TO_TIME
from tml_corpus.serve.actions import actions
from tml_corpus.serve.document import Asked, OpenDocument
from tml_corpus.serve.splitting import file_beside

QUICK_FIX = "quickfix"
TABLES: Any = test_mistakes
DOING: Any = advice.DOING
WITHOUT_A_CURE = (
    "only links can order it", "nothing about its time", "see which words each belongs to", "and this day is a",
    "is far from the creation time", "February 1999 has 28 days", "the halves of a year", "shows its text in those that make sense",
)  # fmt: skip
"""What sentences say that name nothing which could be written as it stands there."""


def setUpModule() -> None:
    search_once()


class AskedReference(Asked):
    """`tml`, for which the reference answers in this process what is asked most often."""

    def __init__(self) -> None:
        super().__init__(TML)
        self.reference = Reference()

    def ask(self, words: list[str], document: bytes, other: bytes | None = None) -> Reply:
        return self.reference.ask(words, document, other) if words[0] in ("check", "spans") else super().ask(words, document, other)


def fixes(state: OpenDocument, start: int, end: int) -> list[Json]:
    """The quick fixes for a stretch."""
    return actions(state, (start, end), [QUICK_FIX])


def first_of(judgement: Judgement) -> PlacedFault | PlacedWarning:
    """What is said first."""
    return judgement.faults[0] if judgement.faults else judgement.warnings[0]


class Sentences(CorpusTest):
    def test_each_sentence_of_the_tables_that_names_a_cure_has_a_fix(self) -> None:
        with open(os.path.join(TOP, "samples", "rates.xml"), "rb") as file:
            right = file.read()
        for meant, slip, line in TABLES.rows():
            with self.subTest(line):
                state = state_of(right.replace(TABLES.raw(meant), TABLES.raw(slip), 1))
                first = first_of(judged(state.program, state.text))
                found = fixes(state, first.mark.start.offset, first.mark.end.offset)
                self.assertEqual(bool(found), not any(words in line for words in WITHOUT_A_CURE), [one["title"] for one in found])
                self.assertLessEqual(sum(one["isPreferred"] for one in found), 1)
                for one in found:
                    after = judged(state.program, done(state, one))
                    if one["isPreferred"] and not after.is_plain():
                        self.assertNotEqual(first_of(after).text, first.text)

    def test_what_is_printed_of_slips_is_offered_word_for_word(self) -> None:
        program, random, count = AskedReference(), Random(3), 0
        for slip in SLIPS.values():
            clean = Story(random).document()
            slipped = slip(random, clean)
            text = slipped if isinstance(slipped, bytes) else (slipped or clean).encode()
            judgement = judged(program, text)
            if not judgement.is_plain():
                count += self.check_offered(state_of(text, program), judgement)
        self.assertGreater(count, len(SLIPS) // 3)

    def check_offered(self, state: OpenDocument, judgement: Judgement) -> bool:
        """Whether something can be done that is printed first of a document; then it is among what is offered."""
        first = first_of(judgement)
        found = fixes(state, first.mark.start.offset, first.mark.end.offset)
        offered = [done(state, one) for one in found]
        wanted = [step.after for step in state.steps]
        has_one_cure = any(about.edits for _, about, _ in state.explained) or any(
            one.edits for one in state.suspects if one.text == first.text
        )
        if not state.steps and not has_one_cure and not re.search("add <MAKEINSTANCE", first.text):
            for pattern, do in DOING:
                said = re.search(pattern, first.text)
                if said is not None:
                    after = do(state.text, first.mark.start.offset, first.mark.end.offset, said)
                    wanted += [after] if after != state.text else []
                    break
        self.assertTrue(all(after in offered for after in wanted), (first.text, [one["title"] for one in found]))
        return bool(wanted)


class Choices(CorpusTest):
    def titles(self, text: str, needle: str) -> list[str]:
        """What is offered at a text."""
        state = state_of(text)
        at = text.encode().index(needle.encode())
        self.state, self.found = state, fixes(state, at, at)
        return [one["title"] for one in self.found]

    def after(self, title: str) -> str:
        """The document after what has this title."""
        return done(self.state, next(one for one in self.found if one["title"] == title)).decode()

    def test_an_identifier_that_is_used_twice(self) -> None:
        text = document(EVENT + '<EVENT eid="e1" class="STATE">y</EVENT>' + INSTANCE)
        self.assertEqual(self.titles(text, ">y<"), ['Delete <EVENT eid="e1" class="STATE">y</EVENT>', "Write e3 for e1"])
        self.assertEqual(self.after("Write e3 for e1"), text.replace('"e1" class="STATE">y', '"e3" class="STATE">y'))

    def test_an_instance_to_add(self) -> None:
        other = '<EVENT eid="e2" class="STATE">y</EVENT>'
        whole = INSTANCE.replace("/>", ' tense="PAST" aspect="NONE" pos="VERB" polarity="NEG"/>')
        [title] = self.titles(document(EVENT + other + "\n" + whole), ">y<")
        self.assertEqual(title, 'Add <MAKEINSTANCE eiid="ei2" eventID="e2" tense="NONE" aspect...')
        new = '<MAKEINSTANCE eiid="ei2" eventID="e2" tense="NONE" aspect="NONE" pos="UNKNOWN" polarity="POS"/>'
        self.assertEqual(self.after(title), document(EVENT + other + "\n" + whole + "\n" + new))
        link = '<TLINK eventInstanceID="e2" relatedToEventInstance="i1" relType="BEFORE"/>'
        [title] = self.titles(document(EVENT + other + "\n" + INSTANCE + "\n" + link), "<TLINK")
        mended = document(EVENT + other + "\n" + INSTANCE + '\n<MAKEINSTANCE eiid="ei2" eventID="e2"/>\n' + link.replace('"e2"', '"ei2"'))
        self.assertEqual(self.after(title), mended)

    def test_tags_that_are_not_closed_or_not_opened(self) -> None:
        text = document('<s><EVENT eid="e1" class="STATE">one two <TIMEX3 tid="t1" type="DATE">x</TIMEX3></s>')
        self.assertEqual(self.titles(text, "<EVENT"), ["Write </EVENT> after one", "Write </EVENT> after two"])
        self.assertEqual(self.after("Write </EVENT> after two"), text.replace("two", "two</EVENT>"))
        text = document('<s>one two</EVENT></s><TLINK timeID="t9" relatedToTime="t9" relType="BEFORE"/>')
        self.assertEqual(self.titles(text, "two<"), ['Write <EVENT eid="e1" class="OCCURRENCE"> before two'])
        text = document('<EVENT eid="e1" class="STATE">x<s>y</EVENT></s>')
        self.titles(text, "<EVENT")
        self.assertIn(document('<EVENT eid="e1" class="STATE">x<s>y</s></EVENT>'), [done(self.state, one).decode() for one in self.found])

    def test_the_root(self) -> None:
        for text, wanted in (
            ("", "<TimeML>\n</TimeML>\n"),
            ("word", "<TimeML>\nword</TimeML>\n"),
            ("<TimeML>word", "<TimeML>word\n</TimeML>\n"),
            ("<TimeML>word</TimeML> more\n", "<TimeML>word more\n</TimeML>"),
            ("more <TimeML>word</TimeML>", "<TimeML>more word</TimeML>"),
            ("<Report>word</Report>", "<TimeML>word</TimeML>"),
        ):
            with self.subTest(text):
                self.titles(text, text[:1])
                self.assertIn(wanted, [done(self.state, one).decode() for one in self.found])

    def test_two_versions(self) -> None:
        text = document("a\n<<<<<<< HEAD\none\n=======\ntwo\n>>>>>>> other\nb\n")
        self.titles(text, "<<<<<<<")
        for version in ("one", "two"):
            self.assertIn(document(f"a\n{version}\nb\n"), [done(self.state, one).decode() for one in self.found])

    def test_markup_with_several_cures(self) -> None:
        for inner, wanted in (
            ("a &ampb c", ["a &amp;b c", "a &amp;ampb c"]),
            ("a &foo; b", ["a &amp;foo; b"]),
            ("<?x y?>a", ["a"]),
            ("<!-- a\nb", ["<!-- a-->\nb"]),
            ('<s x class="a">b</s>', ['<s class="a">b</s>']),
            ("<s>b</s x>", ["<s>b</s >"]),
        ):
            with self.subTest(inner):
                self.titles(document(inner), inner.split("\n")[0])
                offered = [done(self.state, one).decode() for one in self.found]
                for one in wanted:
                    self.assertIn(document(one), offered)

    def test_attributes_with_several_cures(self) -> None:
        time = '<TIMEX3 tid="t1" type="TIME" value="1998-02-28T24:30">x</TIMEX3>'
        for inner, needle, wanted in (
            (EVENT.replace("eid", 'eid="e2" eid'), "<EVENT", ['Delete eid="e1"', 'Delete eid="e2"']),
            (time, "<TIMEX3", ["Write 1998-03-01T00:30 for 1998-02-28T24:30"]),
            (EVENT.replace("STATE", "XYZ"), "<EVENT", [f"Write {one} for XYZ" for one in CLASS.values]),
            (EVENT.replace("e1", ""), "<EVENT", ['Write e2 after eid="']),
            (EVENT + INSTANCE.replace("e1", "x"), "<MAKEINSTANCE", ["Write e1 for x"]),
            (EVENT + EVENT.replace("e1", "e5") + INSTANCE.replace("e1", "x"), "<MAKEINSTANCE", ["Write e1 for x", "Write e5 for x"]),
            ("<XYZ>a</XYZ>", "<XYZ", ["Delete <XYZ> and delete </XYZ>"]),
        ):
            with self.subTest(inner):
                self.assertEqual(self.titles(document(inner), needle), wanted)

    def test_names_to_which_tags_refer_in_vain(self) -> None:
        instances = INSTANCE.replace("e1", "e8") + INSTANCE.replace('"i1" eventID="e1"', '"i2" eventID="e9"')
        inner = EVENT + EVENT.replace(">x<", ">y<") + instances
        self.titles(document(inner), ">y<")
        offered = [done(self.state, one).decode() for one in self.found]
        for event in (EVENT, EVENT.replace(">x<", ">y<")):
            for name in ("e8", "e9"):
                self.assertIn(document(inner.replace(event, event.replace("e1", name))), offered)

    def test_what_two_attributes_lack_is_offered_together(self) -> None:
        text = document("<EVENT>x</EVENT>")
        titles = self.titles(text, "<EVENT")
        self.assertEqual(titles[0], 'Write eid="e2" after EVENT and write class="OCCURRENCE" after EVENT')
        self.assertEqual(len(titles), 7)
        self.assertEqual(self.after(titles[0]), text.replace("<EVENT>", '<EVENT eid="e2" class="OCCURRENCE">'))

    def test_what_may_be_a_consequence_is_offered_as_that(self) -> None:
        titles = self.titles(document('<EVENT eid="e1" class="STATE>x</EVENT>'), "<EVENT")
        perhaps = 'Write <EVENT eid="e1" class="OCCURRENCE"> before x, if no fault before is the cause'
        self.assertEqual(titles, ['Write " after class="STATE', perhaps])
        self.assertEqual([one["isPreferred"] for one in self.found], [True, False])

    def test_a_link_for_what_is_in_none(self) -> None:
        created = '<TIMEX3 tid="t0" type="DATE" value="1998-01-08" functionInDocument="CREATION_TIME">x</TIMEX3>\n'
        text = chain(("i1", "BEFORE", "i2"), count=3)
        self.assertEqual(self.titles(text, '<MAKEINSTANCE eiid="i3"'), [f"Add a TLINK: i3 {one} i2" for one in TO_EVENT])
        added = '<TLINK lid="l2" eventInstanceID="i3" relatedToEventInstance="i2" relType="AFTER"/>\n'
        self.assertEqual(self.after("Add a TLINK: i3 AFTER i2"), text.replace("\n</TimeML>", f"\n{added}</TimeML>"))
        titles = self.titles(text.replace("<TimeML>", "<TimeML>" + created), '<MAKEINSTANCE eiid="i3"')
        self.assertEqual(titles[:3], [f"Add a TLINK: i3 {one} t0" for one in TO_TIME])
        self.assertTrue(all(state_of(done(self.state, one)).fits() for one in self.found))
        self.assertEqual(self.titles(document(EVENT + INSTANCE), "<MAKEINSTANCE"), [], "there is nothing beside it")
        other = document(EVENT + INSTANCE + EVENT.replace("e1", "e2") + INSTANCE.replace('i1" eventID="e1', 'i2" eventID="e2'))
        self.assertEqual(self.titles(other, ">x<")[0], "Add a TLINK: i1 BEFORE i2", "after the last instance, and to the event after it")

    def test_what_lint_sees_twice_or_without_words(self) -> None:
        text = document('one two <SIGNAL sid="s1"/>, three')
        self.titles(text, "<SIGNAL")
        offered = [done(self.state, one).decode() for one in self.found if "SIGNAL" in one["title"]]
        self.assertEqual(offered, [document('one <SIGNAL sid="s1">two</SIGNAL> , three')], "no word is a comma")
        inner = '<TIMEX3 tid="t1" type="DATE" value="1998">x</TIMEX3>'
        self.titles(document(EVENT.replace("x", inner)), "<TIMEX3")
        self.assertIn(document(EVENT), [done(self.state, one).decode() for one in self.found])


class Splitting(ServeTest):
    second = '<?xml version="1.0"?>\n<TimeML>\u00e9</TimeML>\n'

    def opened_twice(self, **capabilities: Json) -> list[Json]:
        """What is offered where a second document begins, to an editor that can do some things."""
        client = self.client(**capabilities)
        self.opened(client, document("\u00e9") + "\n" + self.second)
        return self.actions(client, "<?xml", only=[QUICK_FIX])

    def test_an_editor_that_makes_files_gets_a_new_one(self) -> None:
        self.write("d.2.xml", "taken")
        found, *_ = self.opened_twice(workspace={"workspaceEdit": {"resourceOperations": ["create", "rename"]}})
        self.assertEqual((found["title"], found["isPreferred"]), ("Split the second document off into d.3.xml", False))
        made, filled, cut = found["edit"]["documentChanges"]
        self.assertEqual(made, {"kind": "create", "uri": self.uri("d.3.xml")})
        self.assertEqual((filled["textDocument"]["uri"], [one["newText"] for one in filled["edits"]]), (made["uri"], [self.second]))
        self.assertEqual(cut["textDocument"]["uri"], self.uri())
        self.assertEqual(self.applied({"changes": {self.uri(): cut["edits"]}}), document("\u00e9") + "\n")
        self.assertFalse(os.path.exists(self.path("d.3.xml")), "a server writes nothing")

    def test_another_one_deletes_it(self) -> None:
        for edits in ({}, {"documentChanges": True}, {"resourceOperations": [1, "rename"]}, {"resourceOperations": "create"}):
            found, *_ = self.opened_twice(workspace={"workspaceEdit": edits})
            self.assertEqual((found["title"], found["isPreferred"]), ("Delete the second document, to be pasted elsewhere", False))
            self.assertEqual(self.applied(found), document("\u00e9") + "\n")

    def test_a_document_in_no_file_has_no_file_beside(self) -> None:
        self.assertIsNone(file_beside("untitled:Untitled-1"))
        self.assertEqual(file_beside("file:///none/a%20b.v1.tml"), "file:///none/a%20b.v1.2.tml")
        self.assertEqual(file_beside("file:///none/a.b/c"), "file:///none/a.b/c.2")

    def test_a_document_whose_end_was_lost(self) -> None:
        state = state_of(document(EVENT)[: -len("</TimeML>")] + document("a"))
        at = state.text.rindex(b"<TimeML>")
        found = actions(state, (at, at), [QUICK_FIX])
        self.assertIn(state.text[:at], [done(state, one) for one in found])


def chain(*links: tuple[str, str, str], count: int = 4) -> str:
    """Some events with links between their instances."""
    parts = [
        f'<EVENT eid="e{number}" class="STATE">w{number}</EVENT>\n<MAKEINSTANCE eiid="i{number}" eventID="e{number}"/>\n'
        for number in range(1, count + 1)
    ]
    return document("".join(parts) + "".join(link(*one) for one in links))


def link(left: str, relation: str, right: str) -> str:
    """A link between two instances."""
    return f'<TLINK eventInstanceID="{left}" relatedToEventInstance="{right}" relType="{relation}"/>\n'


@needs_matrix
class Clashes(CorpusTest):
    def found(self, text: str, needle: str) -> tuple[OpenDocument, list[Json]]:
        """A document, and what is offered at a text of it."""
        state = state_of(text)
        at = text.encode().index(needle.encode())
        return state, fixes(state, at, at)

    def test_each_link_of_a_clash(self) -> None:
        with open(os.path.join(TOP, "samples", "port.xml"), encoding="utf-8") as file:
            text = file.read()
        state = state_of(text)
        [clash] = state.clashes(further=False).shown_clashes()
        for one in clash.links:
            tag = state.wording.link_tags[one.link.number]
            found = fixes(state, tag.start, tag.end)
            self.assertEqual(found[-1]["title"], f"Remove this link: {one.text}")
            written = [action["title"].split(":")[0].removeprefix("Correct to ") for action in found[:-1]]
            self.assertEqual(written, [relation for relation in RELATIONS if relation in written and relation != one.link.relation])
            for action in found:
                self.assertTrue(state_of(done(state, action)).fits(), action["title"])
        self.assertEqual(fixes(state, 0, 5), [])

    def test_the_links_of_another_clash_are_left_out(self) -> None:
        text = chain(("i1", "BEFORE", "i2"), ("i2", "BEFORE", "i1"), ("i3", "INCLUDES", "i4"), ("i4", "INCLUDES", "i3"))
        state, found = self.found(text, link("i1", "BEFORE", "i2"))
        titles = [one["title"] for one in found]
        self.assertEqual(titles[0], "Correct to AFTER: w1 BEFORE w2 (link 0: i1 BEFORE i2)")
        self.assertEqual(len(titles), 2)
        left = state_of(done(state, found[0])).clashes(further=True).shown_clashes()
        self.assertEqual([{one.link.number for one in clash.links} for clash in left], [{2, 3}])

    def test_where_all_other_links_clash_those_of_the_clash_are_asked_about(self) -> None:
        text = chain(("i1", "BEFORE", "i2"), ("i2", "BEFORE", "i1"), ("i2", "INCLUDES", "i1"))
        _, found = self.found(text, link("i1", "BEFORE", "i2"))
        self.assertIn("Correct to IS_INCLUDED, which fits the other links of this clash: ", "\n".join(one["title"] for one in found))
        self.assertTrue(found[-1]["title"].startswith("Remove this link: "))

    def test_a_relation_that_is_at_fault_is_ordered_by_what_is_possible(self) -> None:
        text = chain(("i1", "BEFORE", "i2"), ("i2", "BEFORE", "i3"), ("i1", "OVERLAP", "i3"))
        _, found = self.found(text, 'relType="OVERLAP"')
        titles = [one["title"] for one in found]
        self.assertEqual(titles[0], "Write BEFORE for OVERLAP")
        self.assertIn("Write OVERLAPS for OVERLAP, which clashes with the other links", titles)
        self.assertTrue(any(one.startswith("Delete <TLINK") for one in titles))
        self.assertEqual(sum("clashes" in one for one in titles), 15)


if __name__ == "__main__":
    unittest.main()
