"""What `tml-corpus serve` suggests: names of tags, and of the relations of a link those first that the other links leave."""

from __future__ import annotations

import unittest

from corpus import TML, CorpusTest, document, needs_matrix
from serving import Client, Json, ServeTest
from tml.statuses import BASE_RELATIONS, BESIDE_BASE, RELATIONS
from tml_corpus.asking.program import Program
from tml_corpus.serve.possible import blanked, possible

INTERVALS = "".join(
    f'<EVENT eid="e{number}" class="STATE">{word}</EVENT>\n<MAKEINSTANCE eiid="i{number}" eventID="e{number}"/>\n'
    for number, word in enumerate(("one", "two", "three"), 1)
)


def link(left: str, relation: str, right: str) -> str:
    """A link between two instances."""
    return f'<TLINK eventInstanceID="{left}" relatedToEventInstance="{right}" relType="{relation}"/>\n'


class Completion(ServeTest):
    def items(self, client: Client, needle: str, more: int = 0) -> list[Json]:
        """What is suggested at a place."""
        return list(client.ask("textDocument/completion", self.about(needle, more)))

    def completed(self, item: Json) -> str:
        """The document with what is suggested."""
        return self.applied({"changes": {self.uri(): [item["textEdit"]]}})

    def test_names_of_tags(self) -> None:
        client = self.client()
        self.opened(client, document(f"{INTERVALS}a  word"))
        self.changed(client, document(f"{INTERVALS}a < word"), 2)
        items = self.items(client, "< word", 1)
        self.assertEqual([one["label"] for one in items][:7], ["EVENT", "MAKEINSTANCE", "TIMEX3", "SIGNAL", "TLINK", "ALINK", "SLINK"])
        self.assertEqual(items[0]["detail"], "needs eid, class")
        self.assertIn("eventInstanceID or timeID", items[4]["detail"])
        self.assertNotIn("TimeML", [one["label"] for one in items])
        self.changed(client, document(f"{INTERVALS}a <TIM word"), 3)
        self.assertEqual(self.completed(self.items(client, "<TIM word", 3)[2]), self.text.replace("<TIM word", "<TIMEX3 word"))
        self.assertEqual([one["label"] for one in self.items(client, "<TIM word", 2)][:1], ["EVENT"])
        self.assertEqual(self.items(client, " word", 3), [])

    def test_the_root_and_end_tags(self) -> None:
        client = self.client()
        self.opened(client, "<")
        self.assertEqual([one["label"] for one in self.items(client, "<", 1)], ["TimeML"])
        self.changed(client, document('<s>a <EVENT eid="e1" class="STATE">word</</s>'), 2)
        items = self.items(client, "</</s>", 2)
        self.assertEqual([one["label"] for one in items], ["EVENT", "s", "TimeML"])
        self.assertEqual(self.completed(items[0]), self.text.replace("</</s>", "</EVENT></s>"))
        self.changed(client, document('a <EVENT eid="e1" class="STATE">word</EV> b'), 3)
        self.assertEqual(self.completed(self.items(client, "</EV>", 4)[0]), self.text.replace("</EV>", "</EVENT>"))

    def test_wrappers_of_the_corpus(self) -> None:
        self.write("tml-corpus.toml", 'wrappers = ["lead"]\n')
        client = self.client()
        self.opened(client, document("a <"))
        self.assertIn("lead", [one["label"] for one in self.items(client, "a <", 3)])

    @needs_matrix
    def test_what_is_possible_comes_first(self) -> None:
        client = self.client()
        self.opened(client, "<TimeML/>")
        chain = link("i1", "BEFORE", "i2") + link("i2", "BEFORE", "i3")
        for version, (unfinished, needle, more) in enumerate(
            (
                ('<TLINK eventInstanceID="i1" relatedToEventInstance="i3" relType=""/>', 'relType=""', 9),
                ('<TLINK relType="" eventInstanceID="i1" relatedToEventInstance="i3"/>', 'relType=""', 9),
                ('<TLINK relType=\'BE eventInstanceID="i1" relatedToEventInstance="i3"/>', "relType='BE", 11),
                ('<TLINK eventInstanceID="i1" relatedToEventInstance="i3" relType="\n', 'relType="\n', 9),
                ('<TLINK eventInstanceID="i3" relatedToEventInstance="i1" relType="AFTER"/>', 'relType="AFTER', 10),
            ),
            2,
        ):
            with self.subTest(unfinished):
                self.changed(client, document(INTERVALS + unfinished + chain), version)
                items = self.items(client, needle, more)
                self.assertEqual(items[0]["label"], "AFTER" if '"i3" relatedToEvent' in unfinished else "BEFORE")
                said = [one["detail"] for one in items]
                self.assertEqual(said, ["possible beside the other links"] + ["clashes with the other links"] * 15)
                self.assertEqual(sorted(one["label"] for one in items), sorted(RELATIONS))

    @needs_matrix
    def test_where_it_is_not_known_what_is_possible(self) -> None:
        client = self.client()
        self.opened(client, "<TimeML/>")
        unfinished = '<TLINK eventInstanceID="i1" relatedToEventInstance="i3" relType=""/>'
        for version, text in enumerate(
            (
                INTERVALS + unfinished + link("i1", "BEFORE", "i9"),
                INTERVALS + unfinished + link("i1", "BEFORE", "i2") + link("i2", "BEFORE", "i1"),
                INTERVALS + unfinished.replace("i3", "i9"),
                INTERVALS + unfinished.replace("i3", "-&lt;"),
                INTERVALS + '<TLINK relType="',
            ),
            2,
        ):
            with self.subTest(text[len(INTERVALS) :]):
                self.changed(client, document(text), version)
                items = self.items(client, 'relType="', 9)
                self.assertEqual([one["label"] for one in items], list(RELATIONS))
                self.assertEqual({one["detail"] for one in items}, {"a relation of TLINK"})


@needs_matrix
class Possible(CorpusTest):
    def test_the_relations_beside_the_thirteen(self) -> None:
        program = Program(TML)
        for base in BASE_RELATIONS:
            text = document(INTERVALS + link("i1", base, "i2")).encode()
            lines = program.ask(["relations", "-"], text).text.decode().splitlines()
            following = [relation for left, relation, right in map(str.split, lines) if (left, right) == ("i1", "i2")]
            self.assertEqual(possible(program, text, "i1", "i2"), following, base)
        self.assertEqual(set(BESIDE_BASE) | set(BASE_RELATIONS), set(RELATIONS))

    def test_all_are_possible_of_what_is_in_no_link(self) -> None:
        self.assertEqual(possible(Program(TML), document(INTERVALS).encode(), "i1", "i2"), list(RELATIONS))

    def test_a_copy_with_spaces(self) -> None:
        self.assertEqual(blanked(b"abcdef", (1, 2), (3, 5)), b"a c  f")


if __name__ == "__main__":
    unittest.main()
