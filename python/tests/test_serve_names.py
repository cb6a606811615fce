"""Identifiers in an editor: from a word of the text to its links, and another name for an identifier."""

from __future__ import annotations

import unittest

from corpus import EVENT, INSTANCE, document
from serving import Client, Json, ServeTest

TIMES = (
    '<TIMEX3 tid="t1" type="DATE" value="1998">year</TIMEX3> ' '<TIMEX3 tid="t2" type="DATE" value="2001" anchorTimeID="t1">next</TIMEX3>\n'
)
LINKS = (
    '<TLINK lid="l1" eventInstanceID="i1" relatedToTime="t1" relType="BEFORE"/>\n'
    '<TLINK lid="l2" timeID="t1" relatedToTime="t2" relType="BEFORE"/>\n'
)
TEXT = document(EVENT + "\n" + TIMES + INSTANCE + "\n" + LINKS)


class References(ServeTest):
    def test_from_a_word_to_its_links(self) -> None:
        client = self.client()
        self.opened(client, TEXT)
        self.assertEqual(self.found(client, ">x<", 1), ['eid="e1"', 'eiid="i1"', 'eventID="e1"', 'eventInstanceID="i1"'])
        self.assertEqual(self.found(client, ">x<", 1, declared=False), ['eventID="e1"', 'eventInstanceID="i1"'])
        self.assertEqual(self.found(client, 'eid="e1"', 5), ['eid="e1"', 'eventID="e1"'])
        self.assertEqual(self.found(client, ">year<", 2), ['tid="t1"', 'anchorTimeID="t1"', 'relatedToTime="t1"', 'timeID="t1"'])

    def found(self, client: Client, needle: str, more: int, declared: bool = True) -> list[str]:
        """The attributes with the references of a place."""
        asked = {**self.about(needle, more), "context": {"includeDeclaration": declared}}
        places = [one["range"] for one in client.ask("textDocument/references", asked)]
        lines = self.text.split("\n")
        found = []
        for place in places:
            line = lines[place["start"]["line"]]
            start = line.rindex(" ", 0, place["start"]["character"]) + 1
            found.append(line[start : place["end"]["character"] + 1])
        return found


class Rename(ServeTest):
    def renamed(self, client: Client, needle: str, more: int, name: str) -> Json:
        """The answer to a request for another name."""
        return client.reply("textDocument/rename", {**self.about(needle, more), "newName": name})

    def refused(self, client: Client, needle: str, more: int, name: str) -> str:
        """Why it is refused."""
        error = self.renamed(client, needle, more, name)["error"]
        self.assertEqual(error["code"], -32803)
        return str(error["message"])

    def test_the_identifier_and_all_that_refers_to_it(self) -> None:
        client = self.client()
        self.opened(client, TEXT)
        self.assertEqual(self.can["renameProvider"], {"prepareProvider": True})
        prepared = client.ask("textDocument/prepareRename", self.about('relatedToTime="t1"', 16))
        self.assertEqual((prepared["placeholder"], self.stretch(prepared["range"])), ("t1", "t1"))
        for needle, more in (('relatedToTime="t1"', 16), ('tid="t1"', 5)):
            after = self.applied(self.renamed(client, needle, more, "y-1")["result"])
            self.assertEqual(after, TEXT.replace('"t1"', '"y-1"'))
        self.assertEqual(self.applied(self.renamed(client, 'eid="e1"', 5, "e7")["result"]), TEXT.replace('"e1"', '"e7"'))
        self.assertEqual([one["severity"] for one in self.changed(client, TEXT.replace('"t1"', '"y-1"'), 2) if one["severity"] == 1], [])
        self.text = TEXT.replace('"t1"', '"y-1"')
        same = self.renamed(client, 'tid="y-1"', 5, "y-1")["result"]
        self.assertEqual(list(same["changes"].values()), [[]])

    def test_where_there_is_none(self) -> None:
        client = self.client()
        self.opened(client, TEXT)
        for needle, more in ((">x<", 1), ("eid=", 1), ('class="STATE"', 8), ("<TimeML", 2)):
            with self.subTest(needle):
                self.assertIsNone(client.ask("textDocument/prepareRename", self.about(needle, more)))
                self.assertIn("no identifier is here", self.refused(client, needle, more, "e7"))

    def test_names_that_cannot_be_are_refused_in_words(self) -> None:
        client = self.client()
        self.opened(client, TEXT)
        for name, why in (
            ("", "an identifier has at least one letter"),
            ("a b", "'a b' is not an identifier: letters A to Z, digits, _ - and . are allowed"),
            ('"/>', "is not an identifier"),
            ("é", "is not an identifier"),
            ("\ud800", "is not an identifier"),
            ("x" * 65, "an identifier has 64 letters at most, and this one has 65"),
            ("t2", "a TIMEX3 has the identifier t2 already, at 3:57"),
            ("e1", "an EVENT has the identifier e1 already, at 2:1"),
            ("l2", "a TLINK has the identifier l2 already, at 6:1"),
        ):
            with self.subTest(name):
                self.assertIn(why, self.refused(client, 'tid="t1"', 5, name))
        self.assertEqual(client.reply("textDocument/rename", self.about('tid="t1"', 5))["error"]["code"], -32602)

    def test_documents_in_which_it_would_not_be_clear(self) -> None:
        client = self.client()
        for version, (text, why) in enumerate(
            (
                (
                    TEXT.replace('anchorTimeID="t1"', 'anchorTimeID="t9"'),
                    "the TIMEX3 at 3:57 refers to t9, which no tag has: mend that " "first",
                ),
                (TEXT.replace('tid="t2"', 'tid="t1"'), "two tags have the identifier t1, at 3:1 and 3:57: mend that first"),
                (TEXT.replace("<TLINK", "<TLINK x", 1), "not known while the markup is not well formed"),
            ),
            2,
        ):
            with self.subTest(why):
                if version == 2:
                    self.opened(client, "<TimeML/>")
                self.changed(client, text, version)
                self.assertIn(why, self.refused(client, 'tid="t1"', 5, "t9"))
        text = TEXT.replace('class="STATE"', 'class="State"')
        self.changed(client, text, 9)
        self.assertEqual(self.applied(self.renamed(client, 'tid="t1"', 5, "t9")["result"]), text.replace('"t1"', '"t9"'))


if __name__ == "__main__":
    unittest.main()
