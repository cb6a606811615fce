"""The small scripts of `tools/`: `redundant-links`, `tml-edit`, `from-tempeval2` and `html-entities`."""

import os
import subprocess
import unittest

from corpus import EVENT, INSTANCE, TML, TOOLS, CorpusTest, document, needs_score
from forked import run_forked
from processes import BARE
from tml.statuses import RELATIONS

A, B = '<TIMEX3 tid="a" type="SET"/>', '<TIMEX3 tid="b" type="SET"/>'


def link(a: str, relation: str, b: str, rest: str = "/>") -> str:
    """A TLINK between two times."""
    return f'<TLINK timeID="{a}" relatedToTime="{b}" relType="{relation}"{rest}'


class ScriptTest(CorpusTest):
    """A test that runs scripts in its folder."""

    def run_script(self, name: str, *words: str, given: bytes = b"") -> tuple[int, str, str]:
        """The status, standard output and standard error of a script."""
        tml = ["--tml", TML] if name in ("redundant-links", "tml-edit") else []
        ended = run_forked(os.path.join(TOOLS, name), *tml, *words, folder=self.folder, given=given)
        return ended.status, ended.out.decode(), ended.error.decode()

    def edit(self, content: str, *words: str) -> str:
        """What `tml-edit` makes of a document."""
        self.write("d.xml", content)
        status, out, error = self.run_script("tml-edit", *words, "d.xml")
        self.assertEqual((status, error), (0, ""))
        return out

    def tml(self, *words: str, given: bytes = b"") -> tuple[int, str]:
        """The status and the text of `tml`."""
        done = subprocess.run([TML, *words], input=given, cwd=self.folder, stdout=subprocess.PIPE, check=False)
        return done.returncode, done.stdout.decode()

    def test_edit_takes_folders(self) -> None:
        old, new = "<TimeML><HL>x</HL></TimeML>\n", "<TimeML>x</TimeML>\n"
        contents = {"c/a.xml": old, "c/b.xml": new, "c/d/e.tml": old, "c/f.txt": old, "c/g.xml": "<TimeML"}
        for name, content in contents.items():
            self.write(name, content)

        def read() -> dict[str, str]:
            return {name: self.read_text(name) for name in contents}

        status, out, error = self.run_script("tml-edit", "--unwrap", "HL", "c")
        self.assertEqual((status, read()), (1, contents))
        self.assertEqual(
            [line for line in out.splitlines() if line[:1] in "-+3"][:4],
            ["--- c/a.xml", "+++ c/a.xml (changed)", "-<TimeML><HL>x</HL></TimeML>", "+<TimeML>x</TimeML>"],
        )
        self.assertEqual(out.splitlines()[-1], "4 files: 2 can be changed (--write does it), 1 that cannot be")
        self.assertIn("c/g.xml: not changed: fault 3 BadMarkup at 1:1: mend it first", error)
        status, out, _ = self.run_script("tml-edit", "--unwrap", "HL", "--write", "c", "--glob", "*.xml", "--glob", "*.tml")
        self.assertEqual((status, out), (1, "c/a.xml: changed\nc/d/e.tml: changed\n4 files: 2 changed, 1 that cannot be\n"))
        self.assertEqual(read(), {**contents, "c/a.xml": new, "c/d/e.tml": new})
        self.assertEqual(
            self.run_script("tml-edit", "--unwrap", "HL", "--write", "c/a.xml")[:2], (0, "1 file: 0 changed, 0 that cannot be\n")
        )
        self.assertEqual(
            self.run_script("tml-edit", "--write", "-"), (2, "", "tml-edit: - has to be the only path, and goes without " "--write\n")
        )

    def test_help_has_an_example(self) -> None:
        for name in ("redundant-links", "tml-edit", "from-tempeval2", "html-entities"):
            with self.subTest(name):
                status, out, _ = self.run_script(name, "--help")
                self.assertEqual(status, 0)
                self.assertIn("Example", out)
                self.assertEqual(self.run_script(name, "--no-such-option")[0], 2)


@needs_score
class RedundantLinks(ScriptTest):
    def test_links_that_are_named(self) -> None:
        times = "".join(f'<TIMEX3 tid="{name}" type="SET"/>' for name in "abc")
        chain = link("a", "BEFORE", "b") + "\n" + link("b", "BEFORE", "c", "> </TLINK>") + "\n"
        rows = [
            (chain, []),
            (chain + link("a", "BEFORE", "c"), ["4:1"]),
            (chain + link("b", "AFTER", "a") + "\n" + link("c", "AFTER", "b"), ["2:85", "3:1"]),
            (chain + link("a", "DURING", "b", "><!-- x --></TLINK>"), None),
        ]
        for links, places in rows:
            with self.subTest(links):
                self.write("d e.xml", document(times + links))
                status, out, error = self.run_script("redundant-links", "d e.xml")
                printed = [":".join(line.split(":")[1:3]) for line in out.splitlines() if ": follows: " in line]
                self.assertEqual((status, printed, error), (2, [], "") if places is None else (1 if places else 0, places, ""))

    def test_words_of_the_text(self) -> None:
        self.write(
            "d.xml", document(f"<s>{EVENT} {A}</s>{INSTANCE}" + 2 * '<TLINK eventInstanceID="i1" relatedToTime="a" relType="ENDS"/>')
        )
        _, out, _ = self.run_script("redundant-links", "d.xml")
        self.assertEqual(out.splitlines()[0], "d.xml:2:114: follows: x ENDS a (link 0: i1 ENDS a)")
        self.assertEqual(out.splitlines()[1:], ["1 file, 0 skipped; links that follow from those that are kept: 1 of 2"])

    def test_what_is_named_follows_from_the_rest(self) -> None:
        names = [f"t{number}" for number in range(5)]
        times = "".join(f'<TIMEX3 tid="{name}" type="SET"/>' for name in names)
        links = [link(a, "BEFORE", b) for a in names for b in names if a < b]
        self.write("d.xml", document(times + "\n" + "\n".join(links) + "\n"))
        lines = self.run_script("redundant-links", "d.xml")[1].splitlines()
        left_out = {int(line.split(":")[1]) for line in lines if ": follows: " in line}
        self.assertEqual(len(left_out), 6)
        kept = "".join(line for number, line in enumerate(self.read_text("d.xml").splitlines(keepends=True), 1) if number not in left_out)
        self.assertEqual(self.tml("relations", "-", given=kept.encode()), self.tml("relations", "d.xml"))

    def test_what_cannot_be_asked_about(self) -> None:
        self.write("a.xml", document("<EVENT/>"))
        self.write("b.xml", document(A + B + link("a", "BEFORE", "b") + link("a", "AFTER", "b") + link("a", "ENDS", "b")))
        self.write("c.xml", document(A + B + link("a", "BEFORE", "b")))
        status, out, _ = self.run_script("redundant-links", ".", "gone.xml")
        self.assertEqual(status, 2)
        self.assertEqual(
            out.splitlines(),
            [
                "./a.xml: skipped: fault 10 MissingAttribute at 2:1",
                "./b.xml: skipped: its links contradict each other: see tml-corpus clashes",
                "gone.xml: skipped: no such file or directory",
                "4 files, 3 skipped; links that follow from those that are kept: 0 of 1",
            ],
        )


class Edits(ScriptTest):
    def test_values_that_are_not_utf8(self) -> None:
        self.write("d.xml", document("<P pos='x'/>"))
        command = [os.fsencode(one) for one in (*BARE, os.path.join(TOOLS, "tml-edit"), "--tml", TML, "--value", "P", "pos", "x")]
        done = subprocess.run([*command, b"\xff", b"d.xml"], cwd=self.folder, capture_output=True, text=True, check=False, timeout=60)
        self.assertEqual((done.returncode, done.stdout), (2, ""))
        self.assertTrue(done.stderr.endswith("\ntml-edit: error: argument --value: \\xff is not UTF-8\n"), done.stderr)

    def test_tags_and_values(self) -> None:
        rows = [
            (
                "<a><HL b='1'>x</HL><hr /></a>",
                ["--unwrap", "hr", "--rename", "HL=HEADLINE", "--unwrap", "a"],
                "<HEADLINE b='1'>x</HEADLINE>",
            ),
            ("<!-- <HL> --><HL >x</HL >", ["--unwrap", "HL"], "<!-- <HL> -->x"),
            ("<P a='>' pos = 'x'/>", ["--value", "P", "pos", "x", "y"], "<P a='>' pos = 'y'/>"),
            ("<P  a='1'\n pos='x' pos='z' b=''/>", ["--value", "P", "pos", "x", ""], "<P  a='1' pos='z' b=''/>"),
            ("<P pos='x' qpos='x'>pos='x'</P>", ["--value", "P", "pos", "*", ""], "<P qpos='x'>pos='x'</P>"),
            ("<P pos='x'/>", ["--value", "S", "pos", "x", "y", "--value", "P", "pos", "y", "z"], "<P pos='x'/>"),
            (link("a", "VAGUE", "b") + link("a", "ENDS", "b") + "<TLINK/>", ["--drop-links", "VAGUE,"], link("a", "ENDS", "b")),
            (link("a", "NONE", "b", ">\n</TLINK>") + "<SLINK relType='NONE'/>é", ["--drop-links", "VAGUE", "--drop-links", "NONE"], "é"),
        ]
        for inner, words, changed in rows:
            with self.subTest(inner):
                self.assertEqual(self.edit(document(inner), *words), document(changed))

    def test_nothing_to_change_changes_no_byte(self) -> None:
        content = "\ufeff<?xml version='1.0'?>\r\n<!DOCTYPE TimeML>\r\n<TimeML  >\t<P a = \"&lt;é\" />&#xe9;</TimeML\n><!-- - -->"
        self.assertEqual(self.edit(content, "--unwrap", "X", "--overlaps", "--iso", "--drop-links", "NONE").encode(), content.encode())

    def test_instances(self) -> None:
        events = '<EVENT eid="e1" class="STATE" tense="PAST" x="y">a</EVENT><EVENT eid="e2" class="STATE"/><SIGNAL sid="i.e2"/>\n'
        before = events + '<MAKEINSTANCE eiid="m" eventID="e1"/><TLINK eventInstanceID="m" relatedToEvent="e2" relType="ENDS"/>\n'
        after = events + '<MAKEINSTANCE eiid="m" eventID="e1"/>'
        after += '<TLINK eventInstanceID="m" relatedToEventInstance="i.e2.2" relType="ENDS"/>\n'
        made = '<MAKEINSTANCE eiid="i.e2.2" eventID="e2"/>\n'
        self.assertEqual(self.edit(document(before), "--instances"), document(after + made))
        self.assertEqual(self.tml("relations", "-", given=document(after + made).encode()), (0, "m DURING i.e2.2\nm ENDS i.e2.2\n"))
        # A name of an event that is the name of an instance too is that of the instance.
        same = '<EVENT eid="e1" class="STATE"/><EVENT eid="e2" class="STATE"/><MAKEINSTANCE eiid="e1" eventID="e2"/>'
        ends = '<TLINK eventInstanceID="e1" relatedToEventInstance="e2" relType="ENDS"/>'
        self.assertIn('eventInstanceID="e1" relatedToEventInstance="e1"', self.edit(document(same + ends), "--instances"))

    def test_iso(self) -> None:
        inner = '<EVENT xml:id="e1" class="STATE" tense="PAST"/><TIMEX3 xml:id="t1" type="DATE" anchorTimeID="#t1" value="#x"/>\n'
        inner += '<SLINK xml:id="l1" eventID="#e1" subordinatedEvent="#e1" relType="MODAL"/>\n'
        made = self.edit(document(inner), "--iso")
        self.assertIn('<TIMEX3 tid="t1" type="DATE" anchorTimeID="t1" value="#x"/>', made)
        self.assertIn('<SLINK lid="l1" eventInstanceID="i.e1" subordinatedEventInstance="i.e1" relType="MODAL"/>', made)
        self.assertEqual(self.tml("check", "-", given=made.encode())[0], 0)

    def test_overlaps_leave_just_the_relations_that_they_should(self) -> None:
        left = {
            "OVERLAP": {"BEFORE", "AFTER", "IBEFORE", "IAFTER"},
            "BEFORE-OR-OVERLAP": {"AFTER", "IAFTER"},
            "OVERLAP-OR-AFTER": {"BEFORE", "IBEFORE"},
        }
        for overlap, excluded in left.items():
            for relation in RELATIONS:
                with self.subTest(overlap=overlap, relation=relation):
                    made = self.edit(document(A + B + link("a", overlap, "b") + link("a", relation, "b")), "--overlaps")
                    self.assertEqual(self.tml("solve", "-", given=made.encode())[0], 2 if relation in excluded else 0)
            # Nothing of the sixteen follows: what is left of Allen's thirteen has no relation in common.
            made = self.edit(document(A + B + link("a", overlap, "b", "> </TLINK>")), "--overlaps")
            printed = self.tml("relations", "-", given=made.encode())[1]
            self.assertEqual([line for line in printed.splitlines() if "o." not in line], [])

    def test_links_of_a_table(self) -> None:
        inner = EVENT + INSTANCE + '<MAKEINSTANCE eiid="i2" eventID="e1"/>' + A
        self.write("table", "d a e1 ii\nother a a b\n\nd i2 a BEFORE\n")
        made = self.edit(document(inner), "--links", "table")
        links = ['timeID="a" relatedToEventInstance="i1" relType="IS_INCLUDED"', 'eventInstanceID="i2" relatedToTime="a" relType="BEFORE"']
        self.assertEqual(made, document(inner + "".join(f"<TLINK {words}/>\n" for words in links)))
        for line in ("d a e9 b", "d a b", 'd a a "'):
            with self.subTest(line):
                self.write("table", line + "\n")
                status, out, error = self.run_script("tml-edit", "--links", "table", "d.xml")
                self.assertEqual((status, out), (1, ""))
                self.assertIn("tml-edit: table:1:", error)

    def test_what_cannot_be_changed(self) -> None:
        rows = [
            (1, document("&"), ["--unwrap", "P"], "tml-edit: d.xml: not changed: fault 2 BadReference at 2:1: mend it first\n"),
            (
                1,
                document("<TLINK relType='NONE'>"),
                ["--drop-links", "NONE"],
                "tml-edit: d.xml: not changed: <TLINK> at 2:1 is never closed\n",
            ),
            (
                1,
                document("<TLINK relType='OVERLAP'/>"),
                ["--overlaps"],
                "tml-edit: d.xml: not changed: <TLINK> at 2:1 lacks eventInstanceID or timeID\n",
            ),
            (1, "<P>" + EVENT + "</P>", ["--instances"], "tml-edit: d.xml: not changed: there is no </TimeML>\n"),
            (
                1,
                document("<P a='1'/>"),
                ["--value", "P", "a", "1", "'"],
                "tml-edit: d.xml: not changed: fault 3 BadMarkup at 2:1: mend it first\n",
            ),
            (2, document(""), ["--links", "gone"], "tml-edit: d.xml: gone: no such file or directory\n"),
        ]
        for status, content, words, error in rows:
            with self.subTest(words):
                self.write("d.xml", content)
                self.assertEqual(self.run_script("tml-edit", *words, "d.xml"), (status, "", error))
        self.assertEqual(self.run_script("tml-edit", "gone.xml")[0], 2)


class Tables(ScriptTest):
    def tables(self, **tables: str) -> None:
        """Writes tables, with a space for each tab."""
        for name, text in tables.items():
            self.write(f"in/{name.replace('_', '-')}.{'txt' if name == 'dct' else 'tab'}", text.replace(" ", "\t"))

    def test_documents(self) -> None:
        self.tables(
            base_segmentation="a 0 0 <He\na 0 1 left\na 0 2 next\na 0 10 week\na 1 0 A&B\nb 0 0 x\n",
            event_extents="a 0 1 event e1 1\na 0 10 event e2 1\n",
            event_attributes='a 0 1 event e1 1 class OCCURRENCE\na 0 10 event e2 1 class STATE\na 0 1 event e1 1 modality "c"\n',
            dct="a 19980108\nb 1998-01\n",
            tlinks_x="a e1 t0 BEFORE\na t0 e2 VAGUE\n",
        )
        self.assertEqual(self.run_script("from-tempeval2", "in", "out/here"), (0, "", ""))
        lines = self.read_text("out/here/a.xml").splitlines()
        self.assertEqual(
            lines[4:],
            [
                '&lt;He <EVENT eid="e1" class="OCCURRENCE">left</EVENT> next <EVENT eid="e2" class="STATE">week</EVENT>',
                "A&amp;B",
                "</TEXT>",
                '<MAKEINSTANCE eiid="i.e1" eventID="e1" modality=\'"c"\'/>',
                '<MAKEINSTANCE eiid="i.e2" eventID="e2"/>',
                '<TLINK eventInstanceID="i.e1" relatedToTime="t0" relType="BEFORE"/>',
                '<TLINK timeID="t0" relatedToEventInstance="i.e2" relType="VAGUE"/>',
                "</TimeML>",
            ],
        )
        self.assertEqual(self.tml("dates", "out/here/b.xml")[1].split()[:2], ["t0", "exact"])

    def test_tags_within_tags(self) -> None:
        self.tables(
            base_segmentation="a 0 0 the\na 0 1 fall\na 0 2 season\n",
            event_extents="a 0 1 event e1 1\n",
            event_attributes="a 0 1 event e1 1 class STATE\n",
            timex_extents="a 0 0 timex3 t1 1\na 0 1 timex3 t1 1\na 0 2 timex3 t1 1\na 0 1 timex3 t2 1\n",
            timex_attributes="a 0 0 timex3 t1 1 type SET\na 0 1 timex3 t2 1 type SET\n",
        )
        self.assertEqual(self.run_script("from-tempeval2", "in", "out")[0], 0)
        self.assertEqual(self.tml("check", "out/a.xml")[0], 0)

    def test_tables_of_another_form(self) -> None:
        base = "a 0 0 x\na 0 1 y\na 0 2 z\n"
        rows = [
            ({"base_segmentation": "a 0 0\n"}, "base-segmentation.tab:1:6: 3 of 4 columns: document, sentence, token number, token"),
            ({"base_segmentation": "a x 0 0\n"}, "base-segmentation.tab:1:3: 'x' is not a number of at most 9 digits"),
            ({"base_segmentation": "../a 0 0 x\n"}, "is not a name for a file"),
            ({"base_segmentation": base, "event_extents": "a 0 7 event e1 1\n"}, "e1 is at a token that is not there"),
            (
                {"base_segmentation": base, "event_extents": "a 0 0 event e1 1\na 0 2 event e1 1\n"},
                "the tokens of e1 do not follow each other",
            ),
            (
                {"base_segmentation": base, "event_extents": "a 0 0 event e1 1\na 0 2 event e1 1\n"},
                "the tokens of e1 do not follow each other",
            ),
            (
                {
                    "base_segmentation": base,
                    "event_extents": "",
                    "timex_extents": "a 0 0 timex3 t1 1\na 0 1 timex3 t1 1\na 0 1 timex3 t2 1\na 0 2 timex3 t2 1\n",
                },
                "the tokens of t2 lie partly within those of t1",
            ),
            (
                {"base_segmentation": base, "event_extents": "", "timex_extents": "", "timex_attributes": "a 0 0 timex3 t9 1 type SET\n"},
                "t9 has attributes and no extent",
            ),
        ]
        for tables, said in rows:
            with self.subTest(said):
                self.tables(**tables)
                status, out, error = self.run_script("from-tempeval2", "in", "out")
                self.assertEqual((status, out), (1, ""))
                self.assertIn(said, error)
                self.assertFalse(os.path.exists(self.path("out/a.xml")))
        self.assertEqual(self.run_script("from-tempeval2", "gone", "out")[0], 1)


class Entities(ScriptTest):
    def test_entities(self) -> None:
        rows = [
            ("a&nbsp;&eacute;\r\n", "a\u00a0é\r\n"),
            ("&lt;&gt;&amp;&quot;&apos;&#233;", "&lt;&gt;&amp;&quot;&apos;&#233;"),
            ("&bank; AT&T &eacute &ampx;", "&bank; AT&T &eacute &ampx;"),
            ("&LT;&AMP;", "&lt;&amp;"),
        ]
        for given, made in rows:
            with self.subTest(given):
                self.assertEqual(self.run_script("html-entities", given=given.encode()), (0, made, ""))
        self.assertEqual(self.run_script("html-entities", given=b"a\xe9"), (1, "", "html-entities: byte 1 is not UTF-8\n"))


if __name__ == "__main__":
    unittest.main()
