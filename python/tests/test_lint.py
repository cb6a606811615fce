"""`tml-corpus check --lint`: what is suspect, the names of the warnings, the settings of a corpus, and baselines."""

import json
import os
import re
import unittest
import xml.etree.ElementTree as ElementTree
from collections.abc import Sequence
from unittest import mock

from corpus import EVENT, INSTANCE, CorpusTest, document, needed, text_at
from tml.running import CannotRun, processors
from tml.statuses import DOCUMENT_LIMIT
from tml_corpus.command_line.settings_file import read_settings

CREATED = '<TIMEX3 tid="t0" type="DATE" value="1998-03-12" functionInDocument="CREATION_TIME">x</TIMEX3>'
LINKED = EVENT + INSTANCE + '<TLINK eventInstanceID="i1" relatedToTime="t0" relType="DURING"/>'


def time(attributes: str, text: str = "x") -> str:
    """A TIMEX3."""
    return f'<TIMEX3 tid="t1" {attributes}>{text}</TIMEX3>'


def link(relation: str, left: str = "i1", right: str = "t0") -> str:
    """A TLINK: names of times begin with `t`."""
    one = "timeID" if left.startswith("t") else "eventInstanceID"
    other = "relatedToTime" if right.startswith("t") else "relatedToEventInstance"
    return f'<TLINK {one}="{left}" {other}="{right}" relType="{relation}"/>'


class Warnings(CorpusTest):
    def check(self, rows: Sequence[tuple[str, list[str]]], *words: str) -> None:
        """Each row has what stands in a document beside what is never suspect, and the warnings on it."""
        for number, (inner, _) in enumerate(rows):
            self.write(f"{number:03}.xml", document(CREATED + LINKED + "\n" + inner))
        status, lines, error = self.run_it("check", "--lint", *words, "--format", "jsonl", ".")
        self.assertEqual((status, error.splitlines()[0].split(": ")[1]), (0, f"{len(rows)} accepted, 0 with a fault, 0 not judged"))
        for (inner, wanted), line in zip(rows, lines, strict=True):
            with self.subTest(inner):
                found = [
                    f"{one['start']['line']}:{one['start']['column']} {one['name']}: {one['message']}"
                    for one in json.loads(line)["warnings"]
                ]
                self.assertEqual(found, wanted)

    def test_attributes(self) -> None:
        self.check(
            [
                ('<SIGNAL sid="s1" Sid="x">x</SIGNAL>', []),
                (
                    '<MAKEINSTANCE eiid="i2" eventID="e1" tens="PAST"/>' + link("DURING", "i2"),
                    ["3:38 misspelled-attribute: tens is not a known attribute of MAKEINSTANCE; did you mean tense?"],
                ),
                (
                    '<MAKEINSTANCE eiid="i2" eventID="e1" Tense="PAST"/>' + link("DURING", "i2"),
                    ["3:38 misspelled-attribute: Tense is not a known attribute of MAKEINSTANCE; did you mean tense?"],
                ),
                (
                    link("ENDS").replace("/>", ' id="l1"/>'),
                    ["3:63 misspelled-attribute: id is not a known attribute of TLINK; did you mean lid?"],
                ),
                (link("ENDS").replace("/>", ' origin="USER" note="x"/>'), []),
            ]
        )

    def test_unknown_attributes_on_demand(self) -> None:
        self.check(
            [(link("ENDS").replace("/>", ' origin="USER" note="x"/>'), ["3:77 unknown-attribute: note is not a known attribute of TLINK"])],
            "--warn",
            "unknown-attribute",
        )

    def test_values(self) -> None:
        no_form = "is not a TIMEX3 value, so the calendar cannot place it"
        looks = "looks like a date, and the calendar does not place it"
        rows = [
            ("1999-3-11", "value-form", f"{no_form}; did you mean 1999-03-11?"),
            ("1999/03/11", "value-form", f"{no_form}; did you mean 1999-03-11?"),
            ("19990311", "value-form", f"{no_form}; did you mean 1999-03-11?"),
            ("31-12-1999", "value-form", f"{no_form}; did you mean 1999-12-31?"),
            ("11-03-1999", "value-form", f"{no_form}; did you mean 1999-03-11 or 1999-11-03? (the day first, or the month first)"),
            ("1999Q1", "value-form", f"{no_form}; did you mean 1999-Q1?"),
            ("1999h2", "value-form", f"{no_form}; did you mean 1999-H2?"),
            ("1990s", "value-form", f"{no_form}; did you mean 199?"),
            ("1900s", "value-form", f"{no_form}: a date is written as 1998-03-11"),
            ("199-H1", "value-form", f"{no_form}: a date is written as 1998-03-11"),
            ("1999-w02", "value-form", f"{no_form}; did you mean 1999-W02?"),
            ("Wednesday", "value-form", f"{no_form}: a date is written as 1998-03-11"),
            ("present_ref", "value-form", f"{no_form}; did you mean PRESENT_REF?"),
            ("1998-01-08T18:30Z", "free-date", f"{looks}: write it without the zone"),
            ("1998-01-08T18:30:00.5", "free-date", f"{looks}: write it without the parts of a second"),
            ("1998-0X", "free-date", f"{looks}: a field is all digits or all X"),
            ("P3D", "free-date", 'is a duration, so this DATE has no date; did you mean type="DURATION"?'),
            ("FY1998", "fiscal-value", "is a fiscal year or a part of one, which the calendar does not place: only links can order it"),
            ("FY1998-H1", "fiscal-value", "is a fiscal year or a part of one, which the calendar does not place: only links can order it"),
            ("Q4-1998", "value-form", f"{no_form}; did you mean 1998-Q4?"),
            ("W12-1998", "value-form", f"{no_form}; did you mean 1998-W12?"),
            ("1998-01-08T9:30", "value-form", f"{no_form}; did you mean 1998-01-08T09:30?"),
            ("1998-01-08T16:00 EST", "value-form", f"{no_form}; did you mean 1998-01-08T16:00?"),
            ("16:00 EST", "value-form", f"{no_form}; did you mean T16:00?"),
            ("1998-01-08T4:30 pm", "value-form", f"{no_form}; did you mean 1998-01-08T16:30?"),
            ("1998-O1-l1", "value-form", f"{no_form}; did you mean 1998-01-11?"),
            (
                "1998-01-08\u200b",
                "value-form",
                f"{no_form}, since it has a zero-width space (U+200B) in it, which nobody sees; did you mean 1998-01-08?",
            ),
            (
                "1998-01-08/1998-01-10",
                "value-form",
                f"{no_form}: it is a range; write the date that is meant, or a DURATION with beginPoint and endPoint",
            ),
            ("1998-01-08TEV", "part-of-day", "is a part of a day, which the calendar does not place: only links can order it"),
        ]
        known = [
            "1998",
            "1998-03",
            "199X",
            "1998-XX-XX",
            "1998-W02-3",
            "1998-Q1",
            "1998-SU",
            "1998-W02-WE",
            "PRESENT_REF",
            "XXXX-12-25",
            "199",
            "19",
            "1998-H1",
            "1998-HX",
        ]
        self.check(
            [(time(f'type="DATE" value="{value}"'), [f'3:30 {name}: value="{value}" {text}']) for value, name, text in rows]
            + [(time(f'type="DATE" value="{value}"'), []) for value in known]
            + [
                (time('type="DURATION" value="3D"'), [f'3:34 value-form: value="3D" {no_form}; did you mean P3D?']),
                (time('type="DURATION" value="P1.5Y"'), []),
                (
                    time('type="DURATION" value="1998-01-08"'),
                    ['3:34 free-date: value="1998-01-08" is a date, and a DURATION has none; did you mean type="DATE"?'],
                ),
                (
                    time('type="DURATION" value="30"'),
                    ['3:34 free-date: value="30" is a century, and a DURATION has none; did you mean a length, as P30D?'],
                ),
                (time('type="SET" value="XXXX-W01"'), []),
                (time('type="SET" value="199"'), []),
            ]
        )

    def test_tags(self) -> None:
        second = '<EVENT eid="e2" class="STATE">y</EVENT>'
        empty = "has no text: put the tag around its words"
        self.check(
            [
                (
                    second,
                    ['3:1 event-without-instance: e2 has no instance, so no link can name it: add <MAKEINSTANCE eiid="ei2" eventID="e2"/>'],
                ),
                (
                    second + '<MAKEINSTANCE eiid="i2" eventID="e2"/>',
                    ["3:40 unlinked-instance: i2 is in no link, so nothing orders it: add a TLINK"],
                ),
                ('<MAKEINSTANCE eiid="i2" eventID="e1"/><SLINK subordinatedEventInstance="i2" relType="MODAL"/>', []),
                ('<SIGNAL sid="s1"/>', [f"3:1 empty-tag: this SIGNAL {empty}"]),
                ('<SIGNAL sid="s1"> </SIGNAL>', [f"3:1 empty-tag: this SIGNAL {empty}"]),
                ('<SIGNAL sid="s1"><P>x</P></SIGNAL>', []),
                (time('type="DATE" value="1998"', ""), [f"3:1 empty-tag: this TIMEX3 {empty}"]),
                (time('type="DATE" value="1998" temporalFunction="true"', ""), []),
                (time('type="DATE" value="1998" anchorTimeID="t0"', ""), []),
                (time('type="DATE" value="1998"', "") + '<TIMEX3 tid="t2" type="DURATION" value="P1D" beginPoint="t1">x</TIMEX3>', []),
                (time('type="DURATION"', ""), []),
                ('<EVENT eid="e2" class="STATE" target="#x"/><MAKEINSTANCE eiid="i2" eventID="e2"/>' + link("ENDS", "i2"), []),
                (
                    time('type="DATE" value="1998" beginPoint="t0"'),
                    ["3:43 date-with-points: beginPoint of a DATE says nothing about its " "time: only its value and links do"],
                ),
                (time('type="DURATION" value="P1D" beginPoint="t0"'), []),
            ]
        )

    def test_links(self) -> None:
        given = "given at 2:171 already: see whether another pair is meant, or delete one of the two"
        self.check(
            [
                (link("ENDS", "i1", "i1"), ["3:1 self-link: this link is from i1 to i1: probably one of the two should be another one"]),
                (link("DURING"), [f"3:1 repeated-link: i1 DURING t0 is {given}"]),
                (link("DURING_INV", "t0", "i1"), [f"3:1 repeated-link: t0 DURING_INV i1 is {given}"]),
                (
                    link("OVERLAPS") + link("OVERLAPPED_BY", "t0", "i1"),
                    [
                        "3:68 repeated-link: t0 OVERLAPPED_BY i1 is given at 3:1 already: see whether another pair is meant, or delete one "
                        "of the two"
                    ],
                ),
                (link("OVERLAPS") + link("OVERLAPPED_BY"), []),
                (link("DURING", "t0", "i1"), []),
                (link("ENDS"), []),
            ]
        )

    def test_words_of_times(self) -> None:
        word = "contradicting-word: value="
        self.check(
            [
                (time('type="DATE" value="1998-03-09"', "Monday"), []),
                (
                    time('type="DATE" value="1998-03-10"', "Monday"),
                    [f'3:30 {word}"1998-03-10": the text says Monday, and this day is a Tuesday'],
                ),
                (
                    time('type="TIME" value="1998-03-10TEV"', "Mon. <P>night</P>"),
                    [f'3:30 {word}"1998-03-10TEV": the text says Mon, and this day is a Tuesday', *self.part_of_day("1998-03-10TEV")],
                ),
                (
                    time('type="DATE" value="1998-W11-2"', "Monday"),
                    [f'3:30 {word}"1998-W11-2": the text says Monday, and this day is a Tuesday'],
                ),
                (time('type="DATE" value="1998-03"', "May"), [f'3:30 {word}"1998-03": the text says May, and this is in March']),
                (time('type="DATE" value="1998-03"', "from February to May"), []),
                (time('type="DATE" value="1998-03-10"', "the week from Monday to Friday"), []),
                (time('type="DATE" value="1998-W11"', "Monday"), []),
                (time('type="DATE" value="1998-Q1"', "March quarter"), []),
                (time('type="SET" value="XXXX-WXX-2"', "every Monday"), []),
            ]
        )

    def part_of_day(self, value: str) -> list[str]:
        return [f'3:30 part-of-day: value="{value}" is a part of a day, which the calendar does not place: only links can order it']

    def test_years(self) -> None:
        that_day = '<TIMEX3 tid="{}" type="DATE" value="{}-03-09">that day</TIMEX3>'
        far = "is far from the creation time in 1998 and from all other dates, and the text does not name"
        self.check(
            [
                (time('type="DATE" value="1898-03-09"', "that day"), [f'3:30 far-date: value="1898-03-09" {far} 1898']),
                (time('type="DATE" value="1989"', "1998"), [f'3:30 far-date: value="1989" {far} 1989']),
                (time('type="DATE" value="1989"', "nine years ago"), []),
                (time('type="DATE" value="1929-10-24"', "October 1929"), []),
                (time('type="DATE" value="1989-10-24"', "October '89"), []),
                (time('type="DATE" value="1994-03-09"', "that day"), []),
                (that_day.format("t1", "1898") + that_day.format("t2", "1899"), []),
            ]
        )

    def test_creation_times(self) -> None:
        twice = time('type="DATE" value="1998" functionInDocument="CREATION_TIME"')
        self.check(
            [
                (
                    twice,
                    [
                        "3:43 two-creation-times: the TIMEX3 at 2:1 is the creation time already: see which of the two is, and "
                        "remove this attribute from the other"
                    ],
                )
            ]
        )

    def test_tags_inside_of_each_other(self) -> None:
        second = '<EVENT eid="e2" class="STATE">y</EVENT>'
        linked = '<MAKEINSTANCE eiid="i2" eventID="e2"/>' + link("DURING", "i2")
        where = "see which words each belongs to, and whether one is too many"
        self.check(
            [
                (time('type="DATE" value="1998"', second) + linked, [f"3:43 nested-tag: this EVENT is inside the TIMEX3 at 3:1: {where}"]),
                (
                    second.replace("y", "<P>" + time('type="DATE" value="1998"') + "</P>") + linked,
                    [f"3:34 nested-tag: this TIMEX3 is inside the EVENT at 3:1: {where}"],
                ),
                (second.replace("y", '<SIGNAL sid="s1">y</SIGNAL>') + linked, []),
            ]
        )

    def test_links_to_themselves_and_instances_that_are_opposed(self) -> None:
        second = '<MAKEINSTANCE eiid="i2" eventID="e1"/>'
        meant = "probably one of the two should be another one"
        event = '<EVENT eid="e3" class="STATE">z</EVENT><MAKEINSTANCE eiid="i3" eventID="e3"/>'
        self.check(
            [
                (
                    '<SLINK eventInstanceID="i1" subordinatedEventInstance="i1" relType="MODAL"/>',
                    [f"3:1 self-link: this link is from i1 to i1: {meant}"],
                ),
                (
                    '<ALINK eventInstanceID="i1" relatedToEventInstance="i1" relType="INITIATES"/>',
                    [f"3:1 self-link: this link is from i1 to i1: {meant}"],
                ),
                (
                    event + second + link("BEFORE", "i1", "i3") + link("BEFORE", "i3", "i2"),
                    [
                        "3:78 opposed-instances: i1 and i2 are instances of e1 with the same attributes, and i1 BEFORE i3, i2 AFTER i3: "
                        "see whether one of the two instances was pasted"
                    ],
                ),
                (event + second.replace("/>", ' tense="PAST"/>') + link("BEFORE", "i1", "i3") + link("BEFORE", "i3", "i2"), []),
                (event + second + link("BEFORE", "i1", "i3") + link("BEFORE", "i2", "i3"), []),
            ]
        )

    def test_mistakes_come_before_what_is_missing(self) -> None:
        self.write("d.xml", document(EVENT + INSTANCE + '<SIGNAL sid="s1"/>'))
        _, lines, _ = self.run_it("check", "--lint", "d.xml")
        self.assertEqual(
            [line.split("[")[-1] for line in lines if ": warning: " in line], ["empty-tag]", "no-creation-time]", "unlinked-instance]"]
        )
        self.assertEqual(
            lines[-6:-1],
            [
                "1 probable mistake in 1 file",
                "      1  empty-tag",
                "2 things missing in 1 file",
                "      1  no-creation-time",
                "      1  unlinked-instance",
            ],
        )
        warnings = json.loads(self.run_it("check", "--lint", "--format", "jsonl", "d.xml")[1][0])["warnings"]
        self.assertEqual([one["rank"] for one in warnings], ["mistake", "missing", "missing"])

    def test_creation_time(self) -> None:
        self.write("d.xml", document(""))
        _, lines, _ = self.run_it("check", "--lint", "d.xml")
        self.assertEqual(
            lines[0],
            'd.xml:1:1: warning: the document has no creation time: add functionInDocument="CREATION_TIME" to the TIMEX3 that says when it '
            "was made [no-creation-time]",
        )
        self.assertEqual(lines[1:3], ["    <TimeML>", "    ^~~~~~~~"])
        self.assertEqual(
            lines[3:-1], ["1 file: 1 accepted, 0 with a fault, 0 not judged", "1 thing missing in 1 file", "      1  no-creation-time"]
        )

    def test_documents_with_a_fault_have_no_warnings(self) -> None:
        self.write("d.xml", document("<EVENT/>"))
        self.assertFalse([line for line in self.run_it("check", "--lint", "d.xml")[1] if "warning" in line])

    def test_statuses_and_forms(self) -> None:
        self.write("d.xml", document(""))
        self.assertEqual(self.run_it("check", "--lint", "d.xml")[0], 0)
        self.assertEqual(self.run_it("check", "--lint", "--strict", "d.xml")[0], 1)
        self.assertEqual(self.run_it("check", "--lint", "--strict", "--ignore", "no-creation-time", "d.xml")[0], 0)
        self.assertEqual(self.run_it("check", "--lint", "--ignore", "no-such", "d.xml")[0], 2)
        self.assertTrue(
            self.run_it("check", "--lint", "--format", "github", "d.xml")[1][0].startswith(
                "::warning file=d.xml,line=1,col=1,endColumn=8,title=no-creation-time::the document"
            )
        )
        for options, tag, failures in (("--lint", "system-out", "0"), ("--lint --strict", "failure", "1")):
            root = ElementTree.fromstring("\n".join(self.run_it("check", *options.split(), "--format", "junit", "d.xml")[1]).encode())
            self.assertEqual(([child.tag for child in needed(root.find(".//testcase"))], root.get("failures")), ([tag], failures))


class Settings(CorpusTest):
    def test_what_the_file_says(self) -> None:
        self.write("c/tml-corpus.toml", 'wrappers = ["FILEID", "TXT"]\nignore = ["no-creation-time"]\npatterns = ["*.sgml"]\njobs = 1\n')
        self.write("c/a/d.sgml", document('<FILEID>x</FILEID><TXT n="é"><SIGNAL/></TXT>'))
        self.write("c/b.xml", document(""))
        for words in (["c"], ["c/a"], ["c/a/d.sgml"]):
            status, lines, _ = self.run_it("check", "--lint", *words)
            self.assertEqual(
                (status, re.sub(r"^.*d\.sgml", "", lines[0])),
                (1, ":2:30: error: 10 MissingAttribute: sid is missing: an identifier that no other tag has, such as s2 [byte 39]"),
            )
        self.assertEqual(self.run_it("check", "--lint", "--strict", "c/b.xml")[0], 0)
        self.write("c/a/d.sgml", document('<FILEID>x</FILEID><TXT><SIGNAL sid="s">x</SIGNAL></TXT><TLINK><TXT/></TLINK>'))
        self.assertIn("10 MissingAttribute: relType is missing", self.run_it("check", "c/a")[1][0])
        self.assertIn("        1       1  FILEID  unknown, first at c/a/d.sgml:2:1", self.run_it("tags", "c")[1])

    def test_files_that_say_something_else(self) -> None:
        rows: list[tuple[str | bytes, str]] = [
            ("ignore = [", ":1:11: Invalid value"),
            ("x = 1", ": there is no setting x: there are wrappers, ignore, warn, patterns and jobs"),
            ('ignore = "a"', ': ignore has to be a list of texts, as ignore = ["a", "b"]'),
            ('ignore = ["a"]', ": there is no warning a: "),
            ('wrappers = ["EVENT"]', ": EVENT is a tag that tml knows"),
            ('wrappers = ["a b"]', ": a b is not the name of a tag"),
            ("jobs = 0", ": jobs has to be a number from 1 on"),
            ("jobs = true", ": jobs has to be a number from 1 on"),
            ("jobs = " + "9" * 5000, " cannot be read: a number has too many digits"),
            ("a.b = 1", ":1:2: there is a dot outside of a text, and no setting has one"),
            ('# a.b\npatterns = [\'*.a\', """\nb.c""""]\n[d.e]', ":4:3: there is a dot outside of a text"),
            (" " * 16385, " cannot be read: it has more than 16,384 bytes"),
            (b"\xff", " cannot be read: "),
        ]
        self.write("d.xml", document(""))
        for content, words in rows:
            with self.subTest(content):
                self.write("other.toml", content)
                status, lines, error = self.run_it("check", "--config", "other.toml", "d.xml")
                self.assertEqual((status, lines), (2, []))
                self.assertTrue(error.startswith(f"tml-corpus: other.toml{words}"), error)

    def test_jobs_are_bounded_by_the_processors(self) -> None:
        for jobs, taken in ((1, 1), (4 * processors(), 4 * processors()), (10**6, 4 * processors()), (10**4000, 4 * processors())):
            self.write("tml-corpus.toml", f"jobs = 1{'0' * 4000}" if jobs > 10**6 else f"jobs = {jobs}")
            self.assertEqual(read_settings(self.path("tml-corpus.toml")).jobs, taken)

    def test_a_file_is_read_once_for_each_change(self) -> None:
        from tml_corpus.command_line.settings_file import Remembering

        self.write("tml-corpus.toml", "jobs = 1")
        remembering, path = Remembering(), self.path("tml-corpus.toml")
        with mock.patch("tml_corpus.command_line.settings_file.read_settings", wraps=read_settings) as read:
            self.assertEqual([remembering.read(path).jobs for _ in range(3)], [1, 1, 1])
            self.assertEqual(read.call_count, 1)
            self.write("tml-corpus.toml", "jobs = 22 1")
            for _ in range(3):
                with self.assertRaisesRegex(CannotRun, "tml-corpus.toml:1:"):
                    remembering.read(path)
            self.assertEqual(read.call_count, 2)
            os.unlink(path)
            for _ in range(2):
                with self.assertRaisesRegex(CannotRun, "no such file"):
                    remembering.read(path)
            self.assertEqual(read.call_count, 3)

    def test_two_files(self) -> None:
        for folder in "ab":
            self.write(f"{folder}/tml-corpus.toml", "")
            self.write(f"{folder}/d.xml", document(""))
        self.assertEqual(self.run_it("check", "a")[0], 0)
        status, _, error = self.run_it("check", "a", "b")
        self.assertEqual(status, 2)
        self.assertIn("choose one by --config FILE", error)
        self.assertEqual(self.run_it("check", "--config", "a/tml-corpus.toml", "a", "b")[0], 0)

    def test_a_pipe_is_no_file_of_settings(self) -> None:
        os.mkfifo(self.path("pipe"))
        self.write("d.xml", document(""))
        self.assertEqual(self.run_it("check", "--config", "pipe", "d.xml")[2], "tml-corpus: pipe cannot be read: is not a regular file\n")


class Baselines(CorpusTest):
    def test_what_was_there_before_is_hidden(self) -> None:
        old, new = '<SIGNAL sid="s1"/>', '<SIGNAL sid="s2"/>'
        self.write("c/d.xml", document(CREATED + old))
        words = ["check", "--lint", "--strict", "--baseline", "c/known"]
        status, lines, _ = self.run_it(*words, "--write-baseline", "c")
        self.assertEqual((status, lines[-1]), (0, "1 warning written to c/known"))
        self.assertEqual(
            self.run_it(*words, "c")[1],
            [
                "1 file: 1 accepted, 0 with a fault, 0 not judged",
                "not looked for: contradictions (--clashes)",
                "1 warning of the baseline not shown",
            ],
        )
        # Lines before it, and another name for the path, change nothing.
        self.write("c/d.xml", document("\n\n" + CREATED + new + old))
        status, lines, _ = self.run_it(*words, os.path.join(self.folder, "c", "d.xml"))
        self.assertEqual((status, [line.split(":")[1] for line in lines if "warning: " in line]), (1, ["4"]))
        self.write("c/d.xml", document(CREATED + old + old.replace("s1", "s3")))
        self.assertEqual(self.run_it(*words, "c")[0], 1)

    def write_baseline(self, *words: str) -> tuple[int, str]:
        """Writes the baseline `known` with some words, and answers the status and what is said on standard error."""
        status, _, error = self.run_it("check", "--baseline", "known", "--write-baseline", *words)
        return status, error

    def test_a_baseline_is_not_written_without_warnings(self) -> None:
        self.write("d.xml", document(CREATED + '<SIGNAL sid="s1"/>'))
        self.assertEqual(self.write_baseline("--lint", "d.xml"), (0, ""))
        before = self.read_text("known")
        for words, said in (
            (("d.xml",), "--write-baseline needs --lint, without which there are no warnings"),
            (("--lint", "--watch", "d.xml"), "--watch does not go with --write-baseline, which would keep only the last files"),
        ):
            with self.subTest(words):
                self.assertEqual(self.write_baseline(*words), (2, f"tml-corpus: {said}\n"))
                self.assertEqual(self.read_text("known"), before)

    def test_a_file_with_a_passing_fault_keeps_its_warnings(self) -> None:
        for name in ("a.xml", "b.xml", "gone.xml"):
            self.write(name, document(CREATED + '<SIGNAL sid="s1"/>'))
        for more in ((), ("--clashes",)):
            with self.subTest(more):
                self.write("b.xml", document(CREATED + '<SIGNAL sid="s1"/>'))
                self.assertEqual(self.write_baseline("--lint", *more, "."), (0, ""))
                whole = self.read_text("known")
                self.assertEqual(whole.count("empty-tag"), 3)
                self.write("a.xml", document(CREATED))
                self.write("b.xml", document(CREATED + '<SIGNAL sid="s1"/><SIGNAL/>'))
                self.assertEqual(self.write_baseline("--lint", *more, "a.xml", "b.xml", "./b.xml"), (1, ""))
                self.assertEqual(
                    self.read_text("known"),
                    "".join(line for line in whole.splitlines(True) if "a.xml" not in line and "gone.xml" not in line),
                )
                self.write("a.xml", document(CREATED + '<SIGNAL sid="s1"/>'))

    def test_only_a_baseline_is_written_over(self) -> None:
        self.write("d.xml", document(""))
        self.write("known", document(""))
        status, error = self.write_baseline("--lint", "d.xml")
        self.assertEqual((status, self.read_text("known")), (2, document("")))
        self.assertIn("known:1:1: this is not a baseline; --write-baseline creates one, or overwrites another", error)
        self.write("known", "")
        self.assertEqual(self.write_baseline("--lint", "d.xml"), (0, ""))

    def test_a_long_baseline_hides_what_it_has(self) -> None:
        self.write("d.xml", document(CREATED + '<SIGNAL sid="s1"/>'))
        self.assertEqual(self.write_baseline("--lint", "d.xml"), (0, ""))
        first, *own = self.read_text("known").splitlines(True)
        others = (json.dumps([f"{number:05}.xml", "empty-tag", "x" * 80, 1]) + "\n" for number in range(40_000))
        self.write("known", "".join([first, *others, *own]))
        self.assertGreater(os.path.getsize(self.path("known")), DOCUMENT_LIMIT)
        self.assertEqual(self.run_it("check", "--lint", "--baseline", "known", "d.xml")[1][2:], ["1 warning of the baseline not shown"])

    def test_a_long_baseline_is_read_whole(self) -> None:
        from tml_corpus.check.baseline import NewBaseline, read_baseline

        baseline = NewBaseline(self.path("known"))
        baseline.counts.update((f"{number:05}.xml", "empty-tag", "é" * 77 + "...") for number in range(20_000))
        baseline.finish(False)
        self.assertGreater(os.path.getsize(self.path("known")), 2 * DOCUMENT_LIMIT)
        self.assertEqual(read_baseline(self.path("known")).counts, baseline.counts)

    def test_files_that_are_none(self) -> None:
        self.write("d.xml", document(""))
        first = '["tml-corpus baseline", 1]\n'
        for content, place in (
            ("", "1:1"),
            ("x\n", "1:1"),
            (first + "[", "2:2"),
            (first + '["a", "b", "c"]', "2:1"),
            (first + "[" * 100000, "2:1"),
            (first + '["a", "b", "c", 0]', "2:1"),
        ):
            with self.subTest(content[:40]):
                self.write("known", content)
                status, _, error = self.run_it("check", "--lint", "--baseline", "known", "d.xml")
                self.assertEqual(status, 2)
                self.assertTrue(error.startswith(f"tml-corpus: known:{place}: "), error)
        self.write("known", first + "[" + '"a",' * 100_000 + '"a"]\n' + first)
        self.assertIn("known:2:1: this is not a line", self.run_it("check", "--lint", "--baseline", "known", "d.xml")[2])
        status, _, error = self.run_it("check", "--lint", "--write-baseline", "d.xml")
        self.assertEqual((status, error), (2, "tml-corpus: --write-baseline needs --baseline FILE\n"))


class Names(unittest.TestCase):
    def test_pages_have_them(self) -> None:
        from tml_corpus.lint.kinds import NAMES, ON_DEMAND
        from tml_corpus.lint.warnings import KINDS

        self.assertEqual(tuple(KINDS), NAMES)
        self.assertLess(ON_DEMAND, set(NAMES))
        for name in ("docs/FOLDER.md", "docs/tml-corpus.1"):
            page = text_at(name)
            for kind in KINDS:
                self.assertTrue(kind in page, f"{kind} in {name}")


if __name__ == "__main__":
    unittest.main()
