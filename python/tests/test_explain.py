"""What the first line on a fault says, `--more`, and `tml-corpus tags`."""

import codecs
import encodings.aliases
import json
import os
import re
import unittest
from collections.abc import Sequence
from random import Random

from corpus import EVENT, INSTANCE, CorpusTest, document, needed
from tml.explaining.encoding import converted, declared_encoding, not_utf8
from tml.statuses import MANY_BYTES, RELATIONS
from tml.tags.source import Source
from tml_corpus.origins.restored import MOST_BYTES

TIME = '<TIMEX3 tid="t1" type="DATE"/>'


class Explanations(CorpusTest):
    def firsts(self, contents: Sequence[str | bytes]) -> list[str | None]:
        """The first lines on some documents, without their paths and without the number and the name of the fault."""
        for number, content in enumerate(contents):
            self.write(f"{number:03}.xml", content)
        firsts: dict[int, str] = {}
        for line in self.run_it("check", *sorted(os.listdir(self.folder)))[1]:
            found = re.fullmatch(r"(\d{3})\.xml:(\d+:\d+): error: \d+ \w+: (.*) \[byte \d+\]", line)
            if found:
                firsts.setdefault(int(found[1]), f"{found[2]} {found[3]}")
        return [firsts.get(number) for number in range(len(contents))]

    def check(self, rows: Sequence[tuple[str, str | None]]) -> None:
        """Checks the first lines on documents with these tags in them."""
        self.check_whole([(document(inner), line) for inner, line in rows])

    def check_whole(self, rows: Sequence[tuple[str | bytes, str | None]]) -> None:
        """Checks the first lines on these documents."""
        firsts = self.firsts([content for content, _ in rows])
        for (content, line), first in zip(rows, firsts, strict=True):
            with self.subTest(content):
                self.assertEqual(first, line)

    def test_attributes(self) -> None:
        self.check(
            [
                ('<EVENT eid="e1" class="STATE" eid="e2"/>', '2:31 eid appears twice, as eid="e1" and as eid="e2": delete the wrong one'),
                ("<SIGNAL/>", "2:1 sid is missing: an identifier that no other tag has, such as s2"),
                (
                    '<TLINK timeID="t" relType="ENDS"/>',
                    "2:1 relatedToEventInstance or relatedToTime is missing: the second end of the link, the eiid of a MAKEINSTANCE or the "
                    "tid of a TIMEX3",
                ),
                (
                    '<EVENT eid="" class="STATE">x</EVENT>',
                    "2:8 eid is empty: an identifier that no other tag has, such as e2",
                ),
                ('<EVENT eid="" class="STATE"/>', "2:1 this EVENT has no text: delete it, or add eid if it is meant"),
                (
                    '<TLINK eventID="e1" relatedToEvent="e2" relType="ENDS"/>',
                    "2:8 eventInstanceID is missing, and eventID is not a known attribute of TLINK; did you mean eventInstanceID? "
                    "(tml-edit --instances does it); and relatedToEventInstance is missing, and relatedToEvent is not a known attribute "
                    "of TLINK; did you mean relatedToEventInstance? (tml-edit --instances does it)",
                ),
                ('<MAKEINSTANCE eiid="i1"/>', "2:1 eventID is missing: the eid of an EVENT"),
                ('<TIMEX3 tid="t" Type="DATE"/>', "2:17 type is missing, and Type is not a known attribute of TIMEX3; did you mean type?"),
                (
                    '<TLINK timeID="t" relatedToTime="t" relType="MODAL"/>',
                    '2:37 relType="MODAL" is not a relation of TLINK but a relation of SLINK: BEFORE, AFTER, INCLUDES, IS_INCLUDED, '
                    "DURING, DURING_INV, SIMULTANEOUS, IDENTITY, IBEFORE, IAFTER, BEGINS, BEGUN_BY, ENDS, ENDED_BY, OVERLAPS, "
                    "OVERLAPPED_BY",
                ),
                (
                    '<TLINK timeID="t" relatedToTime="t" relType="OVERLAP"/>',
                    '2:37 relType="OVERLAP" is not a relation of TLINK, and none of the sixteen relations says only that some time is '
                    "shared: write OVERLAPS if "
                    "the first begins first and ends inside the second, OVERLAPPED_BY the other way round, or whichever relation is "
                    "meant; `tml-edit "
                    "--overlaps` expresses it by additional intervals, or delete the link; `tml possible` shows what is then left open",
                ),
                (
                    '<TLINK timeID="t" relatedToTime="t" relType="overlap"/>',
                    f'2:37 relType="overlap" is not a relation of TLINK: {", ".join(RELATIONS)}',
                ),
                (
                    '<TLINK timeID="t" relatedToTime="t" relType="overlaps"/>',
                    f'2:37 relType="overlaps" is not a relation of TLINK: {", ".join(RELATIONS)}; did you mean OVERLAPS?',
                ),
                (
                    '<MAKEINSTANCE eiid=":" eventID="e1" polarity="pos" pos="VERB"/>',
                    '2:15 eiid=":" is not an identifier, since it has : in it: letters A to Z, digits, _ - and . are allowed; and '
                    'polarity="pos" is not a polarity: POS, NEG; did you mean POS?',
                ),
                ('<SIGNAL sid="a b"/>', '2:9 sid="a b" has a space in it, and one identifier has none'),
                ('<SIGNAL sid=" a"/>', '2:9 sid=" a" has a space at its beginning or end: write a'),
                (
                    f'<SIGNAL sid="{"a" * 65}"/>',
                    f'2:9 sid="{"a" * 65}" has 65 letters, and an identifier has 64 at most',
                ),
                (
                    '<TIMEX3 tid="t" type="SET"/><TLINK timeID="t" eventInstanceID="i" relatedToTime="t" relType="ENDS"/>',
                    '2:47 eventInstanceID="i" and timeID="t" both name the first end of the link: delete eventInstanceID, since no tag has '
                    "this identifier",
                ),
            ]
        )

    def test_dates(self) -> None:
        rows = [
            ("1998-02-30", "February 1998 has 28 days"),
            ("1900-02-29", "February 1900 has 28 days"),
            ("XXXX-02-30", "February never has more than 29 days"),
            ("1999-XX-32", "no month has more than 31 days"),
            ("1998-31-12", "the months are 01 to 12; did you mean 1998-12-31?"),
            ("1998-13-13", "the months are 01 to 12"),
            ("1998-04-00", "the first day of a month is 01"),
            ("1999-W53", "1999 has 52 weeks"),
            ("199X-W54", "no year has more than 53 weeks"),
            ("1998-W00", "the first week of a year is W01"),
            ("1998-W01-8", "the days of a week are 1 to 7"),
            ("1998-Q5", "the quarters are 1 to 4"),
            ("1998-H3", "the halves of a year are 1 and 2"),
            ("199X-H0", "the halves of a year are 1 and 2"),
            ("0000", "the first year is 0001"),
            ("0000-H1", "the first year is 0001"),
            ("1998-01-08T24:01", "at 24:00 the day is over: write 00 and the next day"),
            ("1998-01-08T25", "the hours are 00 to 24"),
            ("1998-01-08T23:60", "the minutes are 00 to 59"),
        ]
        self.check([(f'<TIMEX3 tid="t" type="SET" value="{value}"/>', f'2:28 value="{value}": {why}') for value, why in rows])

    def test_references(self) -> None:
        second = '<EVENT eid="e2" class="STATE">y</EVENT>'
        three = "".join(f'<SIGNAL sid="s{number}"/>' for number in (1, 2, 4))
        self.check(
            [
                (
                    EVENT + '<SIGNAL sid="e1"/>',
                    '2:48 sid="e1" is the eid of the EVENT at 2:1 too: delete it if it was pasted, and if not write another one here, such '
                    "as s2",
                ),
                (
                    "<MAKEINSTANCE eiid='i1' eventID = 'e1' tense='PAST'/>",
                    '2:25 no EVENT has eid="e1", and the document has no EVENT: add one',
                ),
                (
                    EVENT + INSTANCE + '<TLINK eventInstanceID="e1" relatedToTime="t" relType="ENDS"/>',
                    '2:85 no MAKEINSTANCE has eiid="e1"; e1 is an EVENT, its instance is i1; and no TIMEX3 has tid="t", and the document '
                    "has no TIMEX3: add one",
                ),
                (
                    EVENT + second + INSTANCE + '<TLINK eventInstanceID="i1" relatedToEventInstance="e2" relType="ENDS"/>',
                    '2:145 no MAKEINSTANCE has eiid="e2"; e2 is an EVENT without an instance: add <MAKEINSTANCE eiid="ei2" eventID="e2"/>',
                ),
                (
                    EVENT + INSTANCE + TIME + '<TLINK eventInstanceID="t1" relatedToTime="t1" relType="ENDS"/>',
                    '2:115 no MAKEINSTANCE has eiid="t1"; t1 is a TIMEX3: write timeID="t1"',
                ),
                (
                    EVENT + '<MAKEINSTANCE eiid="i1" eventID="i1"/>',
                    '2:64 no EVENT has eid="i1"; i1 is this MAKEINSTANCE; did you mean e1, which has no instance?',
                ),
                (EVENT + '<MAKEINSTANCE eiid="i1" eventID="el"/>', '2:64 no EVENT has eid="el"; did you mean e1?'),
                (
                    EVENT + '<MAKEINSTANCE eiid="i1" eventID="e1" signalID="s1"/>',
                    '2:77 no SIGNAL has sid="s1", and the document has no SIGNAL: add one',
                ),
                (
                    f'{three}{EVENT}<MAKEINSTANCE eiid="i1" eventID="e1" signalID="x"/>',
                    '2:131 no SIGNAL has sid="x"; there are s1, s2, s4',
                ),
            ]
        )

    def test_limits(self) -> None:
        times = "".join(f'<TIMEX3 tid="t{number}" type="DATE"/>' for number in range(1030))
        self.assertEqual(
            self.firsts([document(times)]),
            ["2:32683 the document has 1,030 MAKEINSTANCE and TIMEX3, and tml takes 1,024: split it here or before"],
        )

    def test_nesting(self) -> None:
        self.check_whole(
            [
                ("<TimeML>\n<P>\n<EVENT>x</P></TimeML>", "3:1 <EVENT> is never closed: write </EVENT> right after its words"),
                ("<TimeML><P><S>x</P></S></TimeML>", "1:12 <S> opened here crosses </P> at 1:16: exchange </P> and the </S> after it"),
                (
                    "<TimeML><P>x</p></TimeML>",
                    "1:13 </p> does not close <P>, opened at 1:9: write </P>; or one wrong keystroke: write 'p' for 'P' at 1:10",
                ),
                ("<TimeML><P>x</S></TimeML>", "1:13 </S> does not close <P>, opened at 1:9: write </P>"),
                ("</P>", "1:1 </P> closes nothing: its start tag was lost: write <P> before what it holds"),
                (
                    "<TimeML>\n<P>",
                    "2:3 the file has no </TimeML>, so its end was lost: restore it from a copy, or if nothing else is missing write "
                    "</TimeML> at the end",
                ),
                ("", "1:1 the document is empty: write <TimeML> .. </TimeML>"),
                ("<!--x-->", "1:9 the document has no tag: write <TimeML> before its text and </TimeML> after it"),
                ("<TimeML>\n<Event/>", "2:2 <Event> is not known; did you mean EVENT? (names are in upper case)"),
                (
                    "<timeml/>",
                    "1:2 <timeml> is not known; did you mean TimeML? (names are compared letter by letter, upper and lower case differ)",
                ),
                (
                    "<isoTimeML/>",
                    "1:2 <isoTimeML> is not known, and the root has to be TimeML: `tml-edit --rename isoTimeML=TimeML` renames it",
                ),
                ("<TimeML><HL/></TimeML>", "1:10 <HL> is not known: `tml-edit --unwrap HL` takes such tags out and leaves what they hold"),
                ("<TimeML><TLINK>x</TLINK></TimeML>", "1:9 <TLINK> holds text (x), and has to be empty: move it before this tag"),
                ("<TimeML><TLINK>\n<TLINK/></TimeML>", "1:9 <TLINK> opened here is not closed before <TLINK/> at 2:1: write /> for its >"),
                ("x<TimeML/>", "1:1 there is text before <TimeML>: delete it or move it inside"),
                ("x\ty\n", "1:1 the document has no <TimeML>: write <TimeML> before its text and </TimeML> after it"),
                ("<TEXT/>", "1:1 the root has to be <TimeML>: write <TimeML> before <TEXT> and </TimeML> at the end"),
                (
                    "<TimeML><P><TimeML/></P></TimeML>",
                    "1:12 <TimeML> is inside <TimeML>, opened at 1:1: does a second document begin here? If so, split it off; otherwise "
                    "delete the tag",
                ),
                (" <?xml version='1.0'?><TimeML/>", "1:2 <?xml ..?> has to come first: delete what is before it (1 byte)"),
                ("<TimeML/><!DOCTYPE x>", "1:10 a doctype may appear only once, before all tags: delete this one"),
                (
                    "<TimeML>" + "<P>" * 32 + "</TimeML>",
                    "1:9 <P> opened here is one of 31 that are open at 1:102, and tml takes 32 open tags: write the end tags",
                ),
            ]
        )

    def test_markup(self) -> None:
        rows = [
            ("&", "1:9 write &amp; for the sign &"),
            ("&eacute;", "1:9 &eacute; is an HTML entity, undefined in XML: write é"),
            ("&nbsp;", "1:9 &nbsp; is an HTML entity, undefined in XML: write &#160;"),
            ("&bank;", "1:9 &bank; is an entity that nothing declares: write what it stands for, or &amp;bank; for the sign &"),
            ("&lt ", "1:9 &lt lacks its ;: write &lt;"),
            ("&#x;", "1:9 &#x; is not the number of a character: write &# and 1 to 7 digits and ;, or &#x and 1 to 6 digits and ;"),
            ("< 3", "1:9 no tag begins with this <: write &lt; for the sign <"),
            ("< EVENT>", "1:9 no space is allowed after <: write <EVENT"),
            ("<P", "1:10 <P> has no >: write it after P"),
            ("<P a>", '1:12 a has no value: write a="..", or delete it'),
            ("<P a b='1'>", '1:12 a has no value: write a="..", or delete it'),
            ("<P a=>", '1:12 a has no value: write a=".."'),
            ("<P a=1/>", '1:12 the value of a has no quotes: write a="1"'),
            ("<P a=1'>", '1:12 the value of a has no opening quote: write a="1"'),
            ("<P a='1>", "1:12 the value of a has no closing quote: write a='1'"),
            ("<P a='1 b='2'>", "1:12 the value of a has no closing quote: write a='1'"),
            ("<P a='1'b='2'>", "1:17 a space is missing before b"),
            ("<P a='1', b='2'>", "1:17 no , is allowed between attributes: delete it"),
            ("<P a='1''>", "1:17 one quote too many after a='1': delete it"),
            ("<P a='1' / >", "1:18 this / is not followed by >: write /> at the end of <P>"),
            ("<P a=\u2018t1\u2019>", '1:14 the value of a begins with a curly quote \u2018: write "'),
            ("</P a>", "1:9 an end tag has only its name: write </P>"),
            ("</ P>", "1:9 no space is allowed after </: write </P>"),
            ("<![CDATA[x]]>", "1:9 a CDATA section is not read: write its text, with &lt; and &amp; for each < and & in it"),
            ("<!--", "1:9 this comment has no end: write --> after it"),
            ("<?a b?>", "1:9 a processing instruction is not read: delete <?a .. ?>"),
            ("<!doctype x>", "1:9 write <!DOCTYPE for <!doctype"),
            ("<!DOCTYPE x [<!ENTITY a 'b'>]>", "1:21 a doctype with a subset of its own is not read: delete all from [ to ]"),
            ("<!ENTITY a>", "1:9 <!ENTITY is not read: delete it, up to its >"),
        ]
        self.check_whole([(f"<TimeML>{inner}</TimeML>", line) for inner, line in rows])

    def test_the_end_of_the_file(self) -> None:
        self.assertEqual(
            self.firsts(["<TimeML><P a='1'"]),
            [
                "1:9 the file ends within a tag, so its end was lost: restore it from a copy, or if nothing else is missing write "
                "</TimeML> at the end"
            ],
        )

    def test_bytes(self) -> None:
        rows = [
            (
                b"<TimeML>\xe9</TimeML>",
                "1:9 the byte E9 is not UTF-8, and the file declares no encoding: `tml-corpus fix` shows its text in those that make sense",
            ),
            (
                b"<TimeML>\x93\xe9\x94</TimeML>",
                "1:9 3 bytes, the first one 93, are not UTF-8, and the file declares no encoding: `tml-corpus fix` shows its text in "
                "those that make sense",
            ),
            (
                b'<?xml version="1.0" encoding="iso-8859-15"?><TimeML>\xa4</TimeML>',
                "1:53 the byte A4 (\u20ac in iso8859-15) is not UTF-8: the file looks like iso8859-15; `tml-corpus fix` turns it into "
                "UTF-8",
            ),
            ("<TimeML>é".encode() + b"\xe9</TimeML>", "1:10 the byte E9 is not UTF-8, and other characters of the file are: type é again"),
            (
                "<TimeML>x</TimeML>".encode("utf-16"),
                "1:1 the byte FF is not UTF-8: the file looks like UTF-16; `tml-corpus fix` turns it " "into UTF-8",
            ),
            (
                "<TimeML>x</TimeML>".encode("utf-16-le"),
                "1:1 the file looks like UTF-16: `iconv -f utf-16 -t utf-8` turns it into UTF-8; "
                "change the name of the encoding in its first line too",
            ),
            (
                b"<TimeML>caf\xc3",
                "1:12 the file ends within a character, so its end was lost: restore it from a copy, or if nothing else "
                "is missing write </TimeML> at the end",
            ),
        ]
        self.check_whole(rows)

    def test_bytes_of_declared_encodings(self) -> None:
        texts = {
            "EUC-KR": "가나다라 회사가 했다", "cp949": "똠방각하 회사가", "EUC-JP": "日本語の文書", "Shift_JIS": "日本語の文書ソ", "Big5": "中文文件功能",
            "GBK": "中文文件测试", "GB18030": "中文文件测试\U00020000", "iso-8859-5": "Привет",
        }  # fmt: skip
        for name, text in texts.items():
            content = f'<?xml version="1.0" encoding="{name}"?>\n<TimeML>{text}</TimeML>\n'
            document = content.encode(name)
            with self.assertRaises(UnicodeDecodeError) as raised:
                document.decode()
            with self.subTest(name):
                found = not_utf8(Source(document, None), raised.exception.start)
                self.assertIn(
                    f" ({text[0]} in {codecs.lookup(name).name}), are not UTF-8: the file looks like {codecs.lookup(name).name}; ",
                    found.text,
                )
                [edit] = converted(document, declared_encoding(document))
                self.assertEqual(edit.text.decode(), content.replace(name, "UTF-8"))

    def test_no_declared_encoding_is_too_much(self) -> None:
        draw = Random(1)
        for name in sorted({*encodings.aliases.aliases.values(), "undefined", "idna", "punycode", "unicode_escape", "raw_unicode_escape"}):
            for _ in range(3):
                tail = draw.randbytes(draw.randint(1, 9)) + b"\xff"
                document = f'<?xml version="1.0" encoding="{name}"?><TimeML>'.encode() + tail
                with self.assertRaises(UnicodeDecodeError) as raised:
                    document.decode()
                with self.subTest(name, tail=tail):
                    self.assertNotEqual(not_utf8(Source(document, None), raised.exception.start).text, "")
                    self.assertLessEqual(len(list(converted(document, declared_encoding(document)))), 1)

    def test_a_slip_in_utf8_is_not_a_declared_encoding(self) -> None:
        for name, text in (("GB18030", "中文文件"), ("EUC-KR", "가나다라"), ("Shift_JIS", "日本語")):
            document = f'<?xml version="1.0" encoding="{name}"?><TimeML>{text}'.encode() + b"\xe9</TimeML>"
            with self.subTest(name):
                self.assertEqual(list(converted(document, declared_encoding(document))), [])

    def test_general_sentences_where_no_others_are_wanted(self) -> None:
        self.write("d.xml", document("<SIGNAL/>"))
        self.assertEqual(
            self.run_it("check", "--no-explain", "d.xml")[1][:2],
            [
                "d.xml:2:1: error: 10 MissingAttribute: A tag lacks a required attribute, or has it with an empty value. [byte 9]",
                "1 file: 0 accepted, 1 with a fault, 0 not judged",
            ],
        )

    def test_what_it_is_about_is_marked(self) -> None:
        self.write("d.xml", document('<TIMEX3 tid="t" type="date"/>\n'))
        self.assertEqual(self.run_it("check", "d.xml")[1][1:3], ['    <TIMEX3 tid="t" type="date"/>', "                    ^~~~~~~~~~~"])

    def test_a_tag_with_very_many_attributes(self) -> None:
        many = "".join(f' a{number}=""' for number in range(5000))
        [first] = self.firsts([document(f'<P{many} a1=""/>')])
        self.assertTrue(needed(first).endswith(' a1 appears twice, as a1="" and as a1="": delete one of the two'))

    def test_other_places(self) -> None:
        self.assertEqual(self.notes(document(EVENT + '<SIGNAL sid="e1"/>')), ["2:1: an EVENT has it here"])
        self.assertEqual(self.notes("<TimeML>\n<P>\n<S>x</P></TimeML>"), ["3:5: here stands </P>"])


class Further(CorpusTest):
    def test_faults_after_the_first(self) -> None:
        rows: list[tuple[str | bytes, list[str], list[int]]] = [
            (b"<TimeML>\xe9\xe9 & <\n<EVENT/></TimeML>", ["1:9 1", "1:12 2", "1:14 3", "2:1 10"], []),
            ("<TimeML>\n<a><Event>x</Event></a><SIGNAL/></TimeML>", ["2:1 4", "2:4 4", "2:4 10", "2:24 10"], []),
            ("<TimeML>\n<P>\n<EVENT>x</P><SIGNAL/></TimeML>", ["3:9 5", "3:13 10"], []),
            ("<TimeML>\n<P><SIGNAL/>", ["2:13 6", "2:4 10"], []),
            ("<TimeML>\n<TLINK>x</TLINK></TimeML>", ["2:8 7"], []),
            (document('<SIGNAL sid=":"/><SIGNAL sid="a" sid="b"/>'), ["2:1 11", "2:18 9"], []),
            (document('<MAKEINSTANCE eiid="i" eventID="e"/>' + EVENT + '<SIGNAL sid="e1"/>'), ["2:1 15", "2:76 14"], []),
            (
                document('<MAKEINSTANCE eiid="i" eventID="e"/><TLINK eventInstanceID="i" relatedToTime="x" relType="ENDS"/>'),
                ["2:1 15", "2:37 15"],
                [1],
            ),
            (
                document('<MAKEINSTANCE eiid="i" eventID="e"/>' + TIME + '<TLINK timeID="t1" relatedToTime="x" relType="ENDS"/>'),
                ["2:1 15", "2:67 15"],
                [],
            ),
            (document("".join(f'<TIMEX3 tid="t{number}" type="DATE"/>' for number in range(1030))), ["2:32683 16"], []),
            (document(f"<p><Event eid='e1' class='STATE'>x</P>{INSTANCE}"), ["2:4 4", "2:35 5", "2:77 5", "3:1 6"], [2, 3]),
            (document(EVENT + INSTANCE + TIME), [], []),
        ]
        for number, (content, _, _) in enumerate(rows):
            self.write(f"{number:02}.xml", content)
        _, lines, _ = self.run_it("check", "--more", "9", "--format", "jsonl", ".")
        for (content, wanted, consequences), line in zip(rows, lines, strict=True):
            with self.subTest(content[:80]):
                found = json.loads(line)["faults"]
                self.assertEqual([f"{fault['line']}:{fault['column']} {fault['number']}" for fault in found], wanted)
                self.assertEqual([number for number, fault in enumerate(found) if fault["perhapsConsequence"]], consequences)

    def test_no_more_than_asked_for(self) -> None:
        self.write("d.xml", document("<SIGNAL/>" * 9))
        self.assertEqual(sum(": error: " in line for line in self.run_it("check", "--more", "3", "d.xml")[1]), 4)

    def test_columns_are_those_of_the_file(self) -> None:
        self.write("d.xml", document("<P>é日</P><a>é</a><SIGNAL/>"))
        lines = [line for line in self.run_it("check", "--more", "3", "d.xml")[1] if "error" in line]
        self.assertEqual([line.split(": ")[0] for line in lines], ["d.xml:2:11", "d.xml:2:18"])


class Hostile(CorpusTest):
    def test_documents_that_repeat_one_thing(self) -> None:
        # Of a document with more bytes than so many, less is kept, and no keystroke is searched for.
        self.check_repeated(max(MANY_BYTES, MOST_BYTES) + 1024)
        self.check_repeated(MANY_BYTES // 32)

    def check_repeated(self, size: int) -> None:
        """Sees that documents of this size that repeat one thing have a fault, of which little is printed."""
        parts = [
            b"\xe9",
            "é".encode() + b"\xe9",
            b"&",
            b"<",
            b"<!--",
            b"<![CDATA[",
            b"<?",
            b"&eacute;",
            b'<a b="',
            "<a b=“x".encode(),
            b"<a b=",
            b"<P>",
            b"<event/>",
            b"</P>",
            b" ",
        ]
        for number, part in enumerate(parts):
            self.write(f"{number:02}.xml", part * (size // len(part)))
        wholes = [b'<P a="' + b"x" * size, b"<P " + b'b="" ' * (size // 5), b"<" + b"a" * size, b"<P a=" + b" " * size, b"&" + b"a" * size]
        for number, whole in enumerate(wholes, len(parts)):
            self.write(f"{number:02}.xml", b"<TimeML>" + whole)
        status, lines, error = self.run_it("check", "--more", "2", ".")
        self.assertEqual((status, error), (1, ""))
        self.assertEqual(len({line.split(":")[0] for line in lines if ": error: " in line}), len(parts) + len(wholes))
        self.assertLess(max(map(len, lines)), 2000)
        status, lines, error = self.run_it("fix", ".")
        self.assertEqual((status, error), (1, ""))


class Tags(CorpusTest):
    def test_names_are_counted(self) -> None:
        self.write("a.xml", document("<P>x</P><Event/>"))
        self.write("b.xml", b"<TimeML>\xe9 &nbsp; < <Event></Event><\xc3\xa9/></TimeML>")
        status, lines, _ = self.run_it("tags", ".")
        self.assertEqual(status, 1)
        self.assertEqual(
            lines,
            [
                "./b.xml: has fault 1 NotUtf8; its tags are counted all the same",
                "    count   files  tag",
                "        2       2  Event  unknown, first at ./a.xml:2:9",
                "        1       1  é  unknown, first at ./b.xml:1:35",
                "        2       2  TimeML",
                "        1       1  P",
                "2 files: 4 names of tags, 2 unknown to tml; 0 skipped",
            ],
        )

    def test_statuses(self) -> None:
        self.write("a.xml", document("<P>x</P>"))
        self.assertEqual(self.run_it("tags", "a.xml")[0], 0)
        self.assertEqual(self.run_it("tags", "a.xml", "b.xml")[0], 2)


if __name__ == "__main__":
    unittest.main()
