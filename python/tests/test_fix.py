"""`tml-corpus fix`: what is certain is written, what is only probable with `--unsafe`, and nothing else is changed."""

import os
import stat
import unittest

from corpus import EVENT, INSTANCE, CorpusTest, document
from tml.statuses import DOCUMENT_LIMIT

TIME = '<TIMEX3 tid="t1" type="DATE" value="1998">x</TIMEX3>'
LINK = '<TLINK eventInstanceID="i1" relatedToTime="t1" relType="BEFORE"/>'


class Fixes(CorpusTest):
    def check_rows(self, rows: list[tuple[str, str]], *options: str) -> None:
        """Each document of some rows becomes the other one, which is left as it is."""
        for number, (inner, _) in enumerate(rows):
            self.write(f"{number}.xml", document(inner))
        before = [self.read_bytes(f"{number}.xml") for number in range(len(rows))]
        status, lines, _ = self.run_it("fix", *options, ".")
        self.assertEqual(
            (status, lines[-1]), (1, f"{len(rows)} files: {len(rows)} can be fixed (--write does it), 0 still faulty, 0 skipped")
        )
        self.assertEqual([self.read_bytes(f"{number}.xml") for number in range(len(rows))], before)
        status, lines, _ = self.run_it("fix", "--write", *options, ".")
        self.assertEqual((status, lines[-1]), (0, f"{len(rows)} files: {len(rows)} fixed, 0 still faulty, 0 skipped"))
        for number, (inner, fixed) in enumerate(rows):
            with self.subTest(inner):
                self.assertEqual(self.read_bytes(f"{number}.xml").decode(), document(fixed))
        self.assertEqual(
            self.run_it("fix", *options, ".")[:2],
            (0, [f"{len(rows)} files: 0 can be fixed (--write does it), 0 still faulty, 0 skipped"]),
        )

    def test_notations_and_single_keystrokes(self) -> None:
        linked = EVENT + INSTANCE + TIME + LINK
        self.check_rows([
            ("A &#38; &eacute;&nbsp;", "A &#38; é&#160;"),
            ("<![CDATA[a & <b>]]>", "a &amp; &lt;b&gt;"),
            ("<P a=\u201cx\u201d b='\u201c' c=\u2018y\u2019>\u201cz\u201d</P>", '<P a="x" b=\'\u201c\' c="y">\u201cz\u201d</P>'),
            ("<Event eid='e1' class='state'>x</event>", "<EVENT eid='e1' class='STATE'>x</EVENT>"),
            ("<Text>x</TEXT>", "<TEXT>x</TEXT>"),
            ('<SIGNAL Sid="s1">x</SIGNAL>', '<SIGNAL sid="s1">x</SIGNAL>'),
            (linked.replace("BEFORE", "is-included"), linked.replace("BEFORE", "IS_INCLUDED")),
            (linked.replace("BEFORE", "SIMULTANOUS"), linked.replace("BEFORE", "SIMULTANEOUS")),
            (EVENT.replace("e1", "e1\u00a0") + INSTANCE, EVENT + INSTANCE),
        ])  # fmt: skip

    def test_what_is_only_probable(self) -> None:
        linked = EVENT + INSTANCE + TIME + LINK
        rows = [
            ("AT&T &amp; S&P &#38;", "AT&amp;T &amp; S&amp;P &#38;"),
            ("<!-- a & b -->&", "<!-- a & b -->&amp;"),
            (linked.replace('"i1" relatedToTime', '"e1" relatedToTime'), linked),
            (linked.replace("BEFORE", "IDENTICAL"), linked.replace("BEFORE", "IDENTITY")),
            (linked.replace('relatedToTime="t1', 'relatedToTime="t1 t2'), linked),
            (linked.replace('relatedToTime="t1', 'relatedToTime="tl'), linked),
            (TIME.replace("1998", "Q4-1998"), TIME.replace("1998", "1998-Q4")),
            (TIME.replace("1998", "1998-01-08T9:30 EST"), TIME.replace("1998", "1998-01-08T09:30")),
            (TIME.replace("1998", "1998-O1-l1"), TIME.replace("1998", "1998-01-11")),
            (TIME.replace('1998">x', '05/01/1998">Monday'), TIME.replace('1998">x', '1998-01-05">Monday')),
            (EVENT.replace(">x<", f">{EVENT}<") + INSTANCE, EVENT + INSTANCE),
            (EVENT + INSTANCE * 2, EVENT + INSTANCE),
            (linked + LINK.replace("<TLINK", "TLINK"), linked + LINK),
        ]
        self.check_rows(rows, "--unsafe")
        for number, (inner, _) in enumerate(rows):
            self.write(f"{number}.xml", document(inner))
        self.assertTrue(self.run_it("fix", "--write", ".")[1][-1].startswith(f"{len(rows)} files: 0 fixed, "))
        for number, (inner, _) in enumerate(rows):
            self.assertEqual(self.read_bytes(f"{number}.xml").decode(), document(inner))

    def test_latin(self) -> None:
        self.write("d.xml", b'<?xml version="1.0" encoding="ISO-8859-1"?>\r\n<TimeML>caf\xe9 &\r\n</TimeML>\r\n')
        self.assertEqual(
            self.run_it("fix", "--unsafe", "d.xml")[1][:8],
            [
                "--- d.xml",
                "+++ d.xml (fixed)",
                "@@ -1,3 +1,3 @@",
                '-<?xml version="1.0" encoding="ISO-8859-1"?>',
                '+<?xml version="1.0" encoding="UTF-8"?>',
                "-<TimeML>caf\\xe9 &",
                "+<TimeML>café &amp;",
                " </TimeML>",
            ],
        )
        self.run_it("fix", "--write", "--unsafe", "d.xml")
        self.assertEqual(self.read_bytes("d.xml"), '<?xml version="1.0" encoding="UTF-8"?>\r\n<TimeML>café &amp;\r\n</TimeML>\r\n'.encode())

    def test_encodings_that_nobody_declares(self) -> None:
        texts = {
            "cp1251": "Москва взята", "koi8-r": "Москва и Киев", "cp1252": "Noël — “déjà”", "cp1250": "žluťoučký kůň", "cp1253": "Η Αθήνα",
            "shift_jis": "日本語の文書です", "euc_kr": "가나다라 회사가 했다", "gb18030": "中文文件测试", "big5": "中文文件功能",
        }  # fmt: skip
        for encoding, text in texts.items():
            with self.subTest(encoding):
                self.write("d.xml", f"<TimeML>\n{text}\n</TimeML>\n".encode(encoding))
                status, lines, _ = self.run_it("fix", "--write", "--unsafe", "d.xml")
                self.assertEqual((status, lines[-1]), (1, "1 file: 0 fixed, 1 still faulty (1 question), 0 skipped"))
                self.assertIn(f"  --from {encoding}: {text}", lines)
                status, lines, _ = self.run_it("fix", "--write", "--from", encoding, "d.xml")
                self.assertEqual((status, lines[0]), (0, f"d.xml: fixed: the encoding {encoding} (1 change)"))
                self.assertEqual(self.read_bytes("d.xml").decode(), f"<TimeML>\n{text}\n</TimeML>\n")

    def test_no_encoding_is_taken_for_what_it_is_not(self) -> None:
        rows: list[tuple[bytes, int]] = [
            ("<TimeML>é".encode() + b"\xe9</TimeML>", 1),
            (b'<?xml version="1.0" encoding="ISO-8859-1"?><TimeML>caf\xe9</TimeML>', 0),
            ("<TimeML>Москва</TimeML>".encode(), 0),
            (b"Le caf\xe9", 1),
        ]
        for content, status in rows:
            with self.subTest(content):
                self.write("d.xml", content)
                self.assertEqual(self.run_it("fix", "--write", "--from", "cp1251", "d.xml")[0], status)
                changed = (
                    content.replace(b"ISO-8859-1", b"UTF-8").replace(b"f\xe9", "fé".encode()) if content.startswith(b"<?xml") else content
                )
                self.assertEqual(self.read_bytes("d.xml"), changed)
        self.write("d.xml", b"<TimeML>caf\xe9 \\x41</TimeML>")
        for name in ("unicode_escape", "utf-7", "shift_jis"):
            with self.subTest(name):
                lines = self.run_it("fix", "--from", name, "d.xml")[1]
                self.assertEqual(lines[1], f"  its bytes are not of the encoding {name}, or it declares another one")
        for name in ("no-such", "base64", "a\0b", "idna" * 99):
            with self.subTest(name):
                self.assertEqual(self.run_it("fix", "--from", name.replace("\0", ""), "d.xml")[0], 2)

    def test_what_has_no_one_cure_is_left(self) -> None:
        second = '<MAKEINSTANCE eiid="i2" eventID="e1"/>'
        rows: list[tuple[str | bytes, str, str]] = [
            ("<TimeML>é".encode() + b"\xe9</TimeML>", "1:10", "1 NotUtf8 at byte 10"),
            ("<TimeML>&bank; </TimeML>", "1:9", "2 BadReference at byte 8"),
            ("<TimeML>S&ampP </TimeML>", "1:10", "2 BadReference at byte 9"),
            ("<TimeML><P a=></P></TimeML>", "1:9", "3 BadMarkup at byte 8"),
            (document("<FILEID/>"), "2:1", "4 UnknownTag at byte 9"),
            (document("<P>"), "2:4", "5 Unbalanced at byte 12"),
            (document(EVENT + INSTANCE + second + TIME + LINK.replace("i1", "e1")), "2:168", "15 UnknownReference at byte 176"),
            (document('<TLINK timeID="t" relatedToTime="t" relType="OVERLAP"/>'), "2:1", "11 BadValue at byte 9"),
        ]
        for number, (content, _, _) in enumerate(rows):
            self.write(f"{number}.xml", content)
        status, lines, _ = self.run_it("fix", "--write", ".")
        self.assertEqual(status, 1)
        self.assertEqual(
            [line for line in lines[:-1] if not line.startswith("  ")],
            [f"./{number}.xml:{place}: left to fix: {left}; see `tml-corpus check`" for number, (_, place, left) in enumerate(rows)],
        )
        for number, (content, _, _) in enumerate(rows):
            self.assertEqual(self.read_bytes(f"{number}.xml"), content if isinstance(content, bytes) else content.encode())

    def test_a_part_is_fixed_and_a_part_left(self) -> None:
        self.write("d.xml", document("& <SIGNAL/>"))
        status, lines, _ = self.run_it("fix", "--write", "--unsafe", "d.xml")
        self.assertEqual(status, 1)
        self.assertEqual(
            lines[:2],
            ["d.xml: fixed: unescaped & (1 change)", "d.xml:2:7: left to fix: 10 MissingAttribute at byte 15; see `tml-corpus check`"],
        )

    def test_modes_and_symbolic_links(self) -> None:
        self.write("d.xml", document("&eacute;"))
        os.chmod(self.path("d.xml"), 0o640)
        os.symlink("d.xml", self.path("l.xml"))
        self.assertEqual(self.run_it("fix", "--write", "l.xml")[0], 0)
        self.assertTrue(os.path.islink(self.path("l.xml")))
        self.assertEqual(stat.S_IMODE(os.stat(self.path("d.xml")).st_mode), 0o640)
        self.assertEqual(self.read_bytes("d.xml").decode(), document("é"))
        self.assertEqual(sorted(os.listdir(self.folder)), ["d.xml", "l.xml"])

    def test_files_that_cannot_be_looked_at(self) -> None:
        self.write("long.xml", b"&" * (DOCUMENT_LIMIT + 1))
        os.mkfifo(self.path("pipe.xml"))
        status, lines, _ = self.run_it("fix", ".", "gone.xml")
        self.assertEqual(status, 2)
        self.assertEqual(
            lines,
            [
                "./long.xml: not fixed: the file has more than 4,194,304 bytes",
                "./pipe.xml: not fixed: is not a regular file",
                "gone.xml: not fixed: no such file or directory",
                "3 files: 0 can be fixed (--write does it), 0 still faulty, 3 skipped",
            ],
        )


if __name__ == "__main__":
    unittest.main()
