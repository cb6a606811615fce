"""Tables of strangers: 21 that are wrong, 3 pipes, and 4 inputs without an end."""

import os
import shutil
import unittest

from attacks import AttackTest

TABLES: tuple[tuple[str, str, str | bytes, str], ...] = (
    ("from-tempeval2", "base-segmentation.tab", "a\t0\t0\tx\na\t0\n", "2:4: 2 of 4 columns: document, sentence, token number, token"),
    ("from-tempeval2", "base-segmentation.tab", b"a\t0\t0\tx\na\t0\t\xff\ty\n", "2:5: the byte FF is not UTF-8"),
    ("from-tempeval2", "base-segmentation.tab", "a\tx\t0\ty\n", "1:3: 'x' is not a number of at most 9 digits"),
    ("from-tempeval2", "base-segmentation.tab", "a\t0\t" + "9" * 5000 + "\ty\n", "1:5: '9"),
    ("from-tempeval2", "base-segmentation.tab", "a\t0\t\u0661\ty\n", "1:5: '\u0661' is not a number"),
    ("from-tempeval2", "base-segmentation.tab", "../a\t0\t0\ty\n", "1:1: '../a' is not a name for a file"),
    ("from-tempeval2", "base-segmentation.tab", "a\u202e\t0\t0\ty\n", "1:1: 'a\\u202e' is not a name for a file"),
    ("from-tempeval2", "base-segmentation.tab", "\x9b31m\t0\t0\ty\n", "1:1: '\\x9b31m' is not a name for a file"),
    ("from-tempeval2", "base-segmentation.tab", "a\t0\t0\tx\x1b[31m\n", "1:8: the character U+001B is not allowed in XML"),
    ("from-tempeval2", "base-segmentation.tab", "a\x01\t0\t0\tx\n", "1:2: the character U+0001 is not allowed in XML"),
    ("from-tempeval2", "base-segmentation.tab", "É\t0\t0\tx\né\t0\t0\ty\n", "2:1: 'é' and 'É' differ only in the case of letters"),
    ("from-tempeval2", "base-segmentation.tab", "a\t0\t0\tx\na\t0\t1\t" + "y" * 70_000, "2:1: the line has more than 65,536 bytes"),
    (
        "from-tempeval2",
        "timex-attributes.tab",
        "a\t0\t0\ttimex3\tt1\t1\ttype\t\uffff\n",
        "1:24: the character U+FFFF is not allowed in XML",
    ),
    ("from-tempeval2", "event-extents.tab", "b\t0\t0\tevent\te1\t1\n", "1:1: 'b' is not a document of base-segmentation.tab"),
    ("from-tempeval2", "event-extents.tab", "a\t0\t7\tevent\te1\t1\n", "1:5: e1 is at a token that is not there"),
    ("from-tempeval2", "event-attributes.tab", "a\t0\t0\tevent\te1\t1\tclass\tSTATE\n", "1:13: e1 has attributes and no extent"),
    ("from-tempeval2", "tlinks-x.tab", "a\te1\n", "1:5: 2 of 4 columns"),
    ("tml-edit", "table", "good a a b\ngood a c b\n", "2:8: c is not an event or a time of the document"),
    ("tml-edit", "table", "good a a\n", "1:8: the line is not a name, two intervals and a relation"),
    ("tml-edit", "table", b"good a a b\n\xc3\xa9 \xe9\n", "2:3: the byte E9 is not UTF-8"),
    ("tml-edit", "table", "good a a b\n" + "x" * 70_000, "2:1: the line has more than 65,536 bytes"),
)
"""Tables of strangers: the program, the table, and what is said, with line and column."""


class Tables(AttackTest):
    def begin_anew(self) -> None:
        """Leaves nothing but a table of one word."""
        shutil.rmtree(self.path("in"), ignore_errors=True)
        self.write("in/base-segmentation.tab", "a\t0\t0\tx\n")

    def of(self, script: str) -> str:
        """The command that reads tables."""
        return "from-tempeval2 in made" if script == "from-tempeval2" else "tml-edit --tml TML --links in/table good.xml"

    def test_what_is_wrong_is_said_with_its_place(self) -> None:
        for script, table, content, said in TABLES:
            with self.subTest(said):
                self.begin_anew()
                self.write(f"in/{table}", content)
                ended = self.called(self.of(script))
                self.assertEqual((ended.status, ended.out, ended.error.count("\n")), (1, "", 1), ended)
                self.assertTrue(ended.error.startswith(f"{script}: in/{table}:{said}"), ended.error)

    def test_a_pipe_is_not_waited_for(self) -> None:
        for script, table in (("from-tempeval2", "base-segmentation.tab"), ("from-tempeval2", "dct.txt"), ("tml-edit", "table")):
            with self.subTest(table):
                self.begin_anew()
                if os.path.exists(self.path(f"in/{table}")):
                    os.unlink(self.path(f"in/{table}"))
                os.mkfifo(self.path(f"in/{table}"))
                ended = self.called(self.of(script))
                self.assertEqual((ended.status, ended.out, ended.error.count("\n")), (2, "", 1))
                self.assertIn(f"in/{table}: is not a regular file", ended.error)

    def test_input_without_an_end_is_not_read(self) -> None:
        rows = [
            ("html-entities", "given", 2, "html-entities: standard input has more than 8,388,608 bytes\n"),
            ("from-tempeval2 in made", "in/base-segmentation.tab", 1, "from-tempeval2: in: the tables have more than 16,777,216 bytes\n"),
            ("from-tempeval2 in made", "in/tlinks-x.tab", 1, "from-tempeval2: in: the tables have more than 16,777,216 bytes\n"),
            (
                "tml-edit --tml TML --links in/table good.xml",
                "in/table",
                1,
                "tml-edit: in/table:1:1: the line has more than 65,536 bytes\n",
            ),
        ]
        for command, name, status, said in rows:
            with self.subTest(command=command, name=name):
                self.write("in/base-segmentation.tab", "a\t0\t0\tx\n")
                self.write(name, "")
                os.truncate(self.path(name), 1 << 30)
                with open(self.path(name), "rb") as given:
                    ended = self.ended(command, stdin=given)
                self.assertEqual((ended.status, ended.out, ended.error), (status, "", said))
                self.assertLess(ended.mebibytes, 100)

    def test_very_many_tags_at_one_token(self) -> None:
        self.write("in/base-segmentation.tab", "a\t0\t0\tx\n")
        self.write("in/event-extents.tab", "".join(f"a\t0\t0\tevent\te{number}\t1\n" for number in range(50_000)))
        ended = self.ended(self.of("from-tempeval2"))
        self.assertEqual(ended.status, 0, ended.error)
        self.assertLess(ended.seconds, 10)

    def test_attributes_of_tables_are_no_tags(self) -> None:
        self.write("in/base-segmentation.tab", "a\t0\t0\tx\n")
        self.write("in/timex-extents.tab", "a\t0\t0\ttimex3\tt1\t1\n")
        self.write("in/timex-attributes.tab", 'a\t0\t0\ttimex3\tt1\t1\tx="1"><P\ty\n')
        ended = self.called(self.of("from-tempeval2"))
        self.assertEqual(ended.status, 1)
        self.assertIn("timex-attributes.tab:1:19: 'x=\"1\"><P' is not a name of an attribute", ended.error)


if __name__ == "__main__":
    unittest.main()
