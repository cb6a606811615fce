"""`tml-corpus matrix`: lines, CSV and tables of what intervals can be to each other, and what is said of other documents."""

import csv
import os
import subprocess
import unittest
import xml.etree.ElementTree as ElementTree

from corpus import COMPANION, TML, CorpusTest, document, needed, needs_matrix, text_at
from processes import BARE
from test_timeline import XHTML, Parsed, event, link
from tml.statuses import BASE_RELATIONS

EVERY = " ".join(BASE_RELATIONS)


@needs_matrix
class MatrixTest(CorpusTest):
    def printed(self, content: str, *words: str) -> str:
        """The text that is printed of a document."""
        self.write("d.xml", content)
        child = self.start("matrix", "d.xml", *words)
        out, err = child.communicate(timeout=120)
        self.assertEqual((child.returncode, err), (0, b""))
        return out.decode()


class Forms(MatrixTest):
    CONTENT = document(event(1, "one") + event(2, "") + event(3, "three") + link(1, "DURING", 2) + link(2, "IBEFORE", 3))

    def test_lines(self) -> None:
        lines = self.printed(self.CONTENT).splitlines()
        first = "one (i1), i2: IS_INCLUDED or SIMULTANEOUS or BEGINS or ENDS"
        self.assertEqual(lines[:3], [first, "one (i1), three (i3): BEFORE or IBEFORE", "i2, three (i3): IBEFORE"])
        self.assertEqual(lines[3:], ["d.xml: 3 intervals, 3 pairs: 1 decided, 2 open"])

    def test_any_relation(self) -> None:
        self.assertEqual(self.printed(document(event(1) + event(2))).splitlines()[0], "x (i1), x (i2): any relation")

    def test_csv(self) -> None:
        [head, *rows] = csv.reader(self.printed(self.CONTENT, "--format", "csv").splitlines())
        self.assertEqual(head, ["first", "first text", "second", "second text", "count", "relations"])
        self.assertEqual(rows[0], ["i1", "one", "i2", "i2", "4", "IS_INCLUDED SIMULTANEOUS BEGINS ENDS"])
        self.assertEqual(rows[2], ["i2", "i2", "i3", "three", "1", "IBEFORE"])

    def test_table(self) -> None:
        root = ElementTree.fromstring(self.printed(self.CONTENT, "--format", "html").encode())
        heads = [[cell.text for cell in row.iter(XHTML + "th")] for row in root.iter(XHTML + "tr")]
        self.assertEqual(heads, [["one (i1)", "i2", "three (i3)"], ["one (i1)"], ["i2"], ["three (i3)"]])
        cells = [[cell.text for cell in row.iter(XHTML + "td")] for row in root.iter(XHTML + "tr")]
        self.assertEqual(cells[1:], [[None, "d = s f", "< m"], ["di = si fi", None, "IBEFORE"], ["> mi", "IAFTER", None]])

    def test_numbers_of_intervals(self) -> None:
        for count in (0, 1, 60):
            content = document("".join(event(number) for number in range(count)))
            pairs = count * (count - 1) // 2
            self.assertEqual(len(self.printed(content).splitlines()), pairs + 1)
            self.assertEqual(len(self.printed(content, "--format", "csv").splitlines()), pairs + 1)
            table = ElementTree.fromstring(self.printed(content, "--format", "html").encode())
            self.assertEqual(len(list(table.iter(XHTML + "td"))), count * count + 1)

    def test_the_samples_agree_with_relations(self) -> None:
        rows = list(csv.reader(self.printed(text_at("samples/rates.xml"), "--format", "csv").splitlines()))[1:]
        self.assertEqual([row[0:5:2] for row in rows if row[4] == "1"][-1], ["ei1", "ei2", "1"])
        self.assertEqual(len(rows), 6)


class Words(unittest.TestCase):
    def test_the_forms_that_are_understood(self) -> None:
        from tml_corpus.command_line.parser import MATRIX_FORMS
        from tml_corpus.matrix.formats import FORMS, SYMBOLS

        self.assertEqual(list(FORMS), list(MATRIX_FORMS))
        self.assertEqual(" ".join(SYMBOLS), EVERY)


class Strangers(MatrixTest):
    def test_texts_are_escaped(self) -> None:
        content = document(event(1, "&lt;script&gt;x&amp;&quot;") + event(2, "=1+1,\n2") + event(3, "::error \u202e"))
        page = self.printed(content, "--format", "html")
        parsed = Parsed(page)
        self.assertEqual((parsed.open, parsed.wrong, "script" in parsed.names), ([], [], False))
        heads = [head.text for head in ElementTree.fromstring(page.encode()).iter(XHTML + "th")]
        self.assertEqual(heads[:3], ['<script>x&" (i1)', "=1+1, 2 (i2)", "::error (i3)"])
        self.assertIn("default-src 'none'", page)
        rows = list(csv.reader(self.printed(content, "--format", "csv").splitlines()))
        self.assertEqual(rows[1][:4], ["i1", '<script>x&"', "i2", "'=1+1, 2"])
        self.assertEqual(self.printed(content).splitlines()[-2].split(",")[0], "=1+1")

    def test_nothing_is_a_formula_of_a_spreadsheet(self) -> None:
        from tml_corpus.matrix.formats import harmless

        for words in (
            "=1",
            "+1",
            "-1",
            "@x",
            "\uff1d1",
            "\uff0b1",
            "\uff0d1",
            "\uff20x",
            "\ufe661",
            "\ufe631",
            "\u22121",
            " \t\uff1d1",
            "\u200b=1",
        ):
            with self.subTest(words):
                self.assertTrue(harmless(words).startswith("'"), words)
        self.assertEqual([harmless(words) for words in ("a=1", "1-1", "", "\u4e00")], ["a=1", "1-1", "", "\u4e00"])

    def test_names_of_intervals(self) -> None:
        times = "".join(f'<TIMEX3 tid="{name}" type="DATE" value="1998-01-0{day}"/>' for day, name in ((1, "-1"), (2, "-x.y")))
        for command, columns in (("matrix", ["'-1", "1998-01-01", "'-x.y", "1998-01-02"]), ("seconds", ["'-1", "1998-01-01"])):
            with self.subTest(command):
                self.write("d.xml", document(times))
                status, lines, _ = self.run_it(command, "d.xml", "--format", "csv")
                self.assertEqual((status, next(csv.reader(lines[1:2]))[: len(columns)]), (0, columns))

    def test_names_of_files(self) -> None:
        name = 'a<&">\n.xml'
        self.write(name, document(event(1)))
        status, lines, _ = self.run_it("matrix", name, "--format", "html")
        self.assertEqual(status, 0)
        self.assertEqual(needed(ElementTree.fromstring("\n".join(lines).encode()).find(f".//{XHTML}h1")).text, 'Relations of a<&"> .xml')


class Others(MatrixTest):
    def test_clashes_and_faults(self) -> None:
        clash = document(event(1) + event(2) + link(1, "BEFORE", 2) + link(1, "AFTER", 2))
        clashing = "d.xml: not shown: no timeline fits, since these links clash"
        for content, said in ((clash, clashing), (document("<EVENT/>"), "MissingAttribute")):
            self.write("d.xml", content)
            status, lines, error = self.run_it("matrix", "d.xml")
            self.assertEqual((status, error), (1, ""))
            self.assertIn(said, "\n".join(lines))
            status, lines, error = self.run_it("matrix", "d.xml", "--format", "csv")
            self.assertEqual((status, lines), (1, []))
            self.assertIn(said, error)

    def test_dates_that_touch(self) -> None:
        days = "".join(f'<TIMEX3 tid="t{day}" type="DATE" value="1998-01-0{day}"/>' for day in (1, 2))
        self.write("d.xml", document(days + '<TLINK timeID="t1" relatedToTime="t2" relType="BEFORE"/>'))
        self.assertEqual(self.run_it("matrix", "d.xml")[0], 1)
        status, lines, _ = self.run_it("matrix", "d.xml", "--touching")
        self.assertEqual((status, lines[-2]), (0, "1998-01-01 (t1), 1998-01-02 (t2): IBEFORE"))

    def test_what_cannot_be_judged(self) -> None:
        rows = [(["gone.xml"], "gone.xml: not judged: no such file or directory"), (["."], ".: not judged: is not a regular file")]
        for words, said in rows:
            status, lines, _ = self.run_it("matrix", *words)
            self.assertEqual((status, lines), (2, [said]))
        self.assertEqual(self.run_it("matrix", "d.xml", "--format", "json")[0], 2)

    def test_answers_that_are_wrong(self) -> None:
        self.write("d.xml", document(event(1) + event(2)))
        printed = ("echo i1 i2 BEFORE AFTER; echo", "printf 'i1 i2 BEFORE'", "echo i1 i2 DURING", "true")
        for answer in (*printed, "echo usage:; exit 3", "exit 2", "kill -9 $$"):
            with self.subTest(answer):
                fake = self.fake(f'if [ $1 = matrix ]; then {answer}; exit; fi\nexec {TML} "$@"')
                status, lines, _ = self.run_it("matrix", "d.xml", tml=fake)
                self.assertEqual(status, 2)
                self.assertRegex(lines[0], r"^d\.xml: not judged: .*(tml|matrix)")

    def test_an_answer_that_cannot_be_kept(self) -> None:
        self.write("d.xml", document("".join(event(number) for number in range(40))))
        command = ["sh", "-c", 'ulimit -f 1; exec "$0" "$@"', *BARE, COMPANION, "matrix", "--tml", os.path.abspath(TML), "d.xml"]
        done = subprocess.run(command, cwd=self.folder, capture_output=True, text=True, check=False)
        said = "d.xml: not judged: the answer of tml to `matrix` cannot be kept: file too large\n"
        self.assertEqual((done.returncode, done.stdout, done.stderr), (2, said, ""))

    def test_wrappers_of_a_corpus(self) -> None:
        self.write("tml-corpus.toml", 'wrappers = ["chunk"]\n')
        content = document(f"<chunk>{event(1)}</chunk>{event(2)}<chunk/>{link(1, 'AFTER', 2)}")
        for command in (["matrix"], ["open"], ["timeline", "-o", "d.html"]):
            self.write("d.xml", content)
            status, lines, _ = self.run_it(command[0], "d.xml", *command[1:])
            self.assertEqual(status, 0, lines)
        self.assertEqual(self.printed(content).splitlines()[0], "x (i1), x (i2): AFTER")

    def test_it_ends_without_a_word_where_nobody_reads_on(self) -> None:
        self.write("d.xml", document(event(1) + event(2)))
        for form in ("text", "csv", "html"):
            child = self.start("matrix", "d.xml", "--format", form)
            with needed(child.stderr) as error:
                needed(child.stdout).close()
                child.wait(60)
                self.assertEqual((child.returncode, error.read()), (2, b""))


if __name__ == "__main__":
    unittest.main()
