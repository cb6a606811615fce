"""`tml-corpus check`: places, order, statuses, files that cannot be judged, and interruption."""

import json
import os
import re
import unittest
import xml.etree.ElementTree as ElementTree
from functools import partial

from corpus import EVENT, HELD, TML, TOO_LONG, CorpusTest, document, match_in, needed, text_at
from processes import PATIENCE, interrupt
from tml.attempts import attempted
from tml.statuses import DOCUMENT_LIMIT

GOOD = document(EVENT)
BAD = document("<EVENT/>")
NO_TEXT = "this EVENT has no text: delete it, or add eid and class if it is meant"


class Sentences(unittest.TestCase):
    def test_are_the_first_ones_of_the_page(self) -> None:
        from tml.explaining.faults import SENTENCES

        page = text_at("docs/FAULTS.md")
        for number, sentence in SENTENCES.items():
            paragraph = match_in(rf"^\*\*{number} \w+\.\*\* (.*?)(?:\nSmallest|\n\n)", page, re.MULTILINE | re.DOTALL)
            self.assertTrue(" ".join(paragraph[1].split()).startswith(sentence), sentence)
            self.assertNotRegex(sentence[:-1], r"\. ")
            self.assertEqual(sentence[-1], ".")
        self.assertEqual(len(SENTENCES), len(re.findall(r"^\*\*\d+ \w+\.\*\*", page, re.MULTILINE)))


class Statuses(CorpusTest):
    def test_statuses(self) -> None:
        self.write("good.xml", GOOD)
        self.write("bad.xml", BAD)
        os.mkdir(self.path("empty"))
        rows = [
            (0, ["good.xml"]),
            (1, ["good.xml", "bad.xml"]),
            (2, ["good.xml", "bad.xml", "missing.xml"]),
            (2, ["empty"]),
            (0, [".", "--glob", "go*"]),
            (2, ["good.xml", "--format", "other"]),
        ]
        for status, words in rows:
            with self.subTest(words):
                self.assertEqual(self.run_it("check", *words)[0], status)

    def test_no_program(self) -> None:
        self.write("good.xml", GOOD)
        status, _, error = self.run_it("check", "good.xml", tml="/no/such/tml")
        self.assertEqual((status, error), (2, "tml-corpus: no program /no/such/tml, which --tml names\n"))

    def test_order_is_that_of_the_files(self) -> None:
        for number in range(60):
            self.write(f"{'ab'[number % 2]}/{number:02}.tml", document("<P>x</P>" * (600 * (number % 3))) if number % 2 else BAD)
        runs = [self.run_it("check", "--jobs", jobs, "b", "a") for jobs in ("1", "9")]
        self.assertEqual(runs[0], runs[1])
        places = [line.split(":")[0] for line in runs[0][1] if "error" in line]
        self.assertEqual(places, [f"a/{number:02}.tml" for number in range(0, 60, 2)])

    def test_files_that_cannot_be_judged_are_named_and_end_nothing(self) -> None:
        self.write("a.xml", TOO_LONG)
        self.write("b.xml", b" " * DOCUMENT_LIMIT)
        os.symlink("nowhere", self.path("c.xml"))
        os.mkfifo(self.path("d.xml"))
        os.symlink(".", self.path("loop"))
        self.write("z.xml", BAD)
        status, lines, _ = self.run_it("check", ".")
        lines = [line for line in lines if not line.startswith("    ")]
        self.assertEqual(status, 2)
        self.assertEqual(lines[0], "./a.xml: not judged: the file has more than 4,194,304 bytes")
        self.assertTrue(lines[1].startswith("./b.xml:1:4194305: error: 6 Unclosed: "), lines[1])
        self.assertEqual(lines[2], "./c.xml: not judged: no such file or directory")
        self.assertEqual(lines[3], "./d.xml: not judged: is not a regular file")
        self.assertTrue(lines[4].startswith("./z.xml:2:1: error: 10 MissingAttribute: "), lines[4])
        self.assertEqual(lines[5], "5 files: 0 accepted, 2 with a fault, 3 not judged")

    def test_a_file_that_vanishes_after_the_search(self) -> None:
        from tml_corpus.asking.program import Program
        from tml_corpus.check.first import judge, not_judged
        from tml_corpus.files.finding import find_files

        self.write("a.xml", GOOD)
        [found] = find_files([self.folder], ["*.xml"])
        os.unlink(found.path)
        judgement = attempted(partial(judge, Program(TML), explained=True, more=1), found, not_judged)
        self.assertEqual(judgement.problem, "no such file or directory")

    def test_statuses_of_tml(self) -> None:
        self.write("a.xml", GOOD)
        rows = [
            (4, "echo read fault", "tml cannot read the file"),
            (6, ":", "tml ran out of memory"),
            (9, "echo too long DOC", "the file has more than 4,194,304 bytes"),
            (3, "echo usage:", "tml answered status 3, which `check` should not"),
            (5, "echo accepted", "tml answered status 5, which `check` should not"),
            (137, ":", "tml answered status 137, which `check` should not"),
        ]
        for status, answer, words in rows:
            with self.subTest(status):
                printed, lines, _ = self.run_it("check", "a.xml", tml=self.fake(f"{answer}; exit {status}"))
                self.assertEqual(printed, 2)
                self.assertIn(words, lines[0])

    def test_answers_that_cannot_be_read(self) -> None:
        rows = [
            ("echo fault 10 MissingAttribute x; exit 1", BAD),
            ("echo fault 10 MissingAttribute 999; exit 1", BAD),
            ("echo fault 5 Unbalanced 0; exit 1", "<TimeML><"),
            ("[ $1 = spans ] && echo 0 x && exit 0; echo fault 5 Unbalanced 0; exit 1", "<TimeML><"),
            ("echo accepting", BAD),
        ]
        for answer, content in rows:
            with self.subTest(answer):
                self.write("a.xml", content)
                status, lines, error = self.run_it("check", "--explain", "a.xml", tml=self.fake(answer))
                self.assertEqual((status, error), (2, ""))
                self.assertTrue(lines[0].startswith("a.xml: not judged: "), lines[0])

    def test_a_worker_that_is_ended(self) -> None:
        for number in range(12):
            self.write(f"{number:02}.xml", "<TimeML/>\n" if number != 5 else "<TimeML/>\n<!--end-->\n")
        # A program that ends the process that asks it, where the document has a word in it.
        fake = self.fake(f'text=$(cat)\ncase $text in *end*) kill -9 $PPID; sleep 1;; esac\nprintf \'%s\\n\' "$text" | {TML} "$@"')
        status, lines, _ = self.run_it("check", "--jobs", "3", ".", tml=fake)
        self.assertEqual(status, 2)
        self.assertTrue(lines[0].startswith("./05.xml: not judged: the process that examined it"), lines)
        self.assertEqual(lines[1], "12 files: 11 accepted, 0 with a fault, 1 not judged")

    def test_interrupted(self) -> None:
        for number in range(400):
            self.write(f"{number:03}.xml", BAD)
        child = self.start("check", "--no-explain", "--jobs", "2", ".", tml=self.fake(f'{HELD}\nexec {TML} "$@"'))
        first = os.read(needed(child.stdout).fileno(), 1)
        interrupt(child)
        self.write("go", "")
        out, _ = child.communicate(timeout=PATIENCE)
        lines = (first + out).decode().splitlines()
        self.assertEqual(child.returncode, 130)
        printed = match_in(r"^interrupted: (\d+) of 400 files were looked at$", lines[-1])
        named = [line.split(":")[0] for line in lines if "error" in line]
        self.assertEqual(named, [f"./{number:03}.xml" for number in range(int(printed[1]))])
        self.assertLess(0, len(named))
        self.assertLess(len(named), 400)


class PlacesOfFaults(CorpusTest):
    def test_columns(self) -> None:
        rows: list[tuple[str, str | bytes, str]] = [
            ("after characters of several bytes", "<TimeML>\n<P>é日𝄞</P><EVENT/></TimeML>", "2:11"),
            ("after a tab", "<TimeML>\n\t<EVENT/></TimeML>", "2:2"),
            ("after a byte order mark", "\ufeff<TimeML><EVENT/></TimeML>", "1:9"),
            ("at a byte order mark", "\ufeffx", "1:1"),
            ("after CR LF", "<TimeML>\r\n\r\n <EVENT/></TimeML>", "3:2"),
            ("after CR alone", "<TimeML>\r <EVENT/></TimeML>", "2:2"),
            ("after CR in a line", "<TimeML>\n\r<EVENT/></TimeML>", "2:2"),
            ("a byte that is not UTF-8", b"<TimeML>\n\xc3\xa9\xff</TimeML>", "2:2"),
            ("at the end", "<TimeML/>\n<!--", "2:1"),
            ("of nothing", "", "1:1"),
        ]
        for name, content, place in rows:
            with self.subTest(name):
                self.write("d.xml", content)
                self.assertTrue(self.run_it("check", "d.xml")[1][0].startswith(f"d.xml:{place}: error: "))

    def test_names(self) -> None:
        rows = [
            ("new\nline.xml", "./new\\x0aline.xml"),
            ("-x.xml", "./-x.xml"),
            ("-", "./-"),
            ("caf\udce9.xml", "./caf\\xe9.xml"),
            ("\x1b[1m.xml", "./\\x1b[1m.xml"),
        ]
        for name, shown in rows:
            with self.subTest(shown):
                self.write(name, BAD)
                status, lines, _ = self.run_it("check", "./" + name)
                self.assertEqual((status, lines[0].split(": ")[0]), (1, f"{shown}:2:1"))

    def test_source_line_and_caret(self) -> None:
        from tml.places import Places, caret_lines

        rows = [
            ("\té<EVENT/>", 3, "     é<EVENT/>", 6),
            ("日<", 2, "    日<", 6),
            ("e\u0301<", 3, "    e\u0301<", 5),
            ("\x1b<", 2, "    \ufffd<", 5),
        ]
        for text, column, line, before in rows:
            with self.subTest(text):
                self.assertEqual(caret_lines(text, column), [line, " " * before + "^"])
        line, caret = caret_lines("x" * 5000 + "<", 5001)
        self.assertEqual(line[caret.index("^")], "<")
        self.assertEqual(caret_lines("\ta日<b/>", 3, 3), ["     a日<b/>", "      ^~~~"])
        # Places in long lines are those that are counted from the beginning of the line.
        text = "日e\u0301\x80x" * 3000
        places = Places(("\n" + text).encode("utf-8", "surrogateescape"))
        for column in (1, 2, 8, 4097, 9000, 12000, 3):
            offset = 1 + len(text[: column - 1].encode())
            self.assertEqual((places.place(offset).line, places.place(offset).column), (2, column))
            line, caret = places.marked(places.place(offset), places.place(offset))
            self.assertEqual(len(caret) - len(caret.rstrip("^")), 1)


class Formats(CorpusTest):
    def setUp(self) -> None:
        super().setUp()
        self.write("a.xml", GOOD)
        self.write("b,%.xml", BAD)
        self.paths = ("a.xml", "b,%.xml", "c.xml")

    def test_text(self) -> None:
        _, lines, _ = self.run_it("check", *self.paths)
        self.assertEqual(
            lines,
            [
                f"b,%.xml:2:1: error: 10 MissingAttribute: {NO_TEXT} [byte 9]",
                "    <EVENT/></TimeML>",
                "    ^~~~~~~~",
                "c.xml: not judged: no such file or directory",
                "3 files: 1 accepted, 1 with a fault, 1 not judged",
                "      1  10 MissingAttribute",
                "not looked for: probable mistakes (--lint), contradictions (--clashes)",
            ],
        )

    def test_what_was_not_looked_for(self) -> None:
        lint, clashes = "probable mistakes (--lint)", "contradictions (--clashes)"
        for words, said in (
            ((), [f"not looked for: {lint}, {clashes}"]),
            (("--lint",), [f"not looked for: {clashes}"]),
            (("--clashes",), [f"not looked for: {lint}"]),
            (("--lint", "--clashes"), []),
        ):
            with self.subTest(words):
                _, lines, _ = self.run_it("check", *words, "a.xml")
                self.assertEqual([line for line in lines if line.startswith("not looked for")], said)
                _, lines, error = self.run_it("check", *words, "--format", "jsonl", "a.xml")
                self.assertEqual((len(lines), [line for line in error.splitlines() if line.startswith("not looked for")]), (1, said))

    def test_json(self) -> None:
        lines = self.run_it("check", "--format", "json", *self.paths)[1]
        self.assertEqual(
            json.loads("\n".join(lines)), [json.loads(line) for line in self.run_it("check", "--format", "jsonl", *self.paths)[1]]
        )
        _, lines, error = self.run_it("check", "--format", "jsonl", *self.paths)
        one, two, three = (json.loads(line) for line in lines)
        self.assertEqual(one, {"version": 1, "path": "a.xml", "verdict": "accepted", "faults": [], "warnings": []})
        self.assertEqual((three["verdict"], three["problem"]), ("not judged", "no such file or directory"))
        [fault] = two["faults"]
        self.assertEqual(
            [fault[key] for key in ("number", "name", "offset", "line", "column", "perhapsConsequence")],
            [10, "MissingAttribute", 9, 2, 1, False],
        )
        self.assertEqual((fault["message"], fault["notes"]), (NO_TEXT, []))
        self.assertEqual(fault["meaning"], "A tag lacks a required attribute, or has it with an empty value.")
        self.assertEqual((fault["start"], fault["end"]), ({"offset": 9, "line": 2, "column": 1}, {"offset": 17, "line": 2, "column": 9}))
        self.assertTrue(error.startswith("3 files: "))

    def test_junit(self) -> None:
        _, lines, _ = self.run_it("check", "--format", "junit", *self.paths)
        root = ElementTree.fromstring("\n".join(lines).encode())
        self.assertEqual(root.attrib, {"tests": "3", "failures": "1", "errors": "1"})
        cases = {case.get("name"): [child.tag for child in case] for case in root.iter("testcase")}
        self.assertEqual(cases, {"a.xml": [], "b,%.xml": ["failure"], "c.xml": ["error"]})
        failure = needed(root.find(".//failure"))
        self.assertEqual(failure.get("message"), f"b,%.xml:2:1: 10 MissingAttribute: {NO_TEXT} [byte 9]")
        self.assertIn("    ^~~~~~~~", needed(failure.text))

    def test_github(self) -> None:
        _, lines, _ = self.run_it("check", "--format", "github", *self.paths)
        self.assertEqual(
            lines[0],
            f"::error file=b%2C%25.xml,line=2,col=1,endColumn=8,title=10 MissingAttribute::10 MissingAttribute: {NO_TEXT} [byte 9]",
        )
        self.assertEqual(lines[1], "::error file=c.xml::not judged: no such file or directory")

    def test_the_number_the_name_and_the_byte_are_in_every_form(self) -> None:
        for form in ("text", "json", "jsonl", "junit", "github"):
            for words in (), ("--no-explain",):
                with self.subTest(form=form, words=words):
                    text = "\n".join(self.run_it("check", "--format", form, *words, "b,%.xml")[1])
                    of_json = '"number": 10, "name": "MissingAttribute", "offset": 9,'
                    self.assertRegex(text, of_json if form in ("json", "jsonl") else r"10 MissingAttribute: .* \[byte 9\]")

    def test_bytes_of_a_document_are_escaped(self) -> None:
        self.write("d.xml", document('<SIGNAL sid="\x1b[2J&#10;\x07"/>'))
        for form in ("text", "json", "jsonl", "junit", "github"):
            with self.subTest(form):
                lines = self.run_it("check", "--format", form, "d.xml")[1]
                self.assertFalse(any(not character.isprintable() for line in lines for character in line), lines)


if __name__ == "__main__":
    unittest.main()
