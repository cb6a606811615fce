"""What `check` and `clashes` share: `check --clashes`, standard input, `--quiet`, `--watch`, and the forms of clashes."""

import json
import os
import signal
import unittest
import xml.etree.ElementTree as ElementTree
from typing import IO

from corpus import COMPANION, TML, TOO_LONG, CorpusTest, document, needed
from forked import run_forked
from test_scripts import A, B, link

GOOD = document(A + B + "\n" + link("a", "BEFORE", "b"))
CLASH = document(A + B + "\n" + link("a", "BEFORE", "b") + "\n" + link("a", "AFTER", "b") + "\n")
FAULT = document("<EVENT/>")
MARK = '    <TLINK timeID="a" relatedToTime="b" relType="BEFORE"/>'
SAID = [
    "{}:3:1: error: clash, 1 of 2: a BEFORE b (link 0: a BEFORE b)",
    MARK,
    "    ^" + "~" * (len(MARK) - len("    ^")),
    "{}:4:1: error: clash, 2 of 2: a AFTER b (link 1: a AFTER b)",
    MARK.replace("BEFORE", "AFTER"),
    "    ^" + "~" * (len(MARK) - len("    ^") - 1),
]


def said(name: str) -> list[str]:
    """The lines on the clash of a file."""
    return [line.format(name) for line in SAID]


class InquiryTest(CorpusTest):
    def setUp(self) -> None:
        super().setUp()
        for name, content in (("a.xml", GOOD), ("b.xml", CLASH), ("c.xml", FAULT)):
            self.write(name, content)

    def given(self, content: bytes, *words: str) -> tuple[int, list[str], str]:
        """The status and the lines of a run with standard input."""
        ended = run_forked(COMPANION, *words, "--tml", TML, folder=self.folder, given=content)
        return ended.status, ended.out.decode().splitlines(), ended.error.decode()


class Both(InquiryTest):
    def test_one_run(self) -> None:
        status, lines, _ = self.run_it("check", "--clashes", ".", "gone.xml")
        self.assertEqual(status, 2)
        self.assertEqual(lines[:6], said("./b.xml"))
        self.assertTrue(lines[6].startswith("./c.xml:2:1: error: 10 MissingAttribute: "), lines[6])
        self.assertEqual(
            lines[-4:],
            [
                "gone.xml: not judged: no such file or directory",
                "4 files: 1 accepted, 1 with a clash, 1 with a fault, 1 not judged",
                "      1  10 MissingAttribute",
                "not looked for: probable mistakes (--lint)",
            ],
        )

    def test_explanations_and_further_faults(self) -> None:
        self.write("c.xml", document("<EVENT/><EVENT/>"))
        _, lines, _ = self.run_it("check", "--clashes", "--more", "5", "c.xml")
        self.assertEqual(lines[2], "    ^~~~~~~~")
        self.assertIn("this EVENT has no text", lines[0])
        self.assertIn("further faults", lines[-2])

    def test_each_file_is_read_once_and_asked_the_fewest_questions(self) -> None:
        fake = self.fake(f'echo "$1" >> "{self.path("asked")}"\nexec {TML} "$@"')
        touching = '<TIMEX3 tid="a" type="DATE" value="1998"/><TIMEX3 tid="b" type="DATE" value="1999"/>' + link("a", "BEFORE", "b")
        self.write("t.xml", document(touching))
        self.write("w.xml", document('<TIMEX3 tid="a" type="DATE" value="1998-1-7">x</TIMEX3>'))
        happened = "".join(f'<EVENT eid="e{one}" class="STATE">x</EVENT><MAKEINSTANCE eiid="i{one}" eventID="e{one}"/>' for one in "ab")
        between = '<TLINK eventInstanceID="ia" relatedToEventInstance="ib" relType="{}"/>'
        self.write("e.xml", document(happened + between.format("BEFORE") + between.format("AFTER")))
        both = ("clashes", "check --clashes", "check --lint --clashes")
        rows = [
            (("check", "check --lint"), "a.xml", ["check"]),
            (both, "a.xml", ["solve"]),
            # Each `check` is of a keystroke that may have caused the fault.
            (both, "c.xml", ["solve", *["check"] * 15]),
            (both, "b.xml", ["solve", "dates", "verify"]),
            (both, "t.xml", ["solve", "dates", "solve"]),
            (both, "e.xml", ["solve", "verify"]),
            (("check --clashes --format json", "clashes --evidence kept"), "t.xml", ["solve", "dates", "solve", "verify"]),
            (("check --lint",), "w.xml", ["check", "dates"]),
        ]
        for commands, name, asked in rows:
            for command in commands:
                with self.subTest(command=command, name=name):
                    self.write("asked", "")
                    self.run_it(*command.split(" "), name, tml=fake)
                    self.assertEqual(self.read_text("asked").split(), asked)

    def test_the_same_dates_are_asked_about_once(self) -> None:
        fake = self.fake(f'echo "$1" >> "{self.path("asked")}"\nexec {TML} "$@"')
        for name, left, right in (("t.xml", 1998, 1999), ("u.xml", 1999, 1998), ("v.xml", 1997, 1998)):
            times = f'<TIMEX3 tid="{name}" type="DATE" value="{left}"/><TIMEX3 tid="b" type="DATE" value="{right}"/>'
            self.write(name, document(times + link(name, "BEFORE" if left < right else "AFTER", "b")))
        status, lines, _ = self.run_it("check", "--clashes", "--jobs", "1", "t.xml", "u.xml", "v.xml", tml=fake)
        self.assertEqual((status, lines[-2][:48]), (1, "      3  links between dates that touch, in 3 fi"))
        self.assertEqual(self.read_text("asked").split(), ["solve", "dates", "solve", "solve", "solve", "solve", "dates", "solve"])

    def test_warnings_in_the_same_run(self) -> None:
        self.write("w.xml", document('<TIMEX3 tid="a" type="DATE" value="1998-1-7">x</TIMEX3>'))
        words = ("check", "--clashes", "--lint", "--ignore", "no-creation-time", "--ignore", "empty-tag")
        status, lines, _ = self.run_it(*words, "a.xml", "b.xml", "w.xml")
        self.assertEqual((status, lines[:6]), (1, said("b.xml")))
        self.assertTrue(
            lines[6].startswith('w.xml:2:29: warning: value="1998-1-7" is not a TIMEX3 value') and lines[6].endswith(" [value-form]"), lines
        )
        self.assertEqual(
            lines[-3:],
            ["3 files: 2 accepted, 1 with a clash, 0 with a fault, 0 not judged", "1 probable mistake in 1 file", "      1  value-form"],
        )
        for options, status in (("--format text", 0), ("--strict --format text", 1), ("--strict --format junit", 1), ("--format jsonl", 0)):
            with self.subTest(options):
                ended, lines, _ = self.run_it(*words, *options.split(), "w.xml")
                self.assertEqual((ended, "value-form" in "".join(lines)), (status, True))
        self.run_it(*words, "--baseline", "known", "--write-baseline", "w.xml")
        status, lines, _ = self.run_it(*words, "--strict", "--baseline", "known", "w.xml")
        self.assertEqual((status, lines[-1]), (0, "1 warning of the baseline not shown"))

    def test_answers_that_are_none(self) -> None:
        for body in (
            "exit 0",
            "exit 2",
            "echo tml-evidence 2; exit 0",
            "echo accepted; exit 0",
            "printf 'tml-evidence 2\\nclaims 1\\nclash 1\\n'; exit 2",
        ):
            with self.subTest(body):
                status, lines, error = self.run_it("clashes", "a.xml", tml=self.fake(f"cat > /dev/null\n{body}"))
                self.assertEqual((status, error), (2, ""))
                self.assertTrue(lines[0].startswith("a.xml: not judged: "), lines)

    def test_touching_is_about_clashes(self) -> None:
        self.assertEqual(
            self.run_it("check", "--touching", "a.xml"), (2, [], "tml-corpus: --touching is about clashes: give --clashes too\n")
        )


class Forms(InquiryTest):
    def test_json(self) -> None:
        for words, accepted in ((("check", "--clashes"), "accepted"), (("clashes",), "fits")):
            status, lines, error = self.run_it(*words, "--format", "jsonl", "a.xml", "b.xml", "c.xml", "gone.xml")
            one, two, three, four = map(json.loads, lines)
            self.assertEqual((status, [one["verdict"] for one in (one, two, three, four)]), (2, [accepted, "clash", "fault", "not judged"]))
            [clash] = two["clashes"]
            self.assertEqual(
                [(part["number"], part["left"], part["relation"], part["right"]) for part in clash["links"]],
                [(0, "a", "BEFORE", "b"), (1, "a", "AFTER", "b")],
            )
            self.assertEqual(
                [clash["links"][0][key] for key in ("offset", "line", "column", "message")], [66, 3, 1, "a BEFORE b (link 0: a BEFORE b)"]
            )
            self.assertEqual((three["faults"][0]["number"], four["problem"]), (10, "no such file or directory"))
            self.assertTrue(error.startswith("4 files: "))

    def test_junit(self) -> None:
        _, lines, _ = self.run_it("clashes", "--format", "junit", "a.xml", "b.xml", "c.xml", "gone.xml")
        root = ElementTree.fromstring("\n".join(lines).encode())
        self.assertEqual(root.attrib, {"tests": "4", "failures": "2", "errors": "1"})
        self.assertEqual(
            {case.get("name"): [child.tag for child in case] for case in root.iter("testcase")},
            {"a.xml": [], "b.xml": ["failure"], "c.xml": ["failure"], "gone.xml": ["error"]},
        )
        failure = needed(root.find(".//failure"))
        self.assertEqual(failure.get("type"), "clash")
        self.assertEqual(failure.get("message"), "b.xml:3:1: clash of 2 links, which cannot all be true: a BEFORE b (link 0: a BEFORE b)")
        self.assertEqual(needed(failure.text).splitlines(), said("b.xml"))

    def test_github(self) -> None:
        _, lines, _ = self.run_it("clashes", "--format", "github", "--repair", "b.xml")
        self.assertTrue(
            lines[0].startswith(
                "::error file=b.xml,line=3,col=1,title=clash of 2 links::clash of 2 links, which cannot all be true: a BEFORE b "
            ),
            lines,
        )
        self.assertIn("%0A4:1: a AFTER b (link 1: a AFTER b)%0Aleave out or mend any one of these 2 links, and a timeline fits", lines[0])

    def test_strangers(self) -> None:
        times = '<TIMEX3 tid="a" type="SET">::error\x1b[1m%,&lt;</TIMEX3><TIMEX3 tid="b" type="SET">]]&gt;\u202e</TIMEX3>\n'
        name = "new\nline,%.xml"
        self.write(name, document(times + link("a", "BEFORE", "b") + "\x1b\n" + link("a", "AFTER", "b")))
        for form in ("text", "json", "jsonl", "junit", "github"):
            with self.subTest(form):
                status, lines, error = self.run_it("clashes", "--format", form, "--repair", name)
                self.assertEqual(status, 1)
                text = "\n".join(lines) + error
                self.assertFalse([letter for letter in text if not letter.isprintable() and letter not in "\n\ufffd"], lines)
                self.assertFalse(
                    [line for line in lines if line.startswith("::") and not line.startswith("::error file=new\\x0aline%2C%25.xml,line=")]
                )
        _, lines, _ = self.run_it("clashes", "--format", "junit", name)
        ElementTree.fromstring("\n".join(lines).encode())

    def test_lines_of_the_document(self) -> None:
        from tml.places import Places

        rows = [
            ("a\n\tx<b r='é'/>\r\nc", "r='é'", ["     x<b r='é'/>", "         ^~~~~"]),
            ("日<b\nr='1'/>", "<b\nr='1'/>", ["    日<b", "      ^~"]),
            ("x" * 900 + "é<b r='1'/>" + "y" * 900, "r='1'", None),
            ("é" * 900 + "<b r='" + "日" * 300 + "'/>", "r='" + "日" * 300 + "'", None),
        ]
        for text, part, lines in rows:
            with self.subTest(text[:20]):
                content = text.encode()
                start = content.index(part.encode())
                places = Places(content)
                shown = places.marked(places.place(start), places.place(start + len(part.encode())))
                self.assertLessEqual(len(shown[0]), 4 + 160)
                if lines is None:
                    self.assertEqual(shown[0][shown[1].index("^")], part[0])
                else:
                    self.assertEqual(shown, lines)


class StandardInput(InquiryTest):
    def test_names(self) -> None:
        rows = [
            (("clashes", "-"), 1, "-"),
            (("clashes", "--stdin-name", "x y.xml", "-"), 1, "x y.xml"),
            (("check", "--clashes", "--stdin-name", "q\n.xml", "-", "a.xml"), 1, "q\\x0a.xml"),
        ]
        for words, status, name in rows:
            with self.subTest(words):
                printed, lines, error = self.given(CLASH.encode(), *words)
                self.assertEqual((printed, lines[:6], error), (status, said(name), ""))
        printed, lines, _ = self.given(FAULT.encode(), "check", "--stdin-name", "x.xml", "-", "-")
        self.assertTrue(lines[0].startswith("x.xml:2:1: error: 10 MissingAttribute: "), lines)
        self.assertTrue(lines[-3].startswith("1 file: "))

    def test_what_cannot_be(self) -> None:
        self.assertEqual(
            self.given(TOO_LONG, "check", "-")[:2],
            (
                2,
                [
                    "-: not judged: the file has more than 4,194,304 bytes",
                    "1 file: 0 accepted, 0 with a fault, 1 not judged",
                    "not looked for: probable mistakes (--lint), contradictions (--clashes)",
                ],
            ),
        )
        rows = [
            (("check", "--cluster", "x", "-"), "no scheduler|--cluster needs|another standard input"),
            (("check", "--watch", "-"), "--watch goes neither with"),
            (("clashes", "--watch", "--format", "junit", "a.xml"), "--watch goes neither with"),
            (("check", "--stdin-name", "x", "a.xml"), "--stdin-name names the document of -"),
        ]
        for words, said_of in rows:
            with self.subTest(words):
                status, lines, error = self.given(b"", *words)
                self.assertEqual((status, lines), (2, []))
                self.assertRegex(error, said_of)

    def test_evidence(self) -> None:
        _, lines, _ = self.given(CLASH.encode(), "clashes", "--stdin-name", "x/y.xml", "--evidence", "kept", "-")
        [evidence] = os.listdir(self.path("kept"))
        self.assertTrue(evidence.startswith("y.xml."))
        self.assertIn(f"x/y.xml: evidence in kept/{evidence}", lines)


class Quiet(InquiryTest):
    def test_no_summary(self) -> None:
        self.assertEqual(self.run_it("check", "--quiet", "a.xml"), (0, [], ""))
        self.assertEqual(self.run_it("clashes", "--quiet", "a.xml", "b.xml"), (1, said("b.xml"), ""))
        status, lines, error = self.run_it("check", "--quiet", "--format", "jsonl", "c.xml")
        self.assertEqual((status, len(lines), error), (1, 1, ""))


class Watching(InquiryTest):
    def test_files_that_change(self) -> None:
        os.unlink(self.path("c.xml"))
        child = self.start("clashes", "--watch", ".")
        output, error = needed(child.stdout), needed(child.stderr)
        self.addCleanup(output.close)
        self.addCleanup(error.close)
        self.addCleanup(child.kill)
        self.assertEqual(self.lines(output, 7), [*said("./b.xml"), "2 files: 1 with a clash, 1 without, 0 with a fault, 0 not judged"])
        self.replace("b.xml", GOOD)
        self.assertEqual(self.lines(output, 1), ["1 file: 0 with a clash, 1 without, 0 with a fault, 0 not judged"])
        os.unlink(self.path("a.xml"))
        self.replace("d.xml", CLASH)
        self.assertEqual(self.lines(output, 7), [*said("./d.xml"), "1 file: 1 with a clash, 0 without, 0 with a fault, 0 not judged"])
        child.send_signal(signal.SIGINT)
        self.assertEqual((child.wait(timeout=60), output.read(), error.read()), (130, b"", b""))

    def replace(self, name: str, content: str) -> None:
        """Puts a file in its place at once, so that none is seen half written."""
        self.write("new", content)
        os.replace(self.path("new"), self.path(name))

    def lines(self, output: IO[bytes], count: int) -> list[str]:
        """The next lines that are printed."""
        return [output.readline().decode().rstrip("\n") for _ in range(count)]


if __name__ == "__main__":
    unittest.main()
