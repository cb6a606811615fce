"""The parts of the companions by themselves: places, units, texts, replies, tables, files, running, and numbers that pages have too."""

import contextlib
import html
import os
import random
import re
import subprocess
import tempfile
import unittest
from pathlib import Path
from typing import Any
from unittest import mock

from corpus import SOURCES, TOOLS, TOP, match_in, needed, text_at
from processes import BARE
from tml import places, running
from tml import statuses as tml_statuses
from tml.places import Places, caret_lines
from tml.replies import refusal
from tml.tags import profile
from tml.tags.units import Units, end_of, read_units, unit_at
from tml_corpus import VERSION
from tml_corpus.asking.program import CannotRun, Reply
from tml_corpus.command_line import statuses
from tml_corpus.convert.tables import BadTable, rows
from tml_corpus.document.texts import texts_of
from tml_corpus.files.finding import shown

TOKEN = re.compile(rb"(<!--.*?-->)|</(\w+)>|<(\w+)(/?)>|([^<]+)", re.DOTALL)


def units_of(document: bytes) -> Units:
    """The units of a document without attributes, as `tml spans` prints them."""
    lines = []
    for found in TOKEN.finditer(document):
        if found[3]:
            kind = (b"empty " if found[4] else b"start ") + found[3]
        elif found[2]:
            kind = b"end " + found[2]
        else:
            kind = b"text" if found[5] else b"comment"
        lines.append(b"%d %d %s\n" % (found.start(), found.end(), kind))
    return read_units(Reply(0, b"".join(lines), "spans", len(document)))


class Numbers(unittest.TestCase):
    def test_are_those_of_the_commands_and_definitions(self) -> None:
        definitions = text_at("docs/DEFINITIONS.md")
        table = re.findall(r"^\| ([A-Z]\w+) \| (\d+) \| ", text_at("docs/COMMANDS.md"), re.MULTILINE)
        self.assertEqual(
            [(name.replace("_", "").lower(), number) for name, number in tml_statuses.TmlStatus.__members__.items()],
            [(a.lower(), int(b)) for a, b in table],
        )
        names = re.findall(r"\b(\d+) ([A-Z]\w+)", match_in(r"\| phase \| faults \|\n(.*?)\n\n", definitions, re.DOTALL)[1])
        self.assertEqual([name for _, name in sorted(names, key=lambda one: int(one[0]))], list(tml_statuses.FAULT_NAMES))

    def test_are_those_of_the_manual_pages(self) -> None:
        limits = match_in(r"^\.Sh LIMITS\n(.*?)^\.Sh ", text_at("docs/tml.1"), re.MULTILINE | re.DOTALL)[1]
        for limit in (tml_statuses.DOCUMENT_LIMIT, tml_statuses.EVIDENCE_LIMIT, tml_statuses.INTERVAL_LIMIT, tml_statuses.LINK_LIMIT):
            self.assertRegex(limits, rf"\b{limit:,}\b")
        printed = re.findall(r"^\.It (\d+)$", text_at("docs/tml-corpus.1"), re.MULTILINE)
        self.assertEqual([int(number) for number in printed], list(statuses.Status))
        self.assertEqual(
            set(re.findall(r"^\.Ql ([A-Z_]{4,})", text_at("docs/tml.1"), re.MULTILINE)) & set(tml_statuses.RELATIONS),
            set(tml_statuses.RELATIONS),
        )

    def test_relations_are_those_of_the_profile(self) -> None:
        self.assertEqual(tml_statuses.RELATIONS, profile.RELATION.values)


class PlacesOfBlocks(unittest.TestCase):
    PIECES = (b"\n", b"\r\n", b"\r", b"a", "é".encode(), "日".encode(), "𝄞".encode(), b"\xff", b"\x80", b"\xe2\x82", b" ", b"\xef\xbb\xbf")

    def test_are_those_that_counting_finds(self) -> None:
        draw = random.Random(1)
        with mock.patch.object(places, "BLOCK", 7):
            for _ in range(300):
                document = b"".join(draw.choices(draw.sample(self.PIECES, draw.randint(1, 12)), k=draw.randint(0, 30)))
                begin = 3 if document.startswith(b"\xef\xbb\xbf") else 0
                end, text = ("\n" if b"\n" in document else "\r"), document[begin:].decode("utf-8", "surrogateescape")
                found = Places(document)
                for number in range(len(text) + 1):
                    before = text[:number]
                    place = found.place(begin + len(before.encode("utf-8", "surrogateescape")))
                    self.assertEqual((place.line, place.column), (1 + before.count(end), number - before.rfind(end)), (document, number))
                    line = text[before.rfind(end) + 1 :].split(end)[0].rstrip("\r\n")
                    self.assertEqual(caret_lines(*found.excerpt(place)), caret_lines(line, place.column), (document, number))

    def test_an_excerpt_of_a_long_line(self) -> None:
        document = "é".encode() * 100_000 + b"<" + b"x" * 100_000
        text, column = Places(document).excerpt(Places(document).place(200_000))
        self.assertEqual((text[column - 1], len(text) < 2000), ("<", True))

    def test_no_line_of_the_source_is_a_command(self) -> None:
        for text in ("::error::x", "  ::error::x", "##[error]", "a ##vso[x]"):
            self.assertNotRegex(caret_lines(text, 1)[0], r"^\s*::|##(\[|vso)")


class UnitsOfTables(unittest.TestCase):
    def test_tables_that_are_refused(self) -> None:
        good = "0 8 start TimeML\n8 9 text\n9 30 empty P\n12 17 attribute a\n18 23 attribute b\n30 39 end TimeML\n"
        units = read_units(Reply(0, good.encode(), "spans", 39))
        self.assertEqual([(unit.kind, unit.name, [one.name for one in unit.attributes]) for unit in units][2], ("empty", "P", ["a", "b"]))
        self.assertEqual((needed(unit_at(units, 9)).end, unit_at(units, 10), len(units), units[-1].name), (30, None, 4, "TimeML"))
        self.assertEqual(units.counts(), {"TimeML": (1, 0), "P": (1, 9)})
        changes = [
            ("8 9 text\n", ""),
            ("0 8 ", "1 8 "),
            ("30 39", "30 40"),
            ("text", "texts"),
            ("9 30 empty P", "9 30"),
            ("8 9", "8 x"),
            ("30 39", "-1 39"),
        ]
        for old, new in changes:
            with self.subTest(old=old, new=new), self.assertRaises(CannotRun):
                read_units(Reply(0, good.replace(old, new, 1).encode(), "spans", 39))

    def test_end_tags_and_texts_are_those_that_looking_finds(self) -> None:
        draw = random.Random(2)
        for _ in range(300):
            document = ("<R>" + self.some(draw, 0) + self.some(draw, 0) + "</R>").encode()
            units = units_of(document)
            tags = [unit for unit in units if unit.name == "E" and unit.opens() and draw.random() < 0.8]
            texts, ends = texts_of(units, document, {tag.start for tag in tags}), units.end_tags()
            for tag in tags:
                end = needed(end_of(units, tag)) if tag.kind == "start" else tag
                self.assertEqual(units[ends[tag.start]] if tag.kind == "start" else tag, end)
                inner = b"".join(
                    document[unit.start : unit.end] for unit in units if unit.kind == "text" and tag.start < unit.start < end.start
                )
                text = " ".join(html.unescape(inner.decode()).split())
                self.assertEqual(texts[tag.start], text if len(text) <= 80 else text[:77] + "...", document)

    def some(self, draw: random.Random, depth: int) -> str:
        """A piece of a document."""
        parts = []
        for _ in range(draw.randint(0, 4)):
            kind = draw.choice("tttte<") if depth < 5 else "t"
            inner = self.some(draw, depth + 1) if kind == "<" else ""
            name = draw.choice("EP")
            words = {
                "t": draw.choice(["x", " ", "word ", " a b ", "&#32;", "&amp;", "long" * 30, "\n", "é日", "<!-- c -->"]),
                "e": "<E/>",
                "<": f"<{name}>{inner}</{name}>",
            }
            parts.append(words[kind])
        return "".join(parts)


ACCEPTED = "accepted\nevents 0\ninstances 0\ntimex 1\nsignals 0\ntlinks 1\nalinks 0\nslinks 0\ninterval 0 t\ntlink 0 t BEFORE t\n"


class Replies(unittest.TestCase):
    def rows_of_replies(self) -> list[tuple[list[str], int, str, bool]]:
        """Words, a status and a text, and whether these are believed."""
        return [
            (["check", "-"], 0, ACCEPTED, True),
            (["check", "-"], 0, ACCEPTED.replace("timex 1", "timex 2"), False),
            (["check", "-"], 0, ACCEPTED.replace("tlink 0", "tlink 1"), False),
            (["check", "-"], 0, ACCEPTED + "x", False),
            (["check", "-"], 1, "fault 10 MissingAttribute 9\n", True),
            (["check", "-"], 1, "fault 10 MissingAttribute 10\n", False),
            (["check", "-"], 1, "fault 10 BadValue 9\n", False),
            (["check", "-"], 1, "fault 0 TooManyLinks 9\n", False),
            (["check", "-"], 2, "tml-evidence 2\nclaims 1\nclash 1\ncite 0\nend\n", False),
            (["check", "-"], 5, ACCEPTED, False),
            (["spans", "-"], 1, "fault 3 BadMarkup 9\n", True),
            (["spans", "-"], 1, "fault 4 UnknownTag 9\n", False),
            (["spans", "-"], 0, "", False),
            (["solve", "-"], 2, "tml-evidence 2\nclaims 1\nclash 1\ncite 0\nend\n", True),
            (["solve", "-"], 2, "tml-evidence 1\nclash 1\ncite 0\nend\n", True),
            (["solve", "-"], 2, "tml-evidence 2\nclaims 2\nclash 1\ncite 0\nend\n", False),
            (["solve", "-"], 0, "tml-evidence 2\nclaims 1\nclash 1\ncite 0\nend\n", False),
            (["solve", "-"], 0, "tml-evidence 2\nclaims 1\ntimeline 0\nend\n", True),
            (["solve", "-"], 0, "tml-evidence 1\ntimeline 0\nend\n", True),
            (["solve", "-"], 0, "tml-evidence 2\ntimeline 0\nend\n", False),
            (["relations", "-"], 0, "a ENDS b\n", True),
            (["relations", "-"], 0, "a ends b\n", False),
            (["dates", "-"], 0, "t exact -1 2 1969-12-31T23:59:59 1970-01-01T00:00:02\nu free\n", True),
            (["dates", "-"], 0, "t exact\n", False),
            (["canon", "-"], 0, "", False),
            (["verify", "-", "x"], 0, "verified clash 0 3\n", True),
            (["verify", "-", "x"], 0, "verified timeline\nverified entails a ENDS b\n", True),
            (["verify", "-", "x"], 0, "verified timeline\naccepted\n", False),
            (["verify", "-", "x"], 7, "evidence claim 0 part 1 Step 3\n", True),
            (["verify", "-", "x"], 7, "evidence claim 12 part 1 Calendar 0 2\n", True),
            (["verify", "-", "x"], 7, "evidence claim 0 part 1 End\n", True),
            (["verify", "-", "x"], 7, "evidence line 3\n", True),
            (["verify", "-", "x"], 7, "evidence claim 0\n", False),
            (["verify", "-", "x"], 7, "second line 3\n", False),
            (["verify", "-", "x"], 0, "", False),
            (["reduce", "-"], 0, "reduced 2 of 3\ntlink 0 a BEFORE b\ntlink 2 a ENDS b\n", True),
            (["reduce", "-"], 0, "reduced 0 of 0\n", True),
            (["reduce", "-"], 0, "reduced 1 of 3\ntlink 0 a BEFORE b\ntlink 2 a ENDS b\n", False),
            (["reduce", "-"], 0, "reduced 2 of 3\ntlink 2 a BEFORE b\ntlink 0 a ENDS b\n", False),
            (["reduce", "-"], 0, "reduced 2 of 3\ntlink 1 a BEFORE b\ntlink 1 a ENDS b\n", False),
            (["reduce", "-"], 0, "reduced 1 of 3\ntlink 3 a BEFORE b\n", False),
            (["reduce", "-"], 0, "reduced 1 of 3\ntlink 0 a OVERLAP b\n", False),
            (["reduce", "-"], 1, "key fault 6 Unclosed 9\n", False),
            (["reduce", "-"], 2, "key clash\n", False),
            (["reduce", "-"], 9, "too long DOC\n", True),
            (["score", "-"], 0, "precision 0 of 2\nrecall 1 of 1\n", True),
            (["score", "-"], 0, "precision 3 of 2\nrecall 1 of 1\n", False),
            (["score", "-"], 0, "precision 0 of 2\nrecall 2 of 1\n", False),
            (["score", "-"], 0, "recall 1 of 1\nprecision 0 of 2\n", False),
            (["score", "-"], 1, "fault 6 Unclosed 9\n", True),
            (["score", "-"], 1, "fault 6 Unclosed 10\n", False),
            (["score", "-"], 1, "key fault 6 Unclosed 10\n", True),
            (["score", "-"], 1, "key fault 6 Unclosd 9\n", False),
            (["score", "-"], 1, "key clash\n", False),
            (["score", "-"], 2, "key clash\n", True),
            (["score", "-"], 2, "key fault 6 Unclosed 9\n", False),
            (["score", "-"], 0, "key clash\n", False),
            (["score", "-"], 2, "clash\n", False),
            (["score", "-"], 9, "too long KEY\n", True),
            (["score", "-"], 8, "unknown X\n", False),
            (["seconds", "-"], 0, "tml-seconds 1\nplacing 1\nat -5 0\nend\n", True),
            (["seconds", "-"], 0, "tml-seconds 1\nplacing 0\nend\n", True),
            (["seconds", "-"], 0, "tml-seconds 1\nplacing 2\nat -5 0\nend\n", False),
            (["seconds", "-"], 0, "tml-seconds 1\ncycle 1\nspan 0\nend\n", False),
            (["seconds", "-"], 2, "tml-seconds 1\ncycle 2\nvia 0 1\nleast 3\nend\n", True),
            (["seconds", "-"], 2, "tml-seconds 1\ncycle 1\nvia 0 1\nleast 3\nend\n", False),
            (["seconds", "-"], 2, "tml-seconds 1\ncycle 1\nvia 0\nend\n", False),
            (["seconds", "-"], 2, "tml-seconds 1\nplacing 0\nend\n", False),
            (["seconds", "-"], 2, "tml-evidence 2\nclaims 1\nclash 1\ncite 0\nend\n", False),
            (["seconds", "-"], 9, "too long DOC\n", True),
            (["confirm", "-"], 0, "confirmed placing\n", True),
            (["confirm", "-"], 0, "confirmed timeline\n", False),
            (["confirm", "-"], 2, "confirmed cycle\n", False),
            (["confirm", "-"], 7, "seconds Length 1\n", True),
            (["confirm", "-"], 7, "seconds Sum\n", True),
            (["confirm", "-"], 7, "evidence line 3\n", True),
            (["confirm", "-"], 9, "too long SECONDS\n", True),
            (["confirm", "-"], 7, "evidence claim 0 part 1 End\n", False),
            (["ask", "-"], 0, "tml-evidence 2\nclaims 1\nentails 0 BEFORE 1\nwalk 1\nvia 0 0\nend\n", True),
            (["ask", "-"], 0, "tml-evidence 2\nclaims 1\ntimeline 0\nend\n", False),
            (["ask", "-"], 8, "unknown REL\n", True),
            (["possible", "-"], 8, "unknown Z\n", False),
            (["possible", "-"], 0, "possible 1\nrelation BEFORE\ntimeline 1\nat 0 1\n", True),
            (["possible", "-"], 0, "possible 0\n", False),
            (["matrix", "-"], 0, "", True),
            (["matrix", "-"], 0, "a b BEFORE AFTER\na c\n", False),
            (["renew", "-"], 0, "tml-evidence 2\nclaims 1\ntimeline 0\nend\n", True),
            (["renew", "-"], 0, "tml-evidence 1\ntimeline 0\nend\n", False),
            (["renew", "-"], 7, "second line 1\n", False),
            (["join", "-"], 7, "second line 1\n", True),
            (["join", "-"], 7, "seconds Sum\n", False),
            (["drill"], 0, "drill 1\nbytes 104\nlinks 0\ngreatest 1\nrelations 0\nverified timeline\n", True),
            (["drill"], 3, "usage:\n", False),
            (["check", "-"], 6, "", True),
            (["check", "-"], 6, "accepted\n", False),
            (["check", "-"], 9, "too long DOC\n", True),
            (["check", "-"], 77, "", False),
        ]

    def test_what_is_believed(self) -> None:
        for words, status, text, believed in self.rows_of_replies():
            with self.subTest(words=words, status=status, text=text):
                self.assertEqual(refusal(words, status, text.encode(), 9) is None, believed)

    def test_no_reply_that_ends_within_a_line_is_believed(self) -> None:
        matrix = (["matrix", "-"], 0, "a b BEFORE AFTER\na c ENDS\n", True)
        for words, status, text, _ in (*self.rows_of_replies(), matrix):
            for end in range(1, len(text)):
                if text[end - 1] != "\n" and words[0] != "canon":
                    with self.subTest(words=words, text=text[:end]):
                        self.assertIsNotNone(refusal(words, status, text[:end].encode(), 9))

    def test_no_number_that_cannot_be_read_is_believed(self) -> None:
        for words, status, text, _ in self.rows_of_replies():
            # Of the lines of renewed evidence no number is read.
            for number in re.finditer(r"(?<=[ -])\d+" if words[0] not in ("renew", "join") else "(?!)", text):
                for digits in (20, 5000):
                    with self.subTest(words=words, text=text, number=number, digits=digits):
                        lie = text[: number.start()] + "9" * digits + text[number.end() :]
                        self.assertIsNotNone(refusal(words, status, lie.encode(), 9))

    def test_the_refusal_names_the_command(self) -> None:
        self.assertEqual(refusal(["solve", "-"], 5, b"", 0), "tml answered status 5, which `solve` should not")


class Names(unittest.TestCase):
    def test_are_shown_so_that_a_line_stays_a_line(self) -> None:
        rows_of_names = [
            ("é b", "é b"),
            ("a\nb", "a\\x0ab"),
            ("\udce9", "\\xe9"),
            ("\u2028", "\\u2028"),
            ("::error::", "\\x3a:error::"),
            (" :", " \\x3a"),
            ("a::b", "a::b"),
            ("a##[x]##vso", "a\\x23#[x]\\x23#vso"),
            ("##a", "##a"),
        ]
        for name, printed in rows_of_names:
            with self.subTest(name):
                self.assertEqual(shown(name), printed)
                self.assertEqual(shown(shown(name)), printed)


class Folders(unittest.TestCase):
    def setUp(self) -> None:
        held = tempfile.TemporaryDirectory()
        self.addCleanup(held.cleanup)
        self.folder = held.name

    def test_a_file_is_written_whole_or_not_at_all(self) -> None:
        from tml_corpus.files.replacing import replace_file

        target = os.path.join(self.folder, "a")
        replace_file(target, b"one")
        for problem, raised in ((OSError, CannotRun), (KeyboardInterrupt, KeyboardInterrupt)):
            with self.assertRaises(raised), mock.patch.object(os, "replace", side_effect=problem):
                replace_file(target, b"two")
        self.assertEqual(Path(target).read_bytes(), b"one")
        self.assertEqual(os.listdir(self.folder), ["a"])

    def test_words_of_a_table_have_places(self) -> None:
        path = os.path.join(self.folder, "table")
        rows_of_tables = [
            (b"a\t\tb c\r\n\n\td\n", True, [[("a", 1, 1), ("", 1, 3), ("b c", 1, 4)], [("", 3, 1), ("d", 3, 2)]]),
            ("é  b\nc".encode(), False, [[("é", 1, 1), ("b", 1, 4)], [("c", 2, 1)]]),
            (b" \n", False, []),
        ]
        for content, tabs, words in rows_of_tables:
            with self.subTest(content):
                with open(path, "wb") as file:
                    file.write(content)
                self.assertEqual([[(word.text, word.line, word.column) for word in line] for line in rows(path, tabs)], words)
        with open(path, "wb") as file:
            file.write("x\n\té\xff".encode("latin-1"))
        with self.assertRaisesRegex(BadTable, ":2:2: the byte E9 is not UTF-8$"):
            list(rows(path))


class Starting(unittest.TestCase):
    def test_what_ends_all_programs_waits_for_one_that_is_being_started(self) -> None:
        starts, seen = running.Starts(), list[str]()
        with starts.one():
            with starts.one():
                starts.after(lambda: seen.append("later"))
            self.assertEqual(seen, [])
        self.assertEqual(seen, ["later"])
        running.Starts().after(lambda: seen.append("at once"))
        self.assertEqual(seen, ["later", "at once"])


class Running(unittest.TestCase):
    def run_sh(self, script: str, document: bytes = b"", most: int = 100) -> tuple[int, bytes]:
        return running.run(["/bin/sh", "-c", script], document, most)

    def test_what_is_read_and_printed(self) -> None:
        self.assertEqual(self.run_sh("cat; exit 3", b"x" * 300_000, 300_000), (3, b"x" * 300_000))
        self.assertEqual(self.run_sh("echo a", b"x" * 300_000), (0, b"a\n"))
        self.assertEqual(self.run_sh("exec 0<&-; sleep 0.1; echo a", b"x" * 300_000), (0, b"a\n"))

    def test_what_ends_after_its_output(self) -> None:
        # Some systems have no handles of processes: there the end is looked for from time to time.
        for handles in (True, False):
            with self.subTest(handles=handles), contextlib.ExitStack() as stack:
                if not handles and hasattr(os, "pidfd_open"):
                    stack.enter_context(mock.patch.object(os, "pidfd_open", side_effect=OSError))
                self.assertEqual(self.run_sh("echo x; exec 1>&-; sleep 0.2; exit 3"), (3, b"x\n"))

    def test_another_file(self) -> None:
        with tempfile.TemporaryFile() as other:
            other.write(b"other")
            other.seek(0)
            script = f"cat; cat /dev/fd/{other.fileno()}"
            self.assertEqual(running.run(["/bin/sh", "-c", script], b"document ", 100, other), (0, b"document other"))

    def test_what_is_given_up(self) -> None:
        with mock.patch.object(running, "SECONDS", 0.3):
            for script in ("sleep 60", "exec 1>&-; sleep 60", "while :; do :; done", "sleep 60 & exit 0"):
                with self.subTest(script), self.assertRaisesRegex(CannotRun, "longer than"):
                    self.run_sh(script)
        with self.assertRaisesRegex(CannotRun, "printed more than 100 bytes"):
            self.run_sh("yes")
        with self.assertRaisesRegex(CannotRun, "ended by signal 9"):
            self.run_sh("kill -9 $$")
        with self.assertRaisesRegex(CannotRun, "could not be run"):
            running.run(["/no/such/program"], b"", 1)
        self.assertEqual(running.RUNNING, set())


class Project(unittest.TestCase):
    def project(self) -> dict[str, Any]:
        import tomllib

        with open(os.path.join(TOP, "pyproject.toml"), "rb") as file:
            return tomllib.load(file)

    def test_version_and_programs(self) -> None:
        project = self.project()["project"]
        self.assertEqual(VERSION, match_in(r"^## \[(\d.*?)\] - ", text_at("CHANGELOG.md"), re.MULTILINE)[1])
        for name, place in project["scripts"].items():
            module, function = place.split(":")
            script = os.path.join(TOOLS, name if name in ("tml-corpus", "tml-edit") else name.removeprefix("tml-"))
            with self.subTest(name), open(script, encoding="utf-8") as file:
                self.assertRegex(file.read(), rf"\n    from {re.escape(module)} import {function}\n")
                self.assertEqual(function, os.path.basename(script).replace("-", "_"))
                said = subprocess.run([*BARE, script, "--version"], capture_output=True, text=True, check=True).stdout
                self.assertEqual(said, f"{os.path.basename(script)} {VERSION}\n")

    def test_changes_are_below_known_headings_and_what_breaks_comes_first(self) -> None:
        known = ["Added", "Changed", "Deprecated", "Fixed", "Removed", "Security"]
        first, *versions = re.split(r"^## ", text_at("CHANGELOG.md"), flags=re.MULTILINE)[1:]
        self.assertTrue(first.startswith("[Unreleased]\n"))
        for version in (first, *versions):
            kinds = {head: text for head, text in (part.split("\n", 1) for part in version.split("\n### ")[1:])}
            self.assertEqual(list(kinds), [kind for kind in known if kind in kinds], version[:20])
            for text in kinds.values():
                breaking = [line.startswith("- **Breaking:** ") for line in text.splitlines() if line.startswith("- ")]
                self.assertEqual(breaking, sorted(breaking, reverse=True), text)
                self.assertTrue(breaking, f"nothing is below a heading of {version[:20]}")

    def test_keywords_are_those_of_a_citation(self) -> None:
        cited = re.findall(r"^  - (.*)$", text_at("CITATION.cff").partition("\nkeywords:\n")[2], re.MULTILINE)
        self.assertEqual(cited, self.project()["project"]["keywords"])

    def test_nothing_is_locked_where_it_is_imported(self) -> None:
        paths = (path.relative_to(SOURCES).with_suffix("").as_posix() for path in sorted(Path(SOURCES, "tml_corpus").rglob("*.py")))
        modules = ", ".join(path.replace("/", ".") for path in paths)
        script = (
            "import _multiprocessing\nclass SemLock:\n    SEM_VALUE_MAX = 1\n    def __init__(self, *words): raise AssertionError\n"
            f"_multiprocessing.SemLock = SemLock\nimport multiprocessing.synchronize\nimport {modules}\n"
        )
        done = subprocess.run([*BARE, "-c", script], cwd=SOURCES, capture_output=True, text=True, check=False, timeout=60)
        self.assertEqual((done.returncode, done.stderr), (0, ""))


if __name__ == "__main__":
    unittest.main()
