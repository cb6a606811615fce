"""One bad file never ends a run: what the work on a file raises, wherever it does, is said of this file, and all others are judged.

In each run some hundred files have a fault each (`faults.py`): the N-th function that is called for the file N raises an error of the
system, a bug, or what a lack of memory or an endless recursion raises. So runs of nine commands over folders raise at some 1,300 places,
and those about one document at 140. `test_cluster.py` raises each error of the system on a worker, and
`test_folders.py` in `tml.folder`.
"""

import contextlib
import io
import json
import os
import re
import unittest
from collections.abc import Sequence
from unittest import mock

from corpus import CLASH, EVENT, INSTANCE, TML, TOOLS, CorpusTest, document, match_in
from faults import ERRORS, fault, faults
from forked import Ended, run_forked
from tml_corpus.command_line.main import command

DATED = EVENT + INSTANCE + '<TIMEX3 tid="t1" type="DATE" value="1998-01-08">x</TIMEX3>'
LINKED = DATED + '<TLINK eventInstanceID="i1" relatedToTime="t1" relType="BEFORE"/>'
CONTENTS = (LINKED, CLASH, EVENT + "<EVENT/> &", EVENT + INSTANCE.replace("e1", "e2"))

MANY = range(1, 2 * len(ERRORS) + 1)
"""Numbers of files with which each error of the system is raised."""

COMMANDS: tuple[tuple[str, str, Sequence[int]], ...] = (
    ("tml-corpus check --lint --clashes --more 1 --tml TML d", "not judged", MANY),
    ("tml-corpus clashes --repair --tml TML d", "not judged", MANY),
    ("tml-corpus fix --tml TML d", "not fixed", range(1, 150)),
    ("tml-corpus tags --tml TML d", "skipped", range(1, 100)),
    ("tml-corpus report --tml TML d -o pages", "not judged", range(1, 3300, 23)),
    ("tml-corpus agree --links --tml TML d d", "skipped", range(1, 90)),
    ("tml-corpus open --tml TML d", "not judged", range(1, 180, 3)),
    ("redundant-links --tml TML d", "skipped", range(1, 90)),
    ("tml-edit --tml TML --unwrap P --drop-links BEFORE d", "", range(1, 90)),
)
"""Commands about all files of a folder, the words with which each says that it could not look at a file, and the numbers of the files."""

LINE = re.compile(r"(?:tml-edit: )?d/(\d+)\.xml: (?:(not judged|not fixed|skipped): )?(.*)")


class BadFilesTest(CorpusTest):
    def files(self, numbers: Sequence[int]) -> None:
        """A file for each number: one that a timeline fits, one that clashes, and two with a fault, in turn."""
        for number in numbers:
            self.write(f"d/{number:04}.xml", document(CONTENTS[number % len(CONTENTS)]))

    def said(self, number: int, problem: str) -> None:
        """Sees that what is said of a file is what was raised."""
        self.assertRegex(problem, f"(?i)(?:^|: |\\] )(?:{fault(number)[1]})$")

    def called(self, line: str) -> Ended:
        name, *words = (TML if word == "TML" else word for word in line.split(" "))
        return run_forked(os.path.join(TOOLS, name), *words, folder=self.folder)


class Corpora(BadFilesTest):
    def test_all_other_files_are_judged(self) -> None:
        for line, skipped, numbers in COMMANDS:
            with self.subTest(line):
                self.files(numbers)
                before = self.called(line)
                with faults():
                    ended = self.called(line)
                self.assertEqual(ended.status, 2, ended)
                bad = self.bad_files(ended, before, skipped)
                self.assertGreater(len(bad), len(numbers) // 3)
                summary = re.search(r"(?m)^\d+ (?:files|pairs counted)\b.*$", self.text)
                self.assertEqual(summary is None, "open" in line)
                if summary is not None:
                    # It counts each file once; pairs that are not counted have several reasons.
                    counts = [int(count) for count in re.findall(r"\d+", summary[0])]
                    self.assertIn(len(self.skipped), (*counts, sum(counts[1:])))
                for number in numbers:
                    os.unlink(self.path(f"d/{number:04}.xml"))

    def bad_files(self, ended: Ended, before: Ended, skipped: str) -> set[int]:
        """The files of which a run says that something went wrong, each once, and the right thing."""
        self.text = (ended.out + ended.error).decode()
        usual, bad, self.skipped = set((before.out + before.error).decode().splitlines()), set[int](), set[int]()
        for line in self.text.splitlines():
            found = LINE.fullmatch(line)
            if found is None or (found[2] or "") != skipped or (not skipped and line.endswith(": changed")):
                continue
            number = int(found[1])
            self.skipped.add(number)
            if line in usual:
                continue
            self.assertNotIn(number, bad)
            bad.add(number)
            self.said(number, found[3])
        self.assertNotIn("Traceback", self.text)
        return bad

    def test_json_is_whole(self) -> None:
        self.files(MANY)
        line = "tml-corpus check --lint --format json --more 1 --tml TML d"
        before = {one["path"]: one for one in json.loads(self.called(line).out)}
        with faults():
            ended = self.called(line)
        found, bad = json.loads(ended.out), 0
        self.assertEqual((ended.status, [one["path"] for one in found]), (2, list(before)))
        for one in found:
            if one["verdict"] == "not judged":
                bad += 1
                self.said(int(match_in(r"(\d+)\.xml$", one["path"])[1]), one["problem"])
            else:
                self.assertEqual(one, before[one["path"]])
        self.assertGreater(bad, 100)
        self.assertIn(f", {bad} not judged\n", ended.error.decode())

    def test_documents_of_tables(self) -> None:
        numbers = range(1, 60)
        self.write("in/base-segmentation.tab", "".join(f"d{number}\t0\t0\tx\n" for number in numbers))
        self.write("in/event-extents.tab", "".join(f"d{number}\t0\t0\tevent\te1\t1\n" for number in numbers))
        with faults():
            ended = self.called("from-tempeval2 in out")
        bad = {
            int(number): problem for number, problem in re.findall(r"(?m)^from-tempeval2: d(\d+): not written: (.*)$", ended.error.decode())
        }
        for number, problem in bad.items():
            self.said(number, problem)
        self.assertGreater(len(bad), 15)
        self.assertEqual(ended.status, 2)
        self.assertEqual({f"d{number}.xml" for number in numbers if number not in bad}, set(os.listdir(self.path("out"))))

    def test_entities(self) -> None:
        with mock.patch("tml_corpus.convert.html_entities.character", side_effect=KeyError("bug")):
            ended = run_forked(os.path.join(TOOLS, "html-entities"), folder=self.folder, given=b"&x;")
        self.assertEqual((ended.status, ended.out), (2, b""))
        self.assertRegex(ended.error.decode(), r"^html-entities: KeyError: 'bug' \(convert/html_entities\.py:\d+\)\n$")

    def test_what_says_that_something_went_wrong_may_not_go_wrong_itself(self) -> None:
        self.write("a.xml", document(EVENT))
        with mock.patch("tml_corpus.check.formats.judgement_object", side_effect=KeyError("bug")):
            ended = self.called("tml-corpus check --format json --tml TML a.xml")
        self.assertEqual((ended.status, ended.error.count(b"\n")), (2, 1))
        self.assertRegex(ended.error.decode(), r"^tml-corpus: KeyError: 'bug' \(\w+/\w+\.py:\d+\)\n$")


ONE: tuple[tuple[str, int], ...] = (
    ("matrix --format text", 171),
    ("matrix --format csv", 171),
    ("seconds --format json", 346),
    ("open", 241),
    ("timeline -o d.svg", 1100),
    ("timeline --seconds -o d.html", 1500),
    ("timeline --bare -o d.tex", 900),
)
"""Commands about one document, and about how many functions each of them calls."""


class OneDocument(BadFilesTest):
    def shown(self, words: list[str]) -> tuple[int, str]:
        """The status of a command, and all that it prints."""
        out, error = (io.TextIOWrapper(io.BytesIO(), write_through=True) for _ in range(2))
        with contextlib.redirect_stdout(out), contextlib.redirect_stderr(error):
            status = command([words[0], "--tml", TML, *words[1:]])
        assert isinstance(out.buffer, io.BytesIO) and isinstance(error.buffer, io.BytesIO)
        return status, (out.buffer.getvalue() + error.buffer.getvalue()).decode()

    def test_it_is_not_judged(self) -> None:
        here = os.getcwd()
        os.chdir(self.folder)
        self.addCleanup(os.chdir, here)
        for line, count in ONE:
            bad = 0
            for number in range(1, count, count // 20 | 1):
                with self.subTest(line, number=number), faults():
                    self.write(f"{number}.xml", document(LINKED))
                    status, text = self.shown([*line.split(), f"{number}.xml"])
                    self.assertIn(status, (0, 2))
                    if status:
                        bad += 1
                        [problem] = re.findall(rf"(?m)^{number}\.xml: not judged: (.*)$", text)
                        self.said(number, problem)
            self.assertGreater(bad, 8, line)


if __name__ == "__main__":
    unittest.main()
