"""The differential tester: its cases are decided by the seed, a program that lies is found out, and differences are made small."""

from __future__ import annotations

import itertools
import os
import re
import shutil
import stat
import subprocess
import tempfile
import unittest
from collections.abc import Callable, Iterable
from dataclasses import replace
from pathlib import Path
from random import Random
from unittest import mock

from corpus import TML, TOOLS, needs_matrix, needs_score, needs_seconds
from differential import agreeing, commands, reals  # noqa: F401
from differential.cases import Case, Memory, Output, Real
from differential.comparing import complaint
from differential.datetimes import bounds
from differential.documents import draw_document
from differential.drawing import (
    Written,
    draw_case,
    draw_confirming,
    draw_joining,
    draw_of_evidence,
    draw_scored,
    draw_timed,
    draw_worded,
    draw_writing,
    draw_wrong,
)
from differential.evidence import blocks_of, joined, older_text, text_of
from differential.faulty import draw_too_many
from differential.keeping import keep, kept
from differential.libraries import Libraries, Question, library_path, obstacle, question_of
from differential.programs import Programs, rows_path
from differential.reducing import reduced
from differential.rows import Rows, answers_of, is_for_rows, row_of
from differential.trees import tree_of
from forked import run_forked
from processes import PATIENCE
from reference import Outcome, expected
from tml.running import CannotRun
from tml.statuses import FAULT_NAMES, TmlStatus

DIFFERENTIAL = os.path.join(TOOLS, "differential")
EVIDENCE = (
    b"tml-evidence 2\nclaims 1\nclash 2\ncite 0\ncite 1\nwalk 4\nvia 0 0\nspan 1\nvia 1 0\nspan 0\n"
    b"timeline 2\nat 2 3\nat 0 1\ntimeline 2\nat 0 1\nat 2 3\nend\n"
)
NO_INTERVALS = b"tml-evidence 2\nclaims 1\ntimeline 0\nend\n"
WRITTEN = [Written(b"<TimeML/>\n", EVIDENCE), Written(b"<TimeML></TimeML>", NO_INTERVALS)]
DAY = b"""<TimeML><TIMEX3 tid="d" type="DATE" value="1998-01-08"/><TIMEX3 tid="p" type="DURATION" value="P1D"/>
<TLINK timeID="p" relatedToTime="d" relType="%s"/></TimeML>"""
PLACINGS = [
    Written(DAY % b"DURING", b"tml-seconds 1\nplacing 2\nat 884217600 884304000\nat 884217600 884304000\nend\n"),
    Written(DAY % b"IS_INCLUDED", b"tml-seconds 1\ncycle 5\nupper 1\nvia 0 1\nleast 1\nvia 0 0\nlower 0\nend\n"),
]
NOTHING = "no difference"
DATES = {
    "1998-01-07": "t exact 884131200 884217600 1998-01-07T00:00:00 1998-01-08T00:00:00",
    "1998-01-08T18:30:00": "t exact 884284200 884284201 1998-01-08T18:30:00 1998-01-08T18:30:01",
    "9999-12-31T24:00:00": "t exact 253402300800 253402300801 10000-01-01T00:00:00 10000-01-01T00:00:01",
    "000X": "t within -62135596800 -61851600000 0001-01-01T00:00:00 0010-01-01T00:00:00",
    "1998-W53-7": "t exact 915321600 915408000 1999-01-03T00:00:00 1999-01-04T00:00:00",
    "1998-H1": "t exact 883612800 899251200 1998-01-01T00:00:00 1998-07-01T00:00:00",
    "199X-H2": "t within 631152000 946684800 1990-01-01T00:00:00 2000-01-01T00:00:00",
    "000": "t exact -62135596800 -61851600000 0001-01-01T00:00:00 0010-01-01T00:00:00",
    "19": "t exact -2208988800 946684800 1900-01-01T00:00:00 2000-01-01T00:00:00",
    "19XX-12": "t within -2208988800 946684800 1900-01-01T00:00:00 2000-01-01T00:00:00",
}


class Drawing(unittest.TestCase):
    def test_a_seed_decides_the_cases(self) -> None:
        def drawn(seed: int) -> list[Case]:
            random = Random(f"{seed}/0")
            cases = [draw_case(random) for _ in range(60)] + [draw_writing(random) for _ in range(10)]
            return cases + [draw_of_evidence(random, WRITTEN) for _ in range(60)]

        self.assertEqual(drawn(1), drawn(1))
        self.assertNotEqual(drawn(1), drawn(2))

    def all_are_drawn(self, wanted: Iterable[str], cases: Iterable[Case], answer: Callable[[Case], str]) -> None:
        """Each answer that is wanted is that of one of the cases, of which no more are drawn than that takes."""
        missing = set(wanted)
        for case in cases:
            missing.discard(answer(case))
            if not missing:
                break
        self.assertEqual(missing, set())

    def test_all_kinds_of_fault_are_drawn(self) -> None:
        def kind(case: Case) -> str:
            found = expected(case.words, case.files)
            return found.text.split()[2].decode() if isinstance(found, Outcome) and found.status == TmlStatus.DOC_FAULT else "none"

        random, rare = Random(3), ("TooManyIntervals", "TooManyLinks")
        self.all_are_drawn(set(FAULT_NAMES) - set(rare), (draw_wrong(random) for _ in range(700)), kind)
        # By this seed they come early: such a document takes the reference a fifth of a second.
        random = Random(2)
        self.all_are_drawn(rare, (Case("", (b"check", b"d"), {b"d": draw_too_many(random)}) for _ in range(100)), kind)

    def test_documents_without_a_fault_are_mostly_accepted(self) -> None:
        accepted = [expected((b"check", b"d"), {b"d": draw_document(Random(number))}).status == 0 for number in range(200)]
        self.assertGreater(sum(accepted), 180)

    def test_the_blocks_of_evidence_are_its_text(self) -> None:
        self.assertEqual(text_of(blocks_of(EVIDENCE)), EVIDENCE)

    def test_texts_of_several_claims(self) -> None:
        both = b"tml-evidence 2\nclaims 2\n" + NO_INTERVALS[24:-4] + EVIDENCE[24:]
        self.assertEqual(joined([NO_INTERVALS, b"x", older_text(EVIDENCE)]), both)
        self.assertEqual((older_text(NO_INTERVALS), older_text(both)), (b"tml-evidence 1\ntimeline 0\nend\n", both))
        self.assertEqual(joined([both, NO_INTERVALS])[:24], b"tml-evidence 2\nclaims 3\n")

    def test_all_answers_about_evidence_are_drawn(self) -> None:
        def beginning(case: Case) -> str:
            found = expected(case.words, case.files)
            text = found.text if isinstance(found, Outcome) else b"free"
            several = b" and more" if text.startswith(b"verified") and text.count(b"\n") > 1 else b""
            return f"{case.words[0].decode()}: {b' '.join(text.split()[:2]).decode()}{several.decode()}"

        random = Random(4)
        wanted = (
            "verify: verified timeline",
            "verify: verified timeline and more",
            "verify: evidence line",
            "verify: evidence claim",
            "renew: tml-evidence 2",
            "renew: evidence line",
            "renew: read fault",
            "join: tml-evidence 2",
            "join: evidence line",
            "join: second line",
            "join: read fault",
        )
        self.all_are_drawn(wanted, (draw_of_evidence(random, WRITTEN) for _ in range(1500)), beginning)

    def test_all_answers_to_score_are_drawn(self) -> None:
        def answer(case: Case) -> str:
            found = expected(case.words, case.files)
            text = found.text.decode() if isinstance(found, Outcome) else "clash"
            kind = re.sub(r"^fault.*", "fault", " ".join(text.split()[:2]))
            return re.sub(r"[1-9]\d*", "N", text) if text.startswith("precision") else kind

        random = Random(2)
        scores = ("precision N of N\nrecall N of N\n", "precision 0 of N\nrecall N of N\n", "precision 0 of 0\nrecall 0 of 0\n")
        wanted = (*scores, "fault", "key fault", "clash", "key clash", "read fault")
        self.all_are_drawn(wanted, (draw_scored(random) for _ in range(600)), answer)

    def test_all_answers_to_seconds_and_confirm_are_drawn(self) -> None:
        def status(case: Case) -> str:
            return f"{case.words[0].decode()} {expected(case.words, case.files).status}"

        def beginning(case: Case) -> str:
            found = expected(case.words, case.files)
            return " ".join(found.text.decode().split()[:2]) if isinstance(found, Outcome) else "free"

        random = Random(8)
        timed = (draw_timed(random) for _ in range(400))
        self.all_are_drawn(("seconds 0", "seconds 2", "confirm 0", "confirm 7"), timed, status)
        reasons = ("Size", "Order", "Link", "Bound", "Length", "Step", "End", "Sum")
        wanted = ("confirmed placing", "confirmed cycle", "evidence line", *(f"seconds {reason}" for reason in reasons))
        self.all_are_drawn(wanted, (draw_confirming(random, PLACINGS) for _ in range(3000)), beginning)

    def test_a_second_file_that_fails_is_drawn(self) -> None:
        random, failing = Random(5), 0
        for case in (draw_joining(random, WRITTEN) for _ in range(1500)):
            if case.words[0] == b"join" and case.real is not None and case.words[2] in case.real.folders and case.words[1] in case.files:
                failing += 1
        self.assertGreater(failing, 0)


class Referees(unittest.TestCase):
    def test_the_calendar_of_datetime(self) -> None:
        for value, line in DATES.items():
            found = bounds("DATE", "", value)
            self.assertEqual(found and found.line("t"), line)
        for kind, modifier, value in (("SET", "", "1998"), ("DATE", "APPROX", "1998"), ("DATE", "", "P3D"), ("DATE", "", "XXXX-12-25")):
            self.assertIsNone(bounds(kind, modifier, value))

    def test_trees_of_expat(self) -> None:
        first, second = b"<!-- a --><TimeML b='\"' a=''>x&amp;<P/></TimeML>\n", b'<TimeML a="" b="&quot;">x&amp;<P></P></TimeML>'
        self.assertEqual(tree_of(first), tree_of(second))
        self.assertNotEqual(tree_of(first), tree_of(second.replace(b"x", b"y")))
        self.assertIsNone(tree_of(b"<TimeML>&#0;</TimeML>"))

    def test_real_numbers_of_z3(self) -> None:
        if not reals.IS_THERE:
            self.skipTest("no module z3")
        document = b'<TimeML><TIMEX3 tid="a" type="SET"/><TIMEX3 tid="b" type="SET"/>%s</TimeML>'
        link = b'<TLINK timeID="a" relatedToTime="b" relType="%s"/>'
        case = Case("", (b"relations", b"d"), {b"d": document % (link % b"IBEFORE")})
        self.assertIsNone(reals.complaint(case, Outcome(0, b"a IBEFORE b\n")))
        self.assertIsNotNone(reals.complaint(case, Outcome(0, b"a BEFORE b\n")))
        clash = replace(case, files={b"d": document % (link % b"BEFORE" + link % b"AFTER" + link % b"AFTER")})
        self.assertIsNone(reals.complaint(clash, Outcome(2, b"cite 0\ncite 2\n")))
        for cites in (b"cite 1\ncite 2\n", b"cite 0\ncite 1\ncite 2\n"):
            self.assertIsNotNone(reals.complaint(clash, Outcome(2, cites)))

    def test_base_relations_of_z3(self) -> None:
        if not reals.IS_THERE:
            self.skipTest("no module z3")
        document = b'<TimeML><TIMEX3 tid="a" type="SET"/><TIMEX3 tid="b" type="SET"/>%s</TimeML>'
        link = b'<TLINK timeID="a" relatedToTime="b" relType="%s"/>'
        for relation, wanted in ((b"OVERLAPS", b"OVERLAPS"), (b"DURING", b"IS_INCLUDED SIMULTANEOUS BEGINS ENDS")):
            case = Case("", (b"matrix", b"d"), {b"d": document % (link % relation)})
            self.assertIsNone(reals.complaint(case, Outcome(0, b"a b %s\n" % wanted)))
            self.assertIsNotNone(reals.complaint(case, Outcome(0, b"a b BEFORE\n")))
            answer = expected((b"possible", b"d", b"a", b"b"), case.files)
            assert isinstance(answer, Outcome)
            possible = replace(case, words=(b"possible", b"d", b"a", b"b"))
            self.assertIsNone(reals.complaint(possible, answer))
            self.assertIsNotNone(reals.complaint(possible, Outcome(0, answer.text.replace(wanted.split()[-1], b"AFTER"))))

    def test_wrong_answers_are_found(self) -> None:
        document = b"<TimeML><P b='' a=''/></TimeML>"
        rows = [
            ((b"check", b"d"), Outcome(1, b"fault 3 BadMarkup 0\n")),
            ((b"canon", b"d"), Outcome(0, b'<TimeML><P b="" a=""/></TimeML>\n')),
            ((b"spans", b"d"), Outcome(0, b"")),
            ((b"solve", b"d"), Outcome(0, b"tml-evidence 2\nclaims 1\ntimeline 1\nat 0 1\nend\n")),
            ((b"drill", b"0"), Outcome(6, b"")),
        ]
        for words, outcome in rows:
            self.assertIsNotNone(complaint(Case("", words, {b"d": document}), outcome), words)
        self.assertIsNone(complaint(Case("", (b"canon", b"d"), {b"d": document}), Outcome(0, b'<TimeML><P a="" b=""/></TimeML>\n')))

    def test_devices_in_memory(self) -> None:
        case = Case("", (b"spans", b"d"), {b"d": b"xy"})
        rows = [
            (Memory(reads_of=1, failing_reads=(3,)), Outcome(4, b"read fault\n"), Outcome(0, b"0 2 text\n")),
            (Memory(reads_of=1, failing_reads=(4,)), Outcome(0, b"0 2 text\n"), Outcome(4, b"read fault\n")),
            (Memory(room=3), Outcome(5, b"0 2"), Outcome(5, b"0 2 ")),
            (Memory(writes_of=2, failing_writes=(2,)), Outcome(5, b"0 2 "), Outcome(0, b"0 2 text\n")),
        ]
        for memory, right, wrong in rows:
            self.assertIsNone(complaint(replace(case, memory=memory), right), memory)
            self.assertIsNotNone(complaint(replace(case, memory=memory), wrong), memory)

    def test_a_second_file_that_fails(self) -> None:
        fault, whole = Outcome(4, b"read fault\n"), Outcome(0, joined([NO_INTERVALS, NO_INTERVALS]))
        bad = Outcome(7, b"evidence line 1\n")
        good = Case("", (b"join", b"e", b"f"), {b"e": NO_INTERVALS, b"f": NO_INTERVALS})
        for memory, case, right, wrong in (
            (Memory(), good, whole, fault),
            (Memory(failing_reads=(2,)), good, fault, whole),
            (Memory(failing_reads=(3,)), good, fault, whole),
            (Memory(failing_reads=(6,)), good, whole, fault),
            (Memory(failing_reads=(3,)), replace(good, files={b"e": b"x", b"f": NO_INTERVALS}), bad, fault),
        ):
            self.assertIsNone(complaint(replace(case, memory=memory), right), memory)
            self.assertIsNotNone(complaint(replace(case, memory=memory), wrong), memory)


class Agreeing(unittest.TestCase):
    """Answers to `possible`, `matrix`, `ask` and `relations` that agree, and others that do not."""

    DOCUMENT = b"""<TimeML><TIMEX3 tid="a" type="SET"/><TIMEX3 tid="b" type="SET"/><TIMEX3 tid="c" type="SET"/>
<TLINK timeID="a" relatedToTime="b" relType="DURING"/><TLINK timeID="b" relatedToTime="c" relType="BEFORE"/></TimeML>"""

    def answers(self, first: bytes, second: bytes) -> tuple[Case, Outcome, list[tuple[Case, Outcome]]]:
        """The answers of the reference to a question and to the further ones; of a proof its beginning alone."""
        case = Case(agreeing.SUBJECT, (b"possible", b"d", first, second), {b"d": self.DOCUMENT})
        outcome = self.answer(case)
        return case, outcome, [(one, self.answer(one)) for one in agreeing.further(case, outcome)]

    def answer(self, case: Case) -> Outcome:
        """What the reference says, where that is determined; else the beginning of a proof."""
        found = expected(case.words, case.files)
        return found if isinstance(found, Outcome) else Outcome(found.status, b"tml-evidence 2\nclaims 1\nentails ")

    def test_right_answers(self) -> None:
        for first, second in itertools.product((b"a", b"b", b"c"), repeat=2):
            self.assertIsNone(agreeing.complaint(*self.answers(first, second)), (first, second))

    def test_wrong_answers(self) -> None:
        slips = [
            (b"possible", b"relation BEGINS", b"relation ENDED_BY"),
            (b"possible", b"relation BEGINS\ntimeline 3\nat 0 1\nat 0 2\nat 3 4\n", b""),
            (b"verify", b"verified timeline\n", b""),
            (b"ask", b"\ncounter ", b"\nentails "),
            (b"matrix", b"a b IS_INCLUDED", b"a b INCLUDES"),
            (b"matrix", b"a c BEFORE", b"a c BEFORE AFTER"),
            (b"matrix", b"b c BEFORE\n", b""),
            (b"relations", b"a BEFORE c\n", b""),
            (b"reduce", b"reduced 2 of 2", b"reduced 1 of 2"),
            (b"reduce", b"tlink 1 b BEFORE c\n", b""),
            (b"score", b"precision 2", b"precision 1"),
        ]
        for command, old, new in slips:
            case, outcome, others = self.answers(b"a", b"b")
            answered = [(case, outcome), *others]
            self.assertIn(old, b"".join(one.text for asked, one in answered if asked.words[0] == command), command)
            outcome, *changed = (
                replace(one, text=one.text.replace(old, new)) if asked.words[0] == command else one for asked, one in answered
            )
            again = [(one, other) for (one, _), other in zip(others, changed, strict=True)]
            self.assertIsNotNone(agreeing.complaint(case, outcome, again), (command, new))

    def test_evidence_of_the_timelines(self) -> None:
        case, outcome, [(verify, verified), *_] = self.answers(b"a", b"b")
        self.assertEqual(verify.words, (b"verify", b"d", b"e"))
        self.assertEqual(verified, Outcome(0, 4 * b"verified timeline\n"))
        self.assertEqual(agreeing.further(case, replace(outcome, text=outcome.text.replace(b"possible 4", b"possible 3"))), [])


class Keeping(unittest.TestCase):
    def test_a_case_is_kept(self) -> None:
        cases = (
            Case("a", (b"verify", b"\xff", b""), {b"d": b"\0\xff\n", b"\xe9": b""}),
            Case("b", (), {b"-": b""}, memory=Memory(1, 2, (3,), (4, 5), 6)),
            Case("c", (b"check", b"d"), {}, real=Real(Output.GONE, True, (b"d",))),
        )
        for case in cases:
            with tempfile.TemporaryDirectory() as folder:
                keep(case, Path(folder) / "kept")
                self.assertEqual(kept(Path(folder) / "kept"), case)

    def test_a_case_is_made_small(self) -> None:
        document = draw_document(Random(5), 8) + b"<TLINK needle/>" + draw_document(Random(6), 8)
        case = Case("", (b"check", b"d"), {b"d": document, b"e": b"x"})
        small = reduced(case, lambda other: b"needle" in other.files.get(b"d", b""), 20)
        self.assertEqual(small.files, {b"d": b"needle"})

    def test_a_long_matrix_is_no_row(self) -> None:
        for count, command, is_row in ((90, b"matrix", True), (91, b"matrix", False), (91, b"relations", True)):
            case = Case("", (command, b"d"), {b"d": b"<TimeML>%s</TimeML>" % (count * b"<MAKEINSTANCE/>")})
            self.assertEqual(is_for_rows(case), is_row)

    def test_rows_and_answers(self) -> None:
        case = Case("", (b"ask", b"d", b"", b"a b"), {b"d": b"#x \n\xff| \n\n y", b"-": b""}, memory=Memory(room=7))
        table = row_of(case)
        self.assertIn(b"file d\n|\\x23x\\x20\n|\\xFF|\\x20\n|\n| y\\\nfile -\n", table)
        self.assertIn(b"room 7\n$ tml ask d '' a\\x20b\n[255]\n", table)
        printed = (
            b"line 1, $ tml\nwanted\n[255]\nanswered\n|a\n|[5]\\\n[5]\ncase: 0 right, 1 WRONG\n"
            b"line 9, $ tml x\nwanted\n[255]\nanswered\n[6]\ncase: 0 right, 1 WRONG\n"
        )
        self.assertEqual(answers_of(printed), [Outcome(5, b"a\n[5]"), Outcome(6, b"")])


LIBRARY = """
#include <signal.h>
#include <stddef.h>
#include <stdint.h>
#include <stdlib.h>
#include <string.h>
#include <unistd.h>
uint8_t tml_answer(const uint8_t *words, size_t words_length, const uint8_t *first, size_t first_length, const uint8_t *second,
                   size_t second_length, uint8_t *text, size_t room, size_t *needed) {
    *needed = 0;
    %s
    return 9;
}
"""
"""A library in C that answers nothing, with a status that hardly any case has, but for what it does before that."""


def library_that(folder: Path, does: str) -> str:
    """A library that does something at each call."""
    source, library = folder / "library.c", folder / "library.so"
    source.write_text(LIBRARY % does, encoding="ascii")
    subprocess.run(["cc", "-shared", "-fPIC", "-o", library, source], check=True)
    return str(library)


class AskedOfLibrary(unittest.TestCase):
    """Cases as questions to a library."""

    def test_words_that_name_files(self) -> None:
        rows: list[tuple[tuple[bytes, ...], dict[bytes, bytes], Question]] = [
            ((b"check", b"d"), {b"d": b"x"}, Question(b"check\0first\0", b"x")),
            ((b"ask", b"a", b"a", b"BEFORE", b"first"), {b"a": b"x"}, Question(b"ask\0first\0a\0BEFORE\0first\0", b"x")),
            ((b"possible", b"d", b"d", b"d"), {b"d": b"x"}, Question(b"possible\0first\0d\0d\0", b"x")),
            ((b"join", b"second", b"first"), {b"first": b"x", b"second": b"y"}, Question(b"join\0first\0second\0", b"y", b"x")),
            ((b"join", b"e", b"e"), {b"e": b"x", b"f": b"y"}, Question(b"join\0first\0first\0", b"x")),
            ((b"join", b"-", b"-"), {b"-": b"x"}, Question(b"join\0first\0second\0", b"x", b"")),
            ((b"join", b"second", b"e"), {b"e": b"x"}, Question(b"join\0none\0first\0", b"x")),
            ((b"renew", b"-"), {}, Question(b"renew\0-\0")),
            ((b"drill", b"d"), {b"d": b"x"}, Question(b"drill\0d\0")),
            ((b"check", b"d", b"e"), {b"d": b"x"}, Question(b"check\0d\0e\0")),
            ((b"check", b"\xff"), {b"\xff": b"x"}, Question(b"check\0\xff\0")),
            ((), {b"-": b"x"}, Question(b"spans\0first\0", b"x")),
            ((), {}, Question(b"")),
        ]
        for words, files, wanted in rows:
            self.assertEqual(question_of(Case("", words, files)), wanted)

    def test_a_question_has_the_answer_of_its_case(self) -> None:
        random = Random(11)
        cases = [draw_worded(random) for _ in range(100)] + [draw_joining(random, WRITTEN) for _ in range(60)]
        for case in cases + [draw_case(random) for _ in range(60)]:
            if obstacle(case) is None:
                question = question_of(case)
                words = question.words.split(b"\0")[:-1]
                found, wanted = expected(words, {b"first": question.first, b"second": question.second}), expected(case.words, case.files)
                self.assertEqual(found.status, wanted.status, case.words)
                self.assertTrue(found == wanted or not isinstance(wanted, Outcome), case.words)

    def test_what_cannot_be_asked(self) -> None:
        case = Case("", (b"check", b"d"), {b"d": b"x"})
        for one, wanted in (
            (case, None),
            (replace(case, files={}, real=Real(Output.PIPE, True, (b"d",))), None),
            (replace(case, real=Real(Output.CLOSED)), "an output that fails"),
            (replace(case, memory=Memory()), "devices in memory"),
            (replace(case, words=(b"check", b"\0")), "a zero byte in a word"),
        ):
            self.assertEqual(obstacle(one), wanted)


@unittest.skipUnless(shutil.which("cc"), "no cc")
class LibrariesThatFail(unittest.TestCase):
    def complaints(self, does: str, *words: bytes, seconds: float = 20) -> list[str | None]:
        """What is said of a library that does something, where the program answers these words, one after another, with nothing."""
        with tempfile.TemporaryDirectory() as folder, Libraries(library_that(Path(folder), does), seconds) as libraries:
            return [libraries.complaint(Case("", (word,)), Outcome(9, b"")) for word in words]

    def test_a_library_that_lies(self) -> None:
        said = self.complaints('if (words[0] == 108) { *needed = 3; memcpy(text, "lie", 3); return 0; }', b"a", b"l", b"b")
        self.assertEqual(said, [None, "The library answers 0 b'lie'.", None])

    def test_a_long_lie(self) -> None:
        said = self.complaints("*needed = 300; if (room > 300) memset(text, 65, 300);", b"a")
        self.assertEqual(said, [f"The library answers 9 {b'A' * 200!r} from byte 0 of 300 on."])

    def test_one_that_ends_its_process(self) -> None:
        said = self.complaints("if (words[0] == 99) raise(SIGSEGV); if (words[0] == 101) exit(0);", b"c", b"a", b"e", b"a")
        self.assertEqual(said[0], "The process of the library was ended by signal 11.")
        self.assertEqual(said[1:], [None, "The process of the library ended with status 0.", None])

    def test_one_that_never_ends(self) -> None:
        said = self.complaints("while (words[0] == 110) pause();", b"n", b"a", seconds=1)
        self.assertEqual(said, ["The library took longer than 1 seconds.", None])

    def test_no_library(self) -> None:
        with self.assertRaisesRegex(CannotRun, "the library /none/libtml.so cannot be loaded"):
            Libraries("/none/libtml.so")


class Runs(unittest.TestCase):
    def setUp(self) -> None:
        if not os.access(TML, os.X_OK):
            self.skipTest(f"no program {TML}: build it as README.md says, or name one by TML=PROGRAM")
        held = tempfile.TemporaryDirectory()
        self.addCleanup(held.cleanup)
        self.folder = Path(held.name)
        # Cases are made as small as they can be made, however long that takes.
        self.enterContext(mock.patch.object(commands, "REDUCING_SECONDS", PATIENCE))

    def differential(self, *words: str, tml: str = TML) -> tuple[int, str]:
        """Runs the tool over a program, and gives its status and what it printed. A library is asked where the words name one."""
        environment = {**os.environ, "TML": os.path.abspath(tml), "TML_LIBRARY": "", "PYTHONDONTWRITEBYTECODE": "1"}
        words = ("--keep", str(self.folder / "kept"), *words)
        ended = run_forked(DIFFERENTIAL, *words, folder=str(self.folder), environment=environment, patience=2 * PATIENCE)
        return ended.status, (ended.out + ended.error).decode()

    def lying(self, body: str) -> str:
        """A program that answers as `tml` does, but for a lie."""
        path = self.folder / "lying"
        path.write_text(f'#!/bin/sh\nT="{os.path.abspath(TML)}"\n{body}\nexec "$T" "$@"\n', encoding="utf-8")
        path.chmod(stat.S_IRWXU)
        return str(path)

    def test_some_cases_without_a_difference(self) -> None:
        status, said = self.differential("--count", "50", "2", "7")
        self.assertEqual(status, 0, said)
        self.assertRegex(said, r"(?m)^\d\d+ cases, 0 differences, seed 7,")

    def test_evidence_without_a_difference(self) -> None:
        status, said = self.differential("--evidence", "--count", "100", "2", "8")
        self.assertEqual(status, 0, said)

    @needs_score
    def test_links_without_a_difference(self) -> None:
        status, said = self.differential("--links", "--count", "100", "2", "9")
        self.assertEqual(status, 0, said)
        self.assertRegex(said, r"(?m)^reducing \d+; scored \d+$")

    @needs_seconds
    def test_placings_without_a_difference(self) -> None:
        status, said = self.differential("--placings", "--count", "100", "2", "10")
        self.assertEqual(status, 0, said)
        self.assertRegex(said, r"(?m)^confirming \d+;.* placing \d+$")

    def test_a_lie_about_a_fault_is_found_and_made_small(self) -> None:
        lie = self.lying('if [ "$1" = check ]; then "$T" "$@" > out; S=$?; sed "s/^fault [4-9] /fault 3 /" out; exit $S; fi')
        status, said = self.differential("--processes", "--count", "100", "--small", "1", "2", "1", tml=lie)
        self.assertEqual(status, 1, said)
        self.assertRegex(said, "fault 3 (UnknownTag|Unbalanced|Unclosed|Misplaced|TooDeep|RepeatedAttribute) ")
        kept_files = sorted((self.folder / "kept" / "0" / "reduced").glob("file*"))
        drawn = self.folder / "kept" / "0" / kept_files[0].name
        self.assertLessEqual(kept_files[0].stat().st_size, drawn.stat().st_size / 2)
        self.assertEqual(self.differential("--processes", "--reduce", str(self.folder / "kept" / "0"), tml=lie)[0], 1)
        status, said = self.differential("--processes", "--reduce", str(self.folder / "kept" / "0"))
        self.assertEqual((status, said.splitlines()[-1]), (0, NOTHING))

    def test_a_verifier_that_believes_all_is_found(self) -> None:
        lie = self.lying('if [ "$1" = verify ]; then echo verified timeline; exit 0; fi')
        status, said = self.differential("--processes", "--evidence", "--count", "100", "--small", "0", "2", "1", tml=lie)
        self.assertEqual(status, 1, said)
        self.assertIn("verified timeline", said)

    def test_joining_that_is_wrong_is_found(self) -> None:
        for lie in ('join ]; then exec "$T" join "$3" "$2"; fi', 'renew ]; then exec cat "$2"; fi'):
            program = self.lying(f'if [ "$1" = {lie}')
            status, said = self.differential("--processes", "--evidence", "--count", "100", "--small", "0", "2", "1", tml=program)
            self.assertEqual(status, 1, said)
            self.assertIn("difference (joining)", said)

    def test_another_least_timeline_is_found(self) -> None:
        lie = self.lying('if [ "$1" = solve ]; then "$T" "$@" > out; S=$?; sed "s/^at 0 1$/at 0 2/" out; exit $S; fi')
        status, said = self.differential("--processes", "--evidence", "--count", "100", "--small", "0", "2", "1", tml=lie)
        self.assertEqual(status, 1, said)
        self.assertIn("at 0 2", said)

    @needs_matrix
    def test_a_lie_about_what_is_possible_is_found(self) -> None:
        for lie in ("s/ BEGINS / /", "s/ OVERLAPS / BEGINS /"):
            program = self.lying(f'if [ "$1" = matrix ]; then "$T" "$@" > out; S=$?; sed "{lie}" out; exit $S; fi')
            status, said = self.differential("--processes", "--count", "100", "--small", "0", "2", "1", tml=program)
            self.assertEqual(status, 1, said)
            self.assertRegex(said, r"difference \((agreed|right)\)")

    @needs_score
    def test_lies_about_links_are_found(self) -> None:
        for command, lie in (("reduce", "s/^reduced [1-9]/reduced 0/"), ("score", "s/^recall [1-9]/recall 0/")):
            program = self.lying(f'if [ "$1" = {command} ]; then "$T" "$@" > out; S=$?; sed "{lie}" out; exit $S; fi')
            status, said = self.differential("--processes", "--links", "--count", "100", "--small", "0", "2", "1", tml=program)
            self.assertEqual(status, 1, said)
            self.assertRegex(said, r"difference \((scored|reducing)\)")

    @needs_seconds
    def test_lies_about_placings_are_found(self) -> None:
        # By these seeds the first hundred cases have one in which it shows.
        for command, lie, subject, seed in (
            ("seconds", "s/^at \\(.*\\) .*/at \\1 9/", "placing", "1"),
            ("seconds", "s/^least /most /", "placing", "2"),
            ("confirm", "s/^seconds Length/seconds Bound/", "confirming", "1"),
        ):
            program = self.lying(f'if [ "$1" = {command} ]; then "$T" "$@" > out; S=$?; sed "{lie}" out; exit $S; fi')
            status, said = self.differential("--processes", "--placings", "--count", "100", "--small", "0", "2", seed, tml=program)
            self.assertEqual(status, 1, said)
            self.assertIn(f"difference ({subject})", said)

    @unittest.skipUnless(library_path(), "no library")
    def test_some_cases_of_a_library_without_a_difference(self) -> None:
        status, said = self.differential("--library", library_path() or "", "--count", "50", "2", "7")
        self.assertEqual(status, 0, said)
        self.assertRegex(said, r"(?m)^\d\d+ cases, 0 differences, seed 7, \d+ cases a second, \d\d+ of them by the library too$")

    @unittest.skipUnless(shutil.which("cc"), "no cc")
    def test_a_library_that_lies_is_found(self) -> None:
        lie = library_that(self.folder, "return 8;")
        status, said = self.differential("--library", lie, "--count", "100", "--small", "1", "2", "1")
        self.assertEqual(status, 1, said)
        self.assertRegex(said, r"(?m)^difference .*The library answers 8 b''\.$")
        case = self.folder / "kept" / "0"
        self.assertLess((case / "reduced" / "file0").stat().st_size, (case / "file0").stat().st_size)
        self.assertEqual(self.differential("--library", lie, "--reduce", str(case))[0], 1)
        status, said = self.differential("--no-library", "--reduce", str(case))
        self.assertEqual((status, said.splitlines()[-1]), (0, NOTHING))

    @unittest.skipUnless(shutil.which("cc"), "no cc")
    def test_a_library_that_crashes_is_found(self) -> None:
        library = library_that(self.folder, 'if (strcmp((const char *)words, "check") == 0) abort();')
        status, said = self.differential("--library", library, "--count", "100", "--small", "0", "2", "1")
        self.assertEqual(status, 1, said)
        self.assertIn("The process of the library was ended by signal 6.", said)
        self.assertIn("The library answers 9 b''.", said)

    def test_no_library_to_load(self) -> None:
        status, said = self.differential("--library", str(self.folder / "none.so"), "2", "1")
        self.assertEqual(status, 2, said)
        self.assertIn("none.so cannot be loaded", said)

    def test_tables_and_processes_agree(self) -> None:
        if not os.access(rows_path(), os.X_OK):
            self.skipTest(f"no program {rows_path()}")
        random = Random(9)
        cases = [case for case in (draw_case(random) for _ in range(150)) if case.memory is None and is_for_rows(case)]
        with Programs(Path(TML).absolute()) as programs:
            self.assertEqual(Rows(rows_path()).outcomes(cases), programs.outcomes(cases))


if __name__ == "__main__":
    unittest.main()
