"""The checker in one file, `tools/tml_checker.py`: what it says of genuine and of forged evidence, and what strangers cannot do to it."""

import ast
import importlib.util
import io
import itertools
import os
import re
import resource
import shutil
import subprocess
import sys
import tempfile
import time
import unittest
from collections import Counter
from collections.abc import Iterator, Sequence
from functools import lru_cache, partial
from pathlib import Path
from random import Random
from types import ModuleType

from corpus import TML, TOOLS, TOP, needs_seconds
from differential import placings
from differential.cases import Case, Memory
from differential.documents import draw_document
from differential.drawing import Written, draw_placing, draw_text, draw_writing
from differential.faulty import draw_faulty
from differential.hostile import draw_hostile
from differential.mutated import draw_mutated, draw_noise
from differential.tables import Row, Table
from differential.words import DOCUMENT
from forging import forged
from reference import Outcome, expected
from test_tml_verify import FIRST_LINE, TML_VERIFY
from tml.process import Process
from tml.statuses import DOCUMENT_LIMIT, EVIDENCE_LIMIT, TmlStatus

CHECKER = Path(TOOLS, "tml_checker.py")
SAMPLES = Path(TOP, "samples")
MOST_LINES, MOST_MEMORY = 1_200, 200 << 20
ALONE = (sys.executable, "-I", "-S")
"""This interpreter without any package, folder or variable of the machine."""

BATCHES, IN_A_BATCH = 50, 100
"""Of each batch of certificates a fourth is as the program wrote it."""

NOT_ACCEPTED = b"not accepted\n"
EMPTY = b"tml-evidence 1\ntimeline 0\nend\n"


def instances(names: str, *links: str) -> bytes:
    """A document of instances of one event, with links between them such as `a BEFORE b`."""
    made = [f"<MAKEINSTANCE eiid='{name}' eventID='e'/>" for name in names]
    for left, relation, right in map(str.split, links):
        made.append(f"<TLINK eventInstanceID='{left}' relatedToEventInstance='{right}' relType='{relation}'/>")
    return f"<TimeML><EVENT eid='e' class='STATE'/>{''.join(made)}</TimeML>".encode()


def lasting(relation: str) -> bytes:
    """A document of a date, and of a duration of a day that has a relation to it."""
    times = "<TIMEX3 tid='d' type='DATE' value='1998-01-08'/><TIMEX3 tid='p' type='DURATION' value='P1D'/>"
    return f"<TimeML>{times}<TLINK timeID='p' relatedToTime='d' relType='{relation}'/></TimeML>".encode()


def text_of(*lines: str) -> bytes:
    """A text of lines, and its last line."""
    return "".join(f"{line}\n" for line in (*lines, "end")).encode()


CHAIN = instances("abc", "a BEFORE b", "b BEFORE c")
RING = instances("abc", "a BEFORE b", "b BEFORE c", "c IBEFORE a")
DAYS = b"<TimeML><TIMEX3 tid='t1' type='DATE' value='1998-01-08'/><TIMEX3 tid='t2' type='DATE' value='1998-01-09'/></TimeML>"
RING_OF_THREE = ["clash 3", "cite 0", "cite 1", "cite 2", "walk 6", "span 0", "via 0 0", "span 1", "via 1 0", "span 2", "via 2 0"]
THREE = ["timeline 3", "at 0 1", "at 2 3", "at 4 5"]
SPARES = ["timeline 3", "at 4 5", "at 0 1", "at 2 4", "timeline 3", "at 2 3", "at 4 5", "at 0 2", *THREE]
NEXT_TO_EACH_OTHER = ["timeline 2", "at 0 1", "at 1 2"]
RIGHT = {
    "an entailment": (CHAIN, text_of("tml-evidence 1", "entails 0 BEFORE 2", "walk 3", "via 0 0", "span 1", "via 1 0")),
    "a timeline and a counterexample": (
        CHAIN,
        text_of("tml-evidence 2", "claims 2", *THREE, "counter 1 DURING 0", *THREE),
    ),
    "a clash": (RING, text_of("tml-evidence 1", *RING_OF_THREE, *SPARES)),
    "what overlaps": (
        instances("ab", "a OVERLAPS b"),
        text_of("tml-evidence 2", "claims 1", "entails 1 OVERLAPPED_BY 0", "walk 1", "via 0 0", "walk 1", "via 0 1", "walk 1", "via 0 2"),
    ),
    "the calendar": (
        DAYS,
        text_of(
            "tml-evidence 2", "claims 2", *NEXT_TO_EACH_OTHER, "entails 0 IBEFORE 1", "walk 1", "calendar 1 2", "walk 1", "calendar 2 1"
        ),
    ),
    "a placing": (lasting("DURING"), text_of("tml-seconds 1", "placing 2", "at 884217600 884304000", "at 884217600 884304000")),
    "a cycle": (lasting("IS_INCLUDED"), text_of("tml-seconds 1", "cycle 5", "upper 1", "via 0 1", "least 1", "via 0 0", "lower 0")),
}
"""Documents, each with a text that is right of it."""

WRONG = (
    (CHAIN, ("timeline 4294967295",), "line 3"),
    (CHAIN, ("timeline 2", "at 0 1", "at 2 3"), "claim 0 part 1 Size 2"),
    (CHAIN, ("timeline 3", "at 0 1", "at 3 3", "at 4 5"), "claim 0 part 1 Order 1"),
    (CHAIN, ("timeline 3", "at 0 1", "at 1 2", "at 3 4"), "claim 0 part 1 Link 0"),
    (DAYS, ("timeline 2", "at 0 1", "at 0 1"), "claim 0 part 1 Calendar 0 2"),
    (DAYS, ("timeline 2", "at 0 1", "at 2 3"), "claim 0 part 1 Calendar 2 1"),
    (CHAIN, ("entails 0 BEFORE 3", "walk 1", "via 0 0"), "claim 0 part 0 Number 3"),
    (CHAIN, ("entails 4 BEFORE 3", "walk 1", "via 0 0"), "claim 0 part 0 Number 4"),
    (CHAIN, ("entails 0 OVERLAP 1", "walk 0"), "line 2"),
    (CHAIN, ("entails 0 BEFORE 1", "walk 1", "via 0 1"), "claim 0 part 1 Step 0"),
    (CHAIN, ("entails 0 BEFORE 1", "walk 1", "via 2 0"), "claim 0 part 1 Step 0"),
    (CHAIN, ("entails 0 BEFORE 1", "walk 1", "calendar 1 2"), "claim 0 part 1 Step 0"),
    (CHAIN, ("entails 0 BEFORE 2", "walk 2", "via 0 0", "via 1 0"), "claim 0 part 1 Step 1"),
    (CHAIN, ("entails 0 BEFORE 1", "walk 0"), "claim 0 part 1 End"),
    (CHAIN, ("entails 0 BEFORE 1", "walk 1", "via 00 0"), "line 4"),
    (CHAIN, ("entails 0 BEFORE 1", "walk 2", "via 0 0"), "line 5"),
    (CHAIN, ("entails 0 BEFORE 1", "walk 1", "via 0 0", "end", "x"), "line 6"),
    (instances("ab", "a IBEFORE b"), ("entails 0 BEFORE 1", "walk 1", "via 0 0"), "claim 0 part 1 Weak"),
    (CHAIN, ("counter 0 BEFORE 1", "timeline 3", "at 0 1", "at 2 3", "at 4 5"), "claim 0 part 2 Holds"),
    (CHAIN, ("clash 0", "walk 0"), "claim 0 part 1 Weak"),
    (CHAIN, ("clash 1", "cite 2", "walk 0", "timeline 0"), "claim 0 part 0 Number 2"),
    (CHAIN, ("clash 2", "cite 4294967295"), "line 3"),
    (CHAIN, ("clash 2", "cite 1", "cite 1"), "line 4"),
    (CHAIN, ("clash 1", "cite 0", "walk 1", "span 0", "timeline 0"), "claim 0 part 1 End"),
    (instances("ab", "a IBEFORE b"), ("clash 1", "cite 0", "walk 2", "via 0 0", "via 0 1", "timeline 0"), "claim 0 part 1 Weak"),
    (RING, ("clash 1", "cite 0", *RING_OF_THREE[4:], "timeline 0"), "claim 0 part 1 Cited 1"),
    (RING, (*RING_OF_THREE, *SPARES[4:8], *SPARES[:4], *SPARES[8:]), "claim 0 part 2 Link 1"),
)
"""Documents, the lines of a text of version 1 between its first and its last one, and how it is refused."""

DURING, IS_INCLUDED = lasting("DURING"), lasting("IS_INCLUDED")
WRONG_SECONDS = (
    (DURING, ("placing 1", "at 0 1"), "seconds Size 1"),
    (DURING, ("placing 2", "at 884217600 884304000", "at 884217600 884217600"), "seconds Order 1"),
    (DURING, ("placing 2", "at 884217600 884304000", "at 884217599 884303999"), "seconds Link 0"),
    (DURING, ("placing 2", "at 884217601 884304001", "at 884217601 884304001"), "seconds Bound 0"),
    (DURING, ("placing 2", "at 884217600 884304000", "at 884217600 884303999"), "seconds Length 1"),
    (DURING, ("placing 1", "at -0 1"), "evidence line 3"),
    (DURING, ("placing 1", "at 9223372036854775808 0"), "evidence line 3"),
    (DURING, ("cycle 0",), "seconds Sum"),
    (DURING, ("cycle 1", "span 0"), "seconds End"),
    (DURING, ("cycle 2", "span 0", "span 0"), "seconds Step 1"),
    (DURING, ("cycle 1", "most 0"), "seconds Step 0"),
    (IS_INCLUDED, ("cycle 2", "most 1", "least 1"), "seconds Sum"),
)
"""The same of texts of seconds."""


def load() -> ModuleType:
    """The checker as a module."""
    spec = importlib.util.spec_from_file_location("tml_checker", CHECKER)
    assert spec is not None and spec.loader is not None
    module = importlib.util.module_from_spec(spec)
    spec.loader.exec_module(module)
    return module


checker = load()


@lru_cache(64)
def net_of(document: bytes) -> object:
    """The net of a document, or None if the checker does not accept it."""
    try:
        return checker.Net(checker.document_of(document))
    except checker.NotAccepted:
        return None


def checked(document: bytes, text: bytes) -> tuple[int, bytes]:
    """The status and the bytes that the checker prints about a document and the text of another file."""
    net = net_of(document)
    if net is None:
        return TmlStatus.DOC_FAULT, NOT_ACCEPTED
    status, lines = checker.reply_of_stream(net, io.BytesIO(text))
    return status, "".join(f"{line}\n" for line in lines).encode()


def command_of(text: bytes) -> str:
    """The command of `tml` that checks a text."""
    return "confirm" if text.startswith(FIRST_LINE) else "verify"


def without_faults(status: int, printed: bytes) -> tuple[int, bytes]:
    """The same as the checker is to answer, which does not say which fault a document has."""
    return status, NOT_ACCEPTED if status == TmlStatus.DOC_FAULT else printed


def of_reference(document: bytes, text: bytes) -> tuple[int, bytes]:
    """What the reference says that the checker is to answer."""
    outcome = expected([command_of(text).encode(), b"d", b"e"], {b"d": document, b"e": text})
    assert isinstance(outcome, Outcome)
    return without_faults(outcome.status, outcome.text)


def reason_in(printed: bytes) -> str:
    """The word of the reason in a line of a refusal, with `seconds` before it for a placing or a cycle; another line as it is."""
    return re.sub(r"evidence claim \d+ part \d+ |(?<=[a-z])[ \d]+$", "", printed.decode().removesuffix("\n"))


REASONS = {reason_in(f"evidence {printed}".encode()) for _, _, printed in WRONG}
REASONS |= {reason_in(printed.encode()) for _, _, printed in WRONG_SECONDS}


class TheFile(unittest.TestCase):
    """What makes it a file that anybody can read and run."""

    def setUp(self) -> None:
        self.tree = ast.parse(CHECKER.read_bytes(), feature_version=(3, 9))

    def test_it_can_be_read_in_an_afternoon(self) -> None:
        self.assertLessEqual(len(CHECKER.read_text(encoding="utf-8").splitlines()), MOST_LINES)
        commented = [node for node in ast.walk(self.tree) if isinstance(node, (ast.FunctionDef, ast.ClassDef))]
        self.assertEqual([node.name for node in commented if not ast.get_docstring(node)], [])

    def test_it_imports_only_the_standard_library(self) -> None:
        imported = [node.module or "" for node in ast.walk(self.tree) if isinstance(node, ast.ImportFrom)]
        imported += [alias.name for node in ast.walk(self.tree) if isinstance(node, ast.Import) for alias in node.names]
        self.assertGreater(len(imported), 5)
        self.assertLessEqual({name.split(".")[0] for name in imported}, sys.stdlib_module_names)


class ByTheReference(unittest.TestCase):
    """Texts that are forged one change at a time, and documents that are wrong, by the reference."""

    def assert_alike(self, document: bytes, text: bytes) -> bytes:
        """The checker says what the reference says: the bytes that it prints."""
        wanted = of_reference(document, text)
        self.assertEqual(checked(document, text), wanted, (document, text))
        return wanted[1]

    def test_what_is_right_is_confirmed(self) -> None:
        for kind, (document, text) in RIGHT.items():
            with self.subTest(kind):
                self.assert_alike(document, text)
                self.assertEqual(checked(document, text)[0], TmlStatus.DONE)

    def test_what_is_wrong_is_refused_for_its_reason(self) -> None:
        for document, lines, refused in WRONG:
            self.assertEqual(self.assert_alike(document, text_of("tml-evidence 1", *lines)), f"evidence {refused}\n".encode())
            bundle = text_of("tml-evidence 2", "claims 1", *lines)
            self.assertIn(refused.rpartition("line ")[0], self.assert_alike(document, bundle).decode())
        for document, lines, refused in WRONG_SECONDS:
            self.assertEqual(self.assert_alike(document, text_of("tml-seconds 1", *lines)), f"{refused}\n".encode())

    def test_each_forgery_is_refused_for_the_same_reason(self) -> None:
        reasons, others = set(), [text for _, text in RIGHT.values()]
        for document, text in RIGHT.values():
            reasons |= {reason_in(self.assert_alike(document, wrong)) for wrong in {*forged(text, others)}}
        self.assertGreaterEqual(len(reasons & REASONS), 12, reasons)

    def test_a_text_of_another_document(self) -> None:
        for document, (_, text) in itertools.product([document for document, _ in RIGHT.values()], RIGHT.values()):
            self.assert_alike(document, text)

    def test_documents_that_are_drawn_and_damaged(self) -> None:
        draw, statuses = Random(3), set()
        for _ in range(400):
            right = draw_document(draw, draw.randrange(4))
            for document in (right, draw_faulty(draw, right), draw_mutated(draw, right), draw_hostile(draw), draw_noise(draw)):
                self.assert_alike(document, EMPTY)
                statuses.add(checked(document, EMPTY)[0])
        self.assertEqual(statuses, {TmlStatus.DONE, TmlStatus.DOC_FAULT, TmlStatus.EVIDENCE_FAULT})


class ByHand(unittest.TestCase):
    """The verdicts in the table of `command_rows`, which were written by hand, as far as their files need no program and are short."""

    def rows(self) -> Iterator[tuple[Row, list[bytes]]]:
        """The rows that succeed or refuse without a failing device, each with what the files hold that it reads."""
        table = Table(Path(TOP, "crates", "command_rows", "stdin").read_bytes())
        printed: set[bytes] = set()
        for row in table.rows():
            names = row.case.readings()
            if row.kept_as is not None:
                table.keep(row.kept_as, b"")
                printed.add(row.kept_as)
            elif row.case.memory == Memory() and printed.isdisjoint(names) and all(name in row.case.files for name in names):
                contents = [row.case.files[name] for name in names]
                if len(set(names)) == len(names) and all(len(content) <= DOCUMENT_LIMIT for content in contents):
                    yield row, contents

    def test_verdicts_on_evidence_and_documents(self) -> None:
        tried: Counter[bytes] = Counter()
        for row, contents in self.rows():
            command = b"".join(row.case.words[:1])
            wanted = without_faults(row.wanted.status, row.wanted.text)
            if command == b"check" and contents:
                self.assertEqual(net_of(*contents) is None, wanted[1] == NOT_ACCEPTED, row.line)
            elif len(contents) == 2 and command.decode() == command_of(contents[1]):
                self.assertEqual(checked(*contents), wanted, row.line)
            else:
                continue
            tried[command] += 1
        self.assertTrue(all(tried[command] > 200 for command in (b"check", b"verify", b"confirm")), tried)


def written_by(program: Process, cases: Sequence[Case]) -> list[Written]:
    """The documents of some cases, each with the evidence or the seconds that the program prints."""
    written = []
    for case in cases:
        command, _, *arguments = (word.decode() for word in case.words)
        status, text = program.answer(command, [case.files[DOCUMENT]], arguments)
        if status in (TmlStatus.DONE, TmlStatus.CLASH):
            written.append(Written(case.files[DOCUMENT], text))
    return written


def certificates(draw: Random, program: Process) -> Iterator[Written]:
    """A batch of certificates: documents with what the program wrote about them, and then with what is mostly forged."""
    claims = written_by(program, [draw_writing(draw) for _ in range(IN_A_BATCH // 8)])
    seconds = written_by(program, [draw_placing(draw) for _ in range(IN_A_BATCH // 8)])
    yield from claims + seconds
    for _ in range(IN_A_BATCH - len(claims) - len(seconds)):
        of_seconds = seconds and draw.random() < 0.3
        one = draw.choice(seconds if of_seconds else claims)
        text = placings.draw_damaged(draw, one.text) if of_seconds else draw_text(draw, one, claims)
        yield Written(one.document if draw.random() < 0.95 else draw.choice(claims + seconds).document, text)


@unittest.skipUnless(os.access(TML_VERIFY, os.X_OK), f"no program {TML_VERIFY}")
@needs_seconds
class ByTheProgram(unittest.TestCase):
    """Certificates that `tml` wrote about drawn documents, as they are and forged: what `tml-verify` says of each of them."""

    def setUp(self) -> None:
        held = tempfile.TemporaryDirectory(prefix="certificates-")
        self.addCleanup(held.cleanup)
        self.folder = Path(held.name)
        self.program = Process(TML)

    def run_over(self, one: Written, *command: str) -> tuple[int, bytes]:
        """What a command prints about a document and a certificate, without the fault of a document."""
        for name, content in (("d.xml", one.document), ("evidence", one.text)):
            Path(self.folder, name).write_bytes(content)
        done = subprocess.run([*command, "d.xml", "evidence"], cwd=self.folder, capture_output=True, check=False, timeout=60)
        self.assertEqual(done.stderr, b"")
        return without_faults(done.returncode, done.stdout)

    def test_five_thousand_certificates(self) -> None:
        draw, confirmed, reasons = Random(1), 0, set()
        for _ in range(BATCHES):
            for one in certificates(draw, self.program):
                wanted = self.run_over(one, TML_VERIFY)
                self.assertEqual(checked(one.document, one.text), wanted, one)
                confirmed += wanted[0] == TmlStatus.DONE
                reasons.add(reason_in(wanted[1]))
        self.assertGreater(confirmed, BATCHES * IN_A_BATCH // 5)
        self.assertLess(confirmed, BATCHES * IN_A_BATCH // 2)
        self.assertGreaterEqual(len(reasons & REASONS), len(REASONS) - 2, reasons)

    def test_a_hundred_by_the_file_as_a_command(self) -> None:
        for one in certificates(Random(2), self.program):
            self.assertEqual(self.run_over(one, *ALONE, str(CHECKER)), self.run_over(one, TML_VERIFY), one)


class Strangers(unittest.TestCase):
    """The file as a command in an empty folder, over what strangers may hand to it."""

    def setUp(self) -> None:
        held = tempfile.TemporaryDirectory(prefix="tml-checker-")
        self.addCleanup(held.cleanup)
        self.folder = Path(held.name)
        shutil.copy(CHECKER, self.folder)
        for name in ("rates.xml", "rates.evidence"):
            shutil.copy(SAMPLES / name, self.folder)

    def written(self, name: str, *parts: bytes) -> str:
        """A file of the folder that holds these parts."""
        with open(self.folder / name, "wb") as file:
            file.writelines(parts)
        return name

    def run_alone(self, *arguments: str, given: bytes = b"", shell: str = '"$@"') -> tuple[int, bytes]:
        """The status and the output of the command in a process that may have 200 MiB of memory in all."""
        done = subprocess.run(
            ["sh", "-c", shell, "sh", *ALONE, "tml_checker.py", *arguments],
            cwd=self.folder,
            input=given,
            capture_output=True,
            check=False,
            timeout=300,
            preexec_fn=partial(resource.setrlimit, resource.RLIMIT_AS, (MOST_MEMORY, MOST_MEMORY)),
        )
        self.assertEqual(done.stderr, b"")
        return done.returncode, done.stdout

    def test_it_runs_alone_and_from_anywhere(self) -> None:
        verified = b"verified timeline\nverified entails ei1 BEFORE t0\nverified counter ei1 AFTER t1\n"
        self.assertEqual(self.run_alone("rates.xml", "rates.evidence"), (TmlStatus.DONE, verified))
        given = Path(self.folder, "rates.evidence").read_bytes()
        self.assertEqual(self.run_alone("rates.xml", "-", given=given), (TmlStatus.DONE, verified))
        self.assertEqual(self.run_alone("-", "-", given=given), (TmlStatus.DOC_FAULT, NOT_ACCEPTED))
        self.assertEqual(self.run_alone("rates.xml", "rates.evidence", shell='"$@" > /dev/full')[0], TmlStatus.WRITE_FAULT)
        self.assertEqual(self.run_alone("rates.xml", "rates.evidence", shell='"$@" >&-')[0], TmlStatus.WRITE_FAULT)

    def test_arguments_and_files_of_no_use(self) -> None:
        read_fault = (TmlStatus.READ_FAULT, b"read fault\n")
        for arguments in (("missing", "rates.evidence"), ("rates.xml", "missing"), (".", "-"), ("rates.xml", "."), ("", "-")):
            self.assertEqual(self.run_alone(*arguments), read_fault)
        self.assertEqual(self.run_alone("rates.xml", "-", shell='"$@" <&-'), read_fault)
        self.assertEqual(self.run_alone("rates.evidence", "missing"), (TmlStatus.DOC_FAULT, NOT_ACCEPTED))
        for words in ((), ("rates.xml",), ("rates.xml", "rates.evidence", "")):
            status, printed = self.run_alone(*words)
            self.assertEqual((status, printed.splitlines()[0]), (TmlStatus.USAGE, b"usage:"))

    def test_sixty_four_mebibytes_are_checked_within_two_hundred(self) -> None:
        self.written("d.xml", b"<TimeML>", *(b"<TIMEX3 tid='t%d' type='SET'/>" % number for number in range(1024)), b"</TimeML>")
        timeline = b"timeline 1024\n" + b"".join(b"at 42949%05d 42949%05d\n" % (2 * rank, 2 * rank + 1) for rank in range(1024))
        claims = EVIDENCE_LIMIT // len(timeline) - 1
        text = (b"tml-evidence 2\nclaims %d\n" % claims, *itertools.repeat(timeline, claims), b"end\n")
        self.assertGreater(sum(map(len, text)), EVIDENCE_LIMIT - 2 * len(timeline))
        self.assertEqual(self.run_alone("d.xml", self.written("e", *text)), (TmlStatus.DONE, b"verified timeline\n" * claims))

    def test_files_that_are_as_long_as_they_may_be_or_longer(self) -> None:
        for name, limit, fault in (("d.xml", DOCUMENT_LIMIT, (1, NOT_ACCEPTED)), ("e", EVIDENCE_LIMIT, (7, b"evidence line 2\n"))):
            self.written("d.xml", CHAIN)
            self.written(name, b"tml-evidence 1\n")
            os.truncate(self.folder / name, limit)
            self.assertEqual(self.run_alone("d.xml", "e"), fault)
            os.truncate(self.folder / name, limit + 1)
            called = b"DOC" if name == "d.xml" else b"EVIDENCE"
            self.assertEqual(self.run_alone("d.xml", "e"), (TmlStatus.TOO_LONG, b"too long %s\n" % called))

    def test_numbers_of_a_million_digits_and_tags_of_as_many_attributes(self) -> None:
        digits = b"9" * 1_000_000
        refused = (TmlStatus.EVIDENCE_FAULT, b"evidence line 2\n")
        for text in (b"tml-evidence 1\ntimeline %s\nend\n", b"tml-evidence 2\nclaims %s\n", b"tml-seconds 1\nplacing %s\n"):
            self.assertEqual(self.run_alone(self.written("d.xml", CHAIN), self.written("e", text % digits)), refused)
        one_time = b"<TimeML><TIMEX3 tid='t' type='DURATION' value='P%sD'/></TimeML>"
        self.assertEqual(self.run_alone(self.written("d.xml", one_time % digits), "rates.evidence")[0], TmlStatus.EVIDENCE_FAULT)
        names = b"".join(b" a%x=''" % number for number in range(350_000))
        tags = b"<p>" * 1_300_000
        for document, status in ((b"<TimeML%s/>" % names, TmlStatus.DONE), (b"<TimeML%s" % names, 1), (b"<TimeML>" + tags, 1)):
            self.assertEqual(self.run_alone(self.written("d.xml", document), self.written("e", EMPTY))[0], status)

    def test_links_that_say_the_same_cost_nothing_with_each_claim(self) -> None:
        text = b"tml-evidence 2\nclaims 2000\n" + b"timeline 2\nat 0 1\nat 2 3\n" * 2000 + b"end\n"
        took = []
        for links in (1, 4096):
            net = net_of(instances("ab", *["a BEFORE b"] * links))
            began = time.process_time()
            self.assertEqual(checker.reply_of_stream(net, io.BytesIO(text))[0], TmlStatus.DONE)
            took.append(time.process_time() - began)
        self.assertLess(took[1], 20 * took[0])


if __name__ == "__main__":
    unittest.main()
