"""The program `tml-verify`: which crates stand below it, and that it answers what `tml verify` and `tml confirm` answer."""

import os
import subprocess
import tempfile
import unittest
from collections.abc import Iterator
from pathlib import Path

from building.crates import libraries_below, listed
from corpus import TML, TOP, needs_seconds, text_at
from tml.statuses import DOCUMENT_LIMIT, EVIDENCE_LIMIT, TmlStatus

TML_VERIFY = os.path.abspath(os.environ.get("TML_VERIFY") or os.path.join(TOP, "crates", "tml_verify", "out", "tml_verify"))
SAMPLES = Path(TOP, "samples")

MAY_BE_BELOW = (
    "answers evidence_answers evidence_check evidence_format faults line_texts lists named net_build net_core runs seconds_build"
    " seconds_check seconds_core seconds_format timex_dates timex_value tml_accept tml_io tml_refs tml_span tml_tree tml_types"
).split()
"""The crates that the checker may use. None searches for a timeline, a walk, a clash or a placing, not even in proofs."""

OF_THE_KIT = "itoa jiff jiff_core memchr simdutf8".split()
"""The crates of the kit that these use, which docs/CHECKER.md names among what is believed."""

FIRST_LINE = b"tml-seconds 1\n"
USAGE = b"usage:\ntml-verify DOC EVIDENCE\ntml-verify DOC SECONDS\n"

CLASHING = b"""<TimeML><EVENT eid="e1" class="STATE">x</EVENT>
<MAKEINSTANCE eiid="a" eventID="e1"/><MAKEINSTANCE eiid="b" eventID="e1"/>
<TLINK eventInstanceID="a" relatedToEventInstance="b" relType="BEFORE"/>
<TLINK eventInstanceID="b" relatedToEventInstance="a" relType="BEFORE"/></TimeML>
"""
FAULTY = {
    "no document": b"",
    "an open tag": b"<TimeML>",
    "a wrong class": b'<TimeML><EVENT eid="e1" class="NO">x</EVENT></TimeML>',
    "a name of nothing": b'<TimeML><MAKEINSTANCE eiid="a" eventID="e1"/></TimeML>',
    "bytes that are no text": b"<TimeML>\xff</TimeML>",
}


class Below(unittest.TestCase):
    """What the program stands on, by crates.txt."""

    def below(self, uses: dict[str, list[str]]) -> tuple[list[str], list[str]]:
        """The crates of this repository below the program, and those of the kit that it and they use."""
        ours = libraries_below("tml_verify", uses)
        return sorted(ours), sorted({used for crate in ("tml_verify", *ours) for used in uses[crate]} - set(uses))

    def test_no_crate_is_below_but_those_that_are_named(self) -> None:
        self.assertEqual(self.below(dict(listed())), (MAY_BE_BELOW, OF_THE_KIT), "see that a new one searches for nothing, and name it")

    def test_one_that_is_not_named_is_found(self) -> None:
        for crate, new in (("evidence_check", "clash"), ("tml_span", "a_new_one"), ("tml_verify", "anyhow")):
            uses: dict[str, list[str]] = {"a_new_one": [], **dict(listed())}
            uses[crate] = [*uses[crate], new]
            self.assertNotEqual(self.below(uses), (MAY_BE_BELOW, OF_THE_KIT))

    def test_the_page_for_those_who_trust_the_checker_names_them(self) -> None:
        page = " ".join(text_at("docs/CHECKER.md").split())
        uses = dict(listed())
        counts = f"`tml-verify` uses {len(MAY_BE_BELOW)} crates of this repository, and `tml` {len(libraries_below('tml', uses))}."
        *others, last = (f"`{name}`" for name in OF_THE_KIT)
        self.assertIn(counts, page)
        self.assertIn(f"names those that the program uses, {', '.join(others)} and {last}", page)


def damaged(text: bytes) -> Iterator[bytes]:
    """A text without each of its lines in turn, with each of its lines twice, cut short, and with other bytes."""
    lines = text.splitlines(keepends=True)
    for at, line in enumerate(lines):
        yield b"".join(lines[:at] + lines[at + 1 :])
        yield b"".join(lines[:at] + [line, line] + lines[at + 1 :])
        yield b"".join(lines[:at] + [line.replace(b"1", b"3").replace(b"0", b"1")] + lines[at + 1 :])
        yield b"".join(lines[:at] + [line[:-1]])
    yield text + b"end\n"
    yield text.replace(b"\n", b"\r\n")
    yield text.replace(b" ", b"  ")


FIRST_LINES = [FIRST_LINE, FIRST_LINE[:-1], b"tml-seconds 2\n", b"tml-seconds 1\r\n", b"tml-seconds 1 \n", b" tml-seconds 1\n", b"", b"\n"]


@unittest.skipUnless(
    os.access(TML_VERIFY, os.X_OK), f"no program {TML_VERIFY}: build it as README.md says, or name one by TML_VERIFY=PROGRAM"
)
@needs_seconds
class Beside(unittest.TestCase):
    """The program beside `tml`, over the same files."""

    def setUp(self) -> None:
        held = tempfile.TemporaryDirectory(prefix="tml-verify-")
        self.addCleanup(held.cleanup)
        self.folder = Path(held.name)

    def run_program(self, program: str, *words: str | bytes, given: bytes = b"") -> tuple[int, bytes]:
        """The status and the bytes that a program answers to these words."""
        done = subprocess.run([program, *words], cwd=self.folder, input=given, capture_output=True, check=False, timeout=60)
        self.assertEqual(done.stderr, b"")
        return done.returncode, done.stdout

    def written(self, name: str, content: bytes) -> str:
        """A file of the folder with this content."""
        Path(self.folder, name).write_bytes(content)
        return name

    def assert_alike(self, doc: str, other: str, given: bytes = b"") -> tuple[int, bytes]:
        """Both programs answer the same of these files, or of what is given for the name `-`."""
        path = self.folder / other
        content = given if other == "-" else path.read_bytes() if path.is_file() else b""
        command = "confirm" if content.startswith(FIRST_LINE) else "verify"
        wanted = self.run_program(TML, command, doc, other, given=given)
        self.assertEqual(self.run_program(TML_VERIFY, doc, other, given=given), wanted, (doc, content[:200]))
        return wanted

    def texts_of(self, doc: str) -> tuple[bytes, bytes, bytes]:
        """The evidence and the seconds that `tml` prints of a document, in both versions of evidence."""
        version_2 = self.run_program(TML, "solve", doc)[1]
        one_claim = version_2.splitlines(keepends=True)
        version_1 = b"".join([b"tml-evidence 1\n", *one_claim[2:]])
        return version_2, version_1, self.run_program(TML, "seconds", doc)[1]

    def documents(self) -> list[str]:
        """A document that can be true and one that cannot."""
        return [self.written("rates.xml", (SAMPLES / "rates.xml").read_bytes()), self.written("clashing.xml", CLASHING)]

    def test_what_is_printed_and_what_is_damaged(self) -> None:
        for doc in self.documents():
            for text in self.texts_of(doc):
                with self.subTest(doc=doc, text=text[:40]):
                    self.assertEqual(self.assert_alike(doc, self.written("given", text))[0], 0)
                    for wrong in damaged(text):
                        self.assert_alike(doc, self.written("given", wrong))

    def test_the_samples_of_evidence(self) -> None:
        doc = self.documents()[0]
        for name in ("rates.evidence", "rates.timeline"):
            self.assertEqual(self.assert_alike(doc, self.written(name, (SAMPLES / name).read_bytes()))[0], 0)

    def test_the_first_line_decides(self) -> None:
        doc, rest = self.documents()[0], b"placing 0\nend\n"
        for line in FIRST_LINES:
            for text in (line, line + rest, rest + line):
                self.assert_alike(doc, self.written("given", text))

    def test_evidence_of_another_document(self) -> None:
        true, clashing = self.documents()
        for doc, other in ((true, clashing), (clashing, true)):
            for text in self.texts_of(other):
                self.assertEqual(self.assert_alike(doc, self.written("given", text))[0], 7)

    def test_faulty_documents_and_missing_files(self) -> None:
        given = self.written("given", FIRST_LINE)
        for content in FAULTY.values():
            faulty = self.written("faulty", content)
            for other in (given, "missing"):
                self.assert_alike(faulty, other)
        for doc, other in (("missing", given), (self.documents()[0], "missing"), ("missing", "missing"), (".", given)):
            self.assert_alike(doc, other)

    def test_standard_input(self) -> None:
        doc = self.documents()[0]
        for text in self.texts_of(doc):
            self.assert_alike(doc, "-", text)

    def test_files_that_are_too_long(self) -> None:
        doc, long = self.documents()[0], self.written("long", b"<")
        os.truncate(self.folder / long, DOCUMENT_LIMIT + 1)
        self.assertEqual(self.assert_alike(long, "missing"), (TmlStatus.TOO_LONG, b"too long DOC\n"))
        # Of a file that is too long the first line is not judged.
        for line in (FIRST_LINE, b"tml-evidence 2\n"):
            os.truncate(self.folder / self.written("long", line), EVIDENCE_LIMIT + 1)
            self.assertEqual(self.run_program(TML_VERIFY, doc, "long"), (TmlStatus.TOO_LONG, b"too long EVIDENCE\n"))

    def test_words_of_no_form(self) -> None:
        doc = self.documents()[0]
        rows: tuple[tuple[str | bytes, ...], ...] = (
            (), (doc,), ("",), ("verify", doc, doc), ("--help",), (b"\xff",), (doc, b"\xff"), (doc, doc, ""),
        )  # fmt: skip
        for words in rows:
            self.assertEqual(self.run_program(TML_VERIFY, *words), (TmlStatus.USAGE, USAGE))


if __name__ == "__main__":
    unittest.main()
