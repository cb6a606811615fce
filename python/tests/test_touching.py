"""Dates that touch: which links they are, as `tml` answers it, and how `clashes`, `check`, `timeline` and `tml-edit` treat them."""

import json
import subprocess
import unittest

import ordinary
from corpus import EVENT, INSTANCE, TML, CorpusTest, document, text_at
from test_scripts import ScriptTest, link
from tml.statuses import DOCUMENT_LIMIT, RELATIONS

VALUES = ("1998", "1998-H1", "199", "1998-Q1", "1998-01", "1998-12", "1998-01-01", "1998-01-02", "1998-12-31", "1999-01-01")
SISTERS = {
    "BEFORE": ("IBEFORE",),
    "AFTER": ("IAFTER",),
    "IS_INCLUDED": ("BEGINS", "ENDS", "DURING"),
    "INCLUDES": ("BEGUN_BY", "ENDED_BY", "DURING_INV"),
}
DAYS = (
    '<TIMEX3 tid="a" type="DATE" value="1998-02-26">Thursday</TIMEX3>'
    '<TIMEX3 tid="b" type="DATE" value="1998-02-27">27 February</TIMEX3>\n'
)
YEAR = '<TIMEX3 tid="q" type="DATE" value="1998-Q1">that quarter</TIMEX3><TIMEX3 tid="y" type="DATE" value="1998">the year</TIMEX3>\n'
TOUCHING = link("a", "BEFORE", "b") + "\n" + link("y", "INCLUDES", "q") + "\n"
OUTRIGHT = link("b", "BEFORE", "a") + "\n"


def date(name: str, value: str, kind: str = "DATE") -> str:
    """A TIMEX3."""
    return f'<TIMEX3 tid="{name}" type="{kind}" value="{value}"/>'


class Relations(CorpusTest):
    def fits(self, content: str) -> bool:
        """Whether a timeline fits a document, as `tml` says."""
        status = subprocess.run([TML, "solve", "-"], input=content.encode(), stdout=subprocess.DEVNULL, check=False).returncode
        self.assertIn(status, (0, 2))
        return status == 0

    def test_the_relation_that_holds_is_the_one_that_tml_accepts(self) -> None:
        from tml_corpus.asking.program import Program
        from tml_corpus.clash.touching import touching_changes
        from tml_corpus.document.words import Wording

        program = Program(TML)
        times = "".join(date(f"t{number}", value) for number, value in enumerate(VALUES))
        pairs = [(f"t{left}", f"t{right}") for left in range(len(VALUES)) for right in range(len(VALUES))]
        for relation, sisters in SISTERS.items():
            links = [link(left, relation, right) for left, right in pairs]
            changes = touching_changes(Wording(program, document(times + "".join(links)).encode()))
            found = {pairs[change.link.number]: change.relation for change in changes}
            for left, right in pairs:
                with self.subTest(relation=relation, left=left, right=right):
                    held = [sister for sister in sisters if self.fits(document(times + link(left, sister, right)))]
                    # DURING holds wherever BEGINS or ENDS does; where the relation itself holds nothing is changed.
                    wanted = None if not held or self.fits(document(times + link(left, relation, right))) else held[0]
                    self.assertEqual(found.get((left, right)), wanted)

    def test_other_links_are_not_changed(self) -> None:
        from tml_corpus.clash.touching import touching_relation

        for relation in set(RELATIONS) - set(SISTERS):
            self.assertIsNone(touching_relation(relation, (0, 1), (1, 2)))
            self.assertIsNone(touching_relation(relation, (0, 1), (0, 1)))

    def test_only_dates_that_the_calendar_fixes(self) -> None:
        rows = [
            (date("a", "1998-01-XX"), date("b", "1998-01")),
            (date("a", "1998-01", "SET"), date("b", "1998")),
            (date("a", "1998"), EVENT + INSTANCE),
        ]
        for left, right in rows:
            name = "i1" if right.startswith("<EVENT") else "b"
            target = "relatedToEventInstance" if name == "i1" else "relatedToTime"
            content = document(left + right + f'<TLINK timeID="a" {target}="{name}" relType="IS_INCLUDED"/>')
            self.write("d.xml", content)
            self.assertEqual(
                self.run_it("clashes", "--touching", "d.xml")[1], ["1 file: 0 with a clash, 1 without, 0 with a fault, 0 not judged"]
            )


class Reports(CorpusTest):
    def test_each_link_has_its_cure(self) -> None:
        self.write("d.xml", document(DAYS + YEAR + TOUCHING))
        status, lines, _ = self.run_it("clashes", "d.xml")
        self.assertEqual(status, 1)
        self.assertEqual(
            lines,
            [
                "d.xml:4:1: error: Thursday ends exactly where 27 February begins, and BEFORE asks for a gap: write IBEFORE",
                '    <TLINK timeID="a" relatedToTime="b" relType="BEFORE"/>',
                "    ^" + "~" * 53,
                "d.xml:5:1: error: the year and that quarter begin together, and INCLUDES asks for room at both ends: write BEGUN_BY",
                '    <TLINK timeID="y" relatedToTime="q" relType="INCLUDES"/>',
                "    ^" + "~" * 55,
                "1 file: 0 with a clash, 1 whose only clashes are dates that touch, 0 without, 0 with a fault, 0 not judged",
                "      2  links between dates that touch, in 1 file: --touching reads them so, tml-edit --touching-dates writes them so",
            ],
        )

    def test_read_as_touching(self) -> None:
        self.write("d.xml", document(DAYS + YEAR + TOUCHING))
        for words in (("clashes", "--touching"), ("check", "--clashes", "--touching")):
            with self.subTest(words):
                status, lines, _ = self.run_it(*words, "d.xml")
                said = [
                    "d.xml:4:1: note: read as IBEFORE: Thursday ends exactly where 27 February begins, and BEFORE asks for a gap",
                    "d.xml:5:1: note: read as BEGUN_BY: the year and that quarter begin together, and INCLUDES asks for room at both ends",
                ]
                self.assertEqual((status, lines[:2]), (0, said))
                self.assertEqual(lines[3], "      2  links between dates that touch, in 1 file, read so")
        self.assertEqual(self.run_it("clashes", "--touching", "--quiet", "d.xml"), (0, [], ""))

    def test_what_the_calendar_contradicts_outright_stays(self) -> None:
        self.write("d.xml", document(DAYS + YEAR + TOUCHING + OUTRIGHT))
        for words, touching in (((), " error: Thursday ends"), (("--touching",), " note: read as IBEFORE")):
            with self.subTest(words):
                status, lines, _ = self.run_it("clashes", *words, "d.xml")
                self.assertEqual(
                    (status, lines[0]), (1, "d.xml:6:1: error: clash, 1 of 1: 27 February BEFORE Thursday (link 2: b BEFORE a)")
                )
                self.assertIn("d.xml:4:1:" + touching, "\n".join(lines))
                self.assertIn("1 file: 1 with a clash, 0 without", lines[-2])

    def test_evidence_is_of_the_document_itself(self) -> None:
        self.write("d.xml", document(DAYS + YEAR + TOUCHING + OUTRIGHT))
        self.write("e.xml", document(DAYS + YEAR + TOUCHING))
        for words in (("--touching",), ()):
            _, lines, _ = self.run_it("clashes", *words, "--evidence", "kept", "d.xml", "e.xml")
            kept = [line.split(": evidence in ") for line in lines if ": evidence in " in line]
            self.assertEqual(len(kept), 1 if words else 2)
            for path, evidence in kept:
                judged = subprocess.run([TML, "verify", path, evidence], cwd=self.folder, stdout=subprocess.PIPE, check=False)
                self.assertEqual((judged.returncode, judged.stdout[:15]), (0, b"verified clash "))

    def test_equal_ends_through_an_event(self) -> None:
        month = '<TIMEX3 tid="b" type="DATE" value="1998-02">the month</TIMEX3>'
        first = '<TIMEX3 tid="a" type="DATE" value="1998-02-01">Sunday</TIMEX3>'
        rows = [
            (DAYS, "BEFORE", "no gap between x and 27 February: IBEFORE for BEFORE"),
            (first + month, "IS_INCLUDED", "no room at both ends between x and the month: BEGINS for IS_INCLUDED"),
            (DAYS, "AFTER", None),
        ]
        happened = EVENT + INSTANCE + '<TLINK eventInstanceID="i1" relatedToTime="a" relType="SIMULTANEOUS"/>\n'
        for times, relation, said in rows:
            with self.subTest(relation):
                self.write("d.xml", document(times + happened + f'<TLINK eventInstanceID="i1" relatedToTime="b" relType="{relation}"/>'))
                status, lines, _ = self.run_it("clashes", "d.xml")
                cures = [line.split(": note: ")[1] for line in lines if "would not clash" in line]
                self.assertEqual(cures, [] if said is None else [f"the dates and the other links leave {said} would not clash with them"])
                self.assertEqual((status, lines[-1]), (1, "1 file: 1 with a clash, 0 without, 0 with a fault, 0 not judged"))

    def test_clashes_that_only_meet_at_equal_ends_have_no_such_cure(self) -> None:
        self.write("talks.xml", text_at("samples/talks.xml"))
        _, lines, _ = self.run_it("clashes", "talks.xml")
        self.assertIn("ends at 1998-01-09T00:00:00, and 9 January starts at 1998-01-09T00:00:00", lines[-4])
        self.assertFalse([line for line in lines if "would not clash" in line or "touch" in line])

    def test_forms(self) -> None:
        self.write("d.xml", document(DAYS + YEAR + TOUCHING))
        _, [line], _ = self.run_it("clashes", "--format", "jsonl", "d.xml")
        self.assertEqual(json.loads("\n".join(self.run_it("clashes", "--format", "json", "d.xml")[1])), [json.loads(line)])
        told = json.loads(line)
        self.assertEqual((told["verdict"], [one["holds"] for one in told["touching"]]), ("dates that touch", ["IBEFORE", "BEGUN_BY"]))
        self.assertEqual(
            told["touching"][0]["message"], "Thursday ends exactly where 27 February begins, and BEFORE asks for a gap: write IBEFORE"
        )
        _, [line], _ = self.run_it("clashes", "--format", "jsonl", "--touching", "d.xml")
        self.assertEqual((json.loads(line)["verdict"], json.loads(line)["readTouching"], json.loads(line)["clashes"]), ("fits", True, []))
        _, lines, _ = self.run_it("clashes", "--format", "github", "d.xml")
        self.assertEqual([line.split("::")[1].split(",title=")[1] for line in lines if line.startswith("::")], ["dates that touch"] * 2)

    def test_ordinary_documents(self) -> None:
        # docs/CLASHES.md has the counts of 2,000 of them.
        ordinary.write(self.path("o"), 60)
        counts: dict[str, list[int]] = {}
        for words in ("", "--touching"):
            verdicts = [json.loads(line)["verdict"] for line in self.run_it("clashes", "--format", "jsonl", *words.split(), "o")[1]]
            counts[words] = [verdicts.count(verdict) for verdict in ("clash", "dates that touch", "fits")]
        clash, touch, fit = counts[""]
        self.assertGreater(touch, 10)
        self.assertEqual(counts["--touching"], [clash, 0, touch + fit])


class Pictures(CorpusTest):
    def test_timeline(self) -> None:
        self.write("d.xml", document(DAYS + YEAR + TOUCHING))
        status, lines, _ = self.run_it("timeline", "--touching", "d.xml", "-o", "d.svg")
        self.assertEqual((status, len(lines)), (0, 3))
        self.assertRegex(lines[2], r"^d\.xml: drawn in d\.svg: 4 intervals, 2 links, ")
        self.assertIn("Thursday IBEFORE 27 February (link 0: a IBEFORE b)", self.read_text("d.svg"))
        for words, content in (("", TOUCHING), ("--touching", TOUCHING + OUTRIGHT)):
            with self.subTest(words):
                self.write("d.xml", document(DAYS + YEAR + content))
                status, lines, _ = self.run_it("timeline", *words.split(), "d.xml", "-o", "d.svg")
                self.assertEqual((status, lines[-2]), (1, "d.xml: not drawn: no timeline fits, since these links clash"))
                self.assertIn("would be before itself.", self.read_text("d.svg"))


class Edits(ScriptTest):
    def test_touching_dates(self) -> None:
        hard = "<TLINK\n relatedToTime = 'b' relType\t=\n'BEFORE' timeID='a'><!-- relType='BEFORE' --></TLINK>\n"
        before = document(DAYS + YEAR + hard + TOUCHING + OUTRIGHT)
        after = before.replace("\n'BEFORE'", "\n'IBEFORE'").replace(
            'relType="BEFORE"/>\n<TLINK timeID="y"', 'relType="IBEFORE"/>\n<TLINK timeID="y"'
        )
        after = after.replace('"INCLUDES"', '"BEGUN_BY"')
        self.write("d.xml", before)
        status, out, error = self.run_script("tml-edit", "--touching-dates", "d.xml")
        self.assertEqual((status, out), (0, after))
        self.assertEqual(
            error.splitlines(),
            [
                "d.xml:4:1: BEFORE is now IBEFORE: Thursday ends exactly where 27 February begins, and BEFORE asks for a gap",
                "d.xml:7:1: BEFORE is now IBEFORE: Thursday ends exactly where 27 February begins, and BEFORE asks for a gap",
                "d.xml:8:1: INCLUDES is now BEGUN_BY: the year and that quarter begin together, and INCLUDES asks for room at both ends",
            ],
        )
        self.assertEqual(self.tml("check", "-", given=out.encode())[0], 0)
        # What was written so needs no second writing.
        self.assertEqual(self.run_script("tml-edit", "--touching-dates", "-", given=out.encode()), (0, out, ""))

    def test_a_document_that_would_be_too_long(self) -> None:
        whole = document(DAYS + link("a", "BEFORE", "b"))
        for left in (0, 1):
            self.write("d.xml", whole + " " * (DOCUMENT_LIMIT - left - len(whole)))
            status, out, error = self.run_script("tml-edit", "--touching-dates", "d.xml")
            self.assertEqual((status, len(out)), (0, DOCUMENT_LIMIT) if left else (1, 0))
            self.assertEqual("the file has more than 4,194,304 bytes" in error, not left)

    def test_faults_are_to_be_mended_first(self) -> None:
        self.write("d.xml", document(DAYS + "<EVENT/>"))
        self.assertEqual(self.run_script("tml-edit", "--touching-dates", "d.xml")[0], 1)


if __name__ == "__main__":
    unittest.main()
