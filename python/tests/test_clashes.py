"""`tml-corpus clashes`: the words of the samples, and the evidence."""

import glob
import os
import subprocess
import unittest

from corpus import EVENT, TML, CorpusTest, document, text_at


class Clashes(CorpusTest):
    def sample(self, name: str) -> None:
        self.write(name, text_at("samples", name))

    def test_samples_in_words(self) -> None:
        rows: dict[str, list[str]] = {
            "talks.xml": [
                "7:1: error: clash, 1 of 3: ended IS_INCLUDED 9 January (l1: ei1 IS_INCLUDED t1)",
                "8:1: error: clash, 2 of 3: left AFTER ended (l2: ei2 AFTER ei1)",
                "9:1: error: clash, 3 of 3: left IS_INCLUDED the eighth (l3: ei2 IS_INCLUDED t2)",
                "4:109: note: by the calendar the eighth ends at 1998-01-09T00:00:00, and 9 January starts at 1998-01-09T00:00:00",
                '3:92: note: the date of 9 January (t1) is value="1998-01-09": correct a date, or leave out or mend a link',
                '4:138: note: the date of the eighth (t2) is value="1998-01-08": correct a date, or leave out or mend a link',
            ],
            "plant.xml": [
                "8:1: error: clash, 1 of 3: closed BEFORE rose (l1: ei2 BEFORE ei1)",
                "9:1: error: clash, 2 of 3: warned BEFORE closed (l2: ei3 BEFORE ei2)",
                "10:1: error: clash, 3 of 3: rose BEFORE warned (l3: ei1 BEFORE ei3)",
            ],
            "cut.xml": [
                "7:1: error: clash, 1 of 2: cut IS_INCLUDED meeting (l1: ei1 IS_INCLUDED ei2)",
                "8:1: error: clash, 2 of 2: meeting IBEFORE cut (l2: ei2 IBEFORE ei1)",
            ],
            "rates.xml": [],
        }
        for name, printed in rows.items():
            with self.subTest(name):
                self.sample(name)
                status, lines, _ = self.run_it("clashes", name)
                links = [line for line in lines[:-1] if not line.startswith("    ")]
                self.assertEqual(links, [f"{name}:{line}" for line in printed])
                self.assertEqual(len(lines) - 1 - len(links), 2 * len([line for line in printed if " error: " in line]))
                self.assertEqual(status, 1 if printed else 0)
                # Each place is that of the mark below it.
                marks = [(line, mark) for first, line, mark in zip(lines, lines[1:], lines[2:], strict=False) if " error: " in first]
                self.assertEqual(
                    [(line[4:10], mark) for line, mark in marks], [("<TLINK", "    ^" + "~" * (len(line) - 5)) for line, _ in marks]
                )

    def test_a_link_has_its_number_beside_evidence(self) -> None:
        self.sample("cut.xml")
        _, lines, _ = self.run_it("clashes", "--evidence", "kept", "cut.xml")
        self.assertTrue(lines[0].endswith("cut IS_INCLUDED meeting (l1, link 0: ei1 IS_INCLUDED ei2)"), lines[0])

    def test_texts_of_many_kinds(self) -> None:
        times = '<TIMEX3 tid="a" type="DATE" value="199X">\n the <!-- x -->\n1990s&amp; </TIMEX3>'
        times += '<TIMEX3 tid="b" type="DATE" value="1980-Q1"/>'
        self.write("d.xml", document(times + '<TLINK timeID="a" relatedToTime="b" relType="BEFORE"/>'))
        _, lines, _ = self.run_it("clashes", "d.xml")
        self.assertTrue(lines[0].endswith(": the 1990s& BEFORE 1980-Q1 (link 0: a BEFORE b)"), lines[0])
        said = "by the calendar 1980-Q1 ends at 1980-04-01T00:00:00, and the 1990s& starts no earlier than 1990-01-01T00:00:00"
        self.assertTrue(lines[3].endswith(said), lines[3])

    def test_evidence_is_kept_and_verified(self) -> None:
        for name in ("talks.xml", "plant.xml", "rates.xml"):
            self.sample(name)
        self.sample("cut.xml")
        os.mkdir(self.path("sub"))
        os.rename(self.path("cut.xml"), self.path("sub/talks.xml"))
        status, lines, _ = self.run_it("clashes", "--evidence", "kept/here", ".")
        kept = [line.split(": evidence in ") for line in lines if ": evidence in " in line]
        self.assertEqual((status, [path for path, _ in kept]), (1, ["./plant.xml", "./talks.xml", "./sub/talks.xml"]))
        for path, evidence in kept:
            judged = subprocess.run([TML, "verify", path, evidence], cwd=self.folder, stdout=subprocess.PIPE, check=False)
            self.assertEqual((judged.returncode, judged.stdout[:15]), (0, b"verified clash "))
        self.assertEqual(len(glob.glob(self.path("kept/here/*"))), 3)
        self.assertEqual(lines[-1], "4 files: 3 with a clash, 1 without, 0 with a fault, 0 not judged")

    def test_evidence_that_is_refused_is_not_reported(self) -> None:
        self.sample("plant.xml")
        fake = self.fake(f'if [ $1 = solve ]; then {TML} "$@" | sed "s/^span 1$/span 2/"; exit 2; fi\nexec {TML} "$@"')
        status, lines, _ = self.run_it("clashes", "plant.xml", tml=fake)
        self.assertEqual(status, 2)
        self.assertEqual(lines[0], "plant.xml: not judged: tml verify refused the evidence of tml solve: evidence claim 0 part 1 Step 4")

    def test_faults_and_files_that_are_not_there(self) -> None:
        self.write("a.xml", document(EVENT + "<EVENT/>"))
        status, lines, _ = self.run_it("clashes", "a.xml", "b.xml")
        self.assertEqual(status, 2)
        self.assertTrue(lines[0].startswith("a.xml:2:40: error: 10 MissingAttribute: "), lines[0])
        self.assertEqual(lines[3], "b.xml: not judged: no such file or directory")


if __name__ == "__main__":
    unittest.main()
