"""`tml-corpus agree`: pairs of files, counts and fractions, sums over a corpus, links that do not follow, and what is not counted."""

import csv
import json
import math
import os
import random
import stat
import subprocess
import unittest
from fractions import Fraction
from functools import partial

from corpus import TML, TOO_LONG, CorpusTest, document, needed, needs_score
from test_timeline import event, link
from tml.results import Score
from tml_corpus.agreement.agree import Wanted, compare, not_compared, sides_of
from tml_corpus.agreement.scores import Corpus
from tml_corpus.asking.batch import do_batch, read, written
from tml_corpus.asking.pool import nothing
from tml_corpus.asking.program import Program
from tml_corpus.files.finding import Found

NOTHING_LEFT_OUT = "skipped: 0 without a partner, 0 with a fault, 0 with a clash, 0 not judged"


def three(*links: tuple[int, str, int]) -> str:
    """A document with three events and some links."""
    return document(event(1, "one") + event(2, "two") + event(3, "") + "".join(f"\n{link(*words)}" for words in links))


class Counts(unittest.TestCase):
    """Fractions and means, by a formula of their own."""

    def test_f1_is_the_harmonic_mean(self) -> None:
        for matched, links, found, keys in ((1, 2, 3, 4), (2, 2, 2, 2), (0, 3, 0, 5), (0, 3, 1, 5), (7, 9, 5, 6)):
            scores = Score(matched, links, found, keys)
            self.assertEqual((scores.precision, scores.recall), (Fraction(matched, links), Fraction(found, keys)))
            if matched and found:
                self.assertEqual(1 / needed(scores.f1), (Fraction(links, matched) + Fraction(keys, found)) / 2)
            else:
                self.assertEqual(scores.f1, 0)
        self.assertEqual((Score(0, 0, 1, 2).precision, Score(0, 0, 1, 2).f1, Score(1, 2, 0, 0).recall), (None, None, None))

    def test_sums_and_means(self) -> None:
        corpus, all_scores = Corpus(), [Score(1, 2, 1, 4), Score(3, 4, 0, 0), Score(0, 2, 0, 4)]
        for scores in all_scores:
            corpus.add(scores)
        self.assertEqual(corpus.micro, Score(4, 8, 1, 8))
        self.assertEqual((corpus.macro("precision").value, corpus.macro("precision").pairs), (math.fsum((0.5, 0.75, 0)) / 3, 3))
        self.assertEqual((corpus.macro("recall").value, corpus.macro("recall").pairs), (0.125, 2))
        self.assertEqual((Corpus().macro("f1").value, Corpus().macro("f1").pairs), (None, 0))


@needs_score
class AgreeTest(CorpusTest):
    def setUp(self) -> None:
        super().setUp()
        self.write("a/chain.xml", three((1, "BEFORE", 2), (2, "BEFORE", 3), (1, "BEFORE", 3)))
        self.write("b/chain.xml", three((1, "BEFORE", 3)))


class Pairs(AgreeTest):
    def test_two_files(self) -> None:
        status, lines, error = self.run_it("agree", "a/chain.xml", "b/chain.xml")
        self.assertEqual((status, error), (0, ""))
        said = "precision 0 of 2 (0.000), recall 1 of 1 (1.000), F1 0.000"
        means = "macro: precision 0.000 (of 1 pair), recall 1.000 (of 1 pair), F1 0.000 (of 1 pair)"
        self.assertEqual(lines, [f"chain.xml: {said}", f"micro: {said}", means, f"1 pair counted; {NOTHING_LEFT_OUT}"])

    def test_the_same_relations_by_other_links(self) -> None:
        self.write("b/chain.xml", three((2, "AFTER", 1), (3, "AFTER", 2)))
        _, lines, _ = self.run_it("agree", "--links", "a", "b/")
        self.assertEqual(lines[0], "chain.xml: precision 2 of 2 (1.000), recall 2 of 2 (1.000), F1 1.000")
        self.assertEqual(len(lines), 4)

    def test_folders(self) -> None:
        self.write("a/x/one.xml", three((1, "ENDS", 2)))
        self.write("b/x/one.xml", three((1, "ENDS", 2)))
        self.write("b/x/other.tml", three())
        self.write("a/name.txt", "no document")
        status, lines, error = self.run_it("agree", "a", "b")
        self.assertEqual((status, error), (1, ""))
        begins = ["chain.xml", "x/one.xml", "b/x/other.tml", "micro", "macro", "2 pairs counted; skipped"]
        self.assertEqual([line.split(":")[0] for line in lines], begins)
        self.assertEqual(lines[2], "b/x/other.tml: skipped: there is no a/x/other.tml")
        self.assertEqual(lines[3], "micro: precision 1 of 3 (0.333), recall 2 of 2 (1.000), F1 0.500")
        self.assertEqual(lines[4], "macro: precision 0.500 (of 2 pairs), recall 1.000 (of 2 pairs), F1 0.500 (of 2 pairs)")
        self.assertEqual(lines[5], "2 pairs counted; skipped: 1 without a partner, 0 with a fault, 0 with a clash, 0 not judged")
        self.assertEqual(self.run_it("agree", "--glob", "one.*", "a", "b")[0], 0)

    def test_what_is_not_counted(self) -> None:
        clash = three((1, "BEFORE", 2), (2, "BEFORE", 1))
        faults = "<TimeML>\n", "<TimeML>\n<P>"
        for name, of_first, of_second in (
            ("c1", clash, three()),
            ("c2", three(), clash),
            ("f1", faults[0], clash),
            ("f2", clash, faults[1]),
        ):
            self.write(f"a/{name}.xml", of_first)
            self.write(f"b/{name}.xml", of_second)
        self.write("a/long.xml", three())
        self.write("b/long.xml", TOO_LONG)
        os.mkfifo(self.path("a/pipe.xml"))
        self.write("b/pipe.xml", three())
        status, lines, _ = self.run_it("agree", "a", "b")
        self.assertEqual(status, 2)
        fits = "its links contradict each other: see tml-corpus clashes"
        self.assertEqual(
            lines[:6],
            [
                f"a/c1.xml: skipped: {fits}",
                f"b/c2.xml: skipped: {fits}",
                "chain.xml: precision 0 of 2 (0.000), recall 1 of 1 (1.000), F1 0.000",
                "a/f1.xml: skipped: fault 6 Unclosed at 2:1",
                "b/f2.xml: skipped: fault 6 Unclosed at 2:4",
                "b/long.xml: skipped: the file has more than 4,194,304 bytes",
            ],
        )
        self.assertEqual(lines[6], "a/pipe.xml: skipped: is not a regular file")
        self.assertEqual(lines[-1], "1 pair counted; skipped: 0 without a partner, 2 with a fault, 2 with a clash, 2 not judged")

    def test_dates_that_touch(self) -> None:
        days = "".join(f'<TIMEX3 tid="t{day}" type="DATE" value="1998-01-0{day}"/>' for day in (1, 2, 3))
        touching = document(days + '<TLINK timeID="t1" relatedToTime="t2" relType="BEFORE"/>' + event(1, "x") + link(1, "BEFORE", 1))
        touching = touching.replace('eventInstanceID="i1" relatedToEventInstance="i1"', 'eventInstanceID="i1" relatedToTime="t1"')
        self.write("a/chain.xml", touching)
        self.write("b/chain.xml", document(days + event(1, "x")))
        self.assertEqual(self.run_it("agree", "a", "b")[0], 1)
        status, lines, error = self.run_it("agree", "--touching", "--links", "a", "b")
        self.assertEqual((status, error), (0, ""))
        place = touching.splitlines()[1].index("<TLINK") + 1
        reading = "read as IBEFORE: 1998-01-01 ends exactly where 1998-01-02 begins, and BEFORE asks for a gap"
        self.assertEqual(lines[0], f"a/chain.xml:2:{place}: note: {reading}")
        self.assertEqual(lines[1], "chain.xml: precision 0 of 1 (0.000), recall 0 of 0 (none), F1 none")
        second = touching.splitlines()[-2].index("<TLINK") + 1
        self.assertTrue(
            lines[2].startswith(f"a/chain.xml:{len(touching.splitlines()) - 1}:{second}: does not follow in b/chain.xml"), lines[2]
        )
        _, lines, _ = self.run_it("agree", "--touching", "--format", "jsonl", "b", "a")
        self.assertTrue(json.loads(lines[0])["readTouching"])
        self.write("b/chain.xml", three((1, "BEFORE", 1)))
        _, lines, _ = self.run_it("agree", "--touching", "a", "b")
        self.assertEqual(lines[0], "b/chain.xml: skipped: its links contradict each other: see tml-corpus clashes")

    def test_documents_without_links(self) -> None:
        self.write("a/none.xml", three())
        self.write("b/none.xml", three((1, "BEFORE", 2)))
        _, lines, _ = self.run_it("agree", "a", "b")
        self.assertEqual(lines[1], "none.xml: precision 0 of 0 (none), recall 0 of 1 (0.000), F1 none")
        self.assertEqual(lines[3], "macro: precision 0.000 (of 1 pair), recall 0.500 (of 2 pairs), F1 0.000 (of 1 pair)")

    def test_words_that_are_refused(self) -> None:
        for words, said in (
            (["a", "b/chain.xml"], "a and b/chain.xml have to be two folders, or two files"),
            (["--links", "--format", "csv", "a", "b"], "--links goes with --format text, json or jsonl"),
        ):
            status, lines, error = self.run_it("agree", *words)
            self.assertEqual((status, lines), (2, []))
            self.assertIn(said, error)
        self.assertEqual(self.run_it("agree", "a")[0], 2)
        status, lines, _ = self.run_it("agree", "a", "gone")
        self.assertEqual(status, 2)

    def test_an_empty_folder(self) -> None:
        os.mkdir(self.path("empty"))
        status, lines, _ = self.run_it("agree", "a", "empty")
        self.assertEqual(status, 2)
        alone = "a/chain.xml: skipped: there is no empty/chain.xml"
        self.assertEqual(lines[:2], [alone, "empty: skipped: no file in this folder matches *.tml or *.xml"])

    def test_wrappers_of_a_corpus(self) -> None:
        self.write("tml-corpus.toml", 'wrappers = ["chunk"]\n')
        for side in ("a", "b"):
            self.write(f"{side}/chain.xml", document(f"<chunk>{event(1)}{event(2)}</chunk>{link(1, 'BEFORE', 2)}"))
        status, lines, _ = self.run_it("agree", "--links", "a", "b")
        self.assertEqual((status, lines[0]), (0, "chain.xml: precision 1 of 1 (1.000), recall 1 of 1 (1.000), F1 1.000"))


class Links(AgreeTest):
    def test_links_in_words(self) -> None:
        other = three((2, "BEFORE", 1), (2, "IBEFORE", 3)).replace('"i1"', '"j1"')
        self.write("b/chain.xml", other.replace("</TimeML>", event(1, "again").replace("e1", "e9") + "</TimeML>"))
        status, lines, _ = self.run_it("agree", "--links", "a", "b")
        self.assertEqual(
            lines[1:5],
            [
                "a/chain.xml:6:1: does not follow in b/chain.xml, which leaves open any relation: one BEFORE two (link 0: i1 BEFORE i2)",
                "a/chain.xml:8:1: does not follow in b/chain.xml, where it is IBEFORE: two BEFORE i3 (link 1: i2 BEFORE i3)",
                "b/chain.xml:6:1: does not follow in a/chain.xml, which has no interval j1: two BEFORE one (link 0: i2 BEFORE j1)",
                "b/chain.xml:8:1: does not follow in a/chain.xml, where it is BEFORE: two IBEFORE i3 (link 1: i2 IBEFORE i3)",
            ],
        )
        self.assertEqual(status, 0)

    def test_random_documents(self) -> None:
        """The links that are named are as many as are missing, and `tml ask` says of each that it does not follow."""
        draw, named = random.Random(1), 0
        for number in range(12):
            for side in ("a", "b"):
                ends = [draw.sample((1, 2, 3), 2) for _ in range(draw.randrange(1, 4))]
                relations = ("BEFORE", "DURING", "IBEFORE", "OVERLAPS", "SIMULTANEOUS", "ENDED_BY")
                links = [(one, draw.choice(relations), other) for one, other in ends]
                self.write(f"{side}/{number}.xml", three(*links))
        whole = json.loads("\n".join(self.run_it("agree", "--links", "--format", "json", "a", "b")[1]))
        _, lines, _ = self.run_it("agree", "--links", "--format", "jsonl", "a", "b")
        self.assertEqual(whole, list(map(json.loads, lines)))
        for pair in map(json.loads, lines[:-1]):
            if "links" not in pair:
                continue
            of_document = [one for one in pair["links"] if one["path"] == pair["path"]]
            self.assertEqual(len(of_document), pair["documentLinks"] - pair["matched"])
            self.assertEqual(len(pair["links"]) - len(of_document), pair["keyLinks"] - pair["found"])
            for one in pair["links"]:
                words = [TML, "ask", self.path(one["other"]), one["left"], one["relation"], one["right"]]
                self.assertIn(b"\ncounter ", subprocess.run(words, capture_output=True, check=True).stdout)
                named += 1
        self.assertGreater(named, 10)

    def test_answers_that_do_not_belong_together(self) -> None:
        scores = "echo precision 1 of 2; echo recall 1 of 1"
        answers = (("relations", "true"), ("reduce", "echo reduced 0 of 3"), ("matrix", "echo i1 i2 BEFORE"), ("score", scores))
        for question, answer in answers:
            with self.subTest(question):
                self.write("fake", f'#!/bin/sh\nif [ $1 = {question} ]; then {answer}; exit; fi\nexec {os.path.abspath(TML)} "$@"\n')
                os.chmod(self.path("fake"), stat.S_IRWXU)
                more = [(2, "ENDS", 3)] if question == "relations" else []
                self.write("b/chain.xml", three((1, "BEFORE", 3), *more))
                status, lines, _ = self.run_it("agree", "--links", "a", "b", tml=self.path("fake"))
                self.assertEqual(status, 2, lines)
                self.assertRegex(lines[0], r"^a/chain\.xml: skipped: the answers of tml to .* do not belong together$")


class Forms(AgreeTest):
    def test_json(self) -> None:
        self.write("a/alone.xml", three())
        status, lines, error = self.run_it("agree", "--links", "--format", "jsonl", "a", "b")
        pair, left_out, sums = map(json.loads, lines)
        sum_line = "1 pair counted; skipped: 1 without a partner, 0 with a fault, 0 with a clash, 0 not judged\n"
        self.assertEqual((status, error), (1, sum_line))
        names = ("name", "path", "key", "matched", "documentLinks", "found", "keyLinks")
        self.assertEqual([pair[name] for name in names], ["chain.xml", "a/chain.xml", "b/chain.xml", 0, 2, 1, 1])
        self.assertEqual((pair["precision"], pair["recall"], pair["f1"]), (0.0, 1.0, 0.0))
        first = pair["links"][0]
        names = ("line", "column", "number", "left", "relation", "right", "missing")
        self.assertEqual([first[name] for name in names], [6, 1, 0, "i1", "BEFORE", "i2", []])
        self.assertEqual(len(first["possible"]), 13)
        reason = {"notCounted": "without a partner", "problem": "there is no b/alone.xml"}
        self.assertEqual(left_out, {"version": 1, "path": "a/alone.xml", **reason})
        self.assertEqual((sums["pairs"], sums["micro"]["documentLinks"], sums["macro"]["recall"]), (1, 2, {"value": 1.0, "pairs": 1}))

    def test_csv(self) -> None:
        self.write("a/=1+1.xml", three())
        _, lines, _ = self.run_it("agree", "--format", "csv", "a", "b")
        head, pair, left_out, micro, macro = csv.reader(lines)
        self.assertEqual(head, ["row", "name", "matched", "document links", "found", "key links", "precision", "recall", "f1", "remark"])
        self.assertEqual(pair, ["pair", "chain.xml", "0", "2", "1", "1", "0.0", "1.0", "0.0", ""])
        self.assertEqual(left_out, ["not counted", "a/=1+1.xml", *[""] * 7, "without a partner: there is no b/=1+1.xml"])
        for side in "ab":
            self.write(f"{side}/\uff1d1+1.xml", three())
        self.assertIn("pair,'\uff1d1+1.xml,", "\n".join(self.run_it("agree", "--format", "csv", "a", "b")[1]))
        self.assertEqual(micro[2:6], ["0", "2", "1", "1"])
        self.assertEqual(macro, ["macro", *[""] * 5, "0.0", "1.0", "0.0", "means of 1, 1, 1 pairs"])

    def test_names_and_texts_of_strangers(self) -> None:
        name = "::error \u202e\n.xml"
        for side, relation in (("a", "BEFORE"), ("b", "AFTER")):
            self.write(f"{side}/{name}", document(event(1, "::x\n\u202e") + event(2) + link(1, relation, 2)))
        _, lines, _ = self.run_it("agree", "--links", "a", "b")
        self.assertTrue(all(line.isprintable() for line in lines), lines)
        self.assertTrue(lines[0].startswith("\\x3a:error"), lines)


class Elsewhere(AgreeTest):
    def test_a_worker_with_another_folder(self) -> None:
        """What a cluster hands to its workers: paths are those of the folder of the command."""
        here = os.getcwd()
        os.chdir(self.folder)
        try:
            sides = sides_of("a", "b")
        finally:
            os.chdir(here)
        work = partial(compare, Program(os.path.abspath(TML)), sides, wanted=Wanted(links=True))
        [report] = read(do_batch(written((nothing, work, partial(not_compared, sides), [Found("a/chain.xml", None, self.folder)]))))
        self.assertEqual((report.name, report.key_path, report.scores), ("chain.xml", "b/chain.xml", Score(0, 2, 1, 1)))
        self.assertEqual(len(report.disagreements), 2)


if __name__ == "__main__":
    unittest.main()
