"""`tml-corpus clashes --repair` and `--more`: smallest sets, by comparison with all sets, bounds, and further clashes."""

import itertools
import json
import os
import re
import subprocess
import unittest
from collections.abc import Collection, Sequence
from random import Random
from typing import Any
from unittest import mock

from corpus import TML, CorpusTest, document, needed
from test_scripts import link

NAMES = "abcdef"
TIMES = "".join(f'<TIMEX3 tid="{name}" type="SET">{name.upper()}</TIMEX3>' for name in NAMES) + "\n"
RING = [link("a", "BEFORE", "b"), link("b", "BEFORE", "c"), link("c", "BEFORE", "a")]
PAIR = [link("d", "BEFORE", "e"), link("e", "BEFORE", "d")]


def written(links: Sequence[str]) -> str:
    """A document of some links, each on its line, the first one on line 3."""
    return document(TIMES + "".join(one + "\n" for one in links))


class HittingSets(unittest.TestCase):
    def test_smallest(self) -> None:
        from tml_corpus.clash.hitting import Collected

        random = Random(7)
        for case in range(300):
            sets = [frozenset(random.sample(range(9), random.randint(1, 4))) for _ in range(random.randint(1, 9))]
            collected = Collected(sets[0])
            for one in sets[1:]:
                if not any(other <= one for other in collected.sets):
                    collected.add(one)
            found = collected.smallest()
            with self.subTest(case=case, sets=sets):
                self.assertTrue(all(found & one for one in sets))
                smaller = itertools.combinations(range(9), len(found) - 1)
                self.assertFalse(any(all(set(choice) & one for one in sets) for choice in smaller))

    def test_many_sets_that_are_apart(self) -> None:
        from tml_corpus.clash.hitting import Collected

        collected = Collected([0, 1, 2])
        for number in range(1, 400):
            collected.add([3 * number, 3 * number + 1, 3 * number + 2])
        self.assertEqual(len(collected.smallest()), 400)

    def test_the_search_is_bounded(self) -> None:
        from tml_corpus.clash.hitting import Collected, TooMuch

        random = Random(1)
        collected = Collected(random.sample(range(200), 9))
        for _ in range(300):
            collected.add(random.sample(range(200), 9))
        with self.assertRaises(TooMuch):
            collected.smallest()


class Repairs(CorpusTest):
    def repair(self, content: str, *words: str) -> tuple[dict[str, Any], list[str]]:
        """The repair of a document, as JSON has it, and the lines of the text."""
        self.write("d.xml", content)
        [line] = self.run_it("clashes", "--repair", "--format", "jsonl", *words, "d.xml")[1]
        _, lines, _ = self.run_it("clashes", "--repair", *words, "d.xml")
        return json.loads(line)["repair"], [line for line in lines if re.match(r"d\.xml:(\d+:1: note:)? repair", line)]

    def test_any_one_link_of_a_clash(self) -> None:
        repair, lines = self.repair(written(RING))
        self.assertEqual(lines, ["d.xml: repair: leave out or mend any one of these 3 links, and a timeline fits"])
        self.assertEqual([[link["number"] for link in links] for links in repair["choices"]], [[0, 1, 2]])

    def test_the_link_that_is_in_every_clash(self) -> None:
        # Two rings that share the link from a to b.
        links = [
            link("b", "BEFORE", "c"),
            link("c", "BEFORE", "a"),
            link("a", "BEFORE", "b"),
            link("b", "BEFORE", "d"),
            link("d", "BEFORE", "a"),
        ]
        repair, lines = self.repair(written(links))
        self.assertEqual([[one["number"] for one in choices] for choices in repair["choices"]], [[2]])
        self.assertEqual(
            lines,
            [
                "d.xml: repair: leave out or mend this link, and a timeline fits",
                "d.xml:5:1: note: repair, 1 of 1: A BEFORE B (link 2: a BEFORE b)",
            ],
        )

    def test_several_links(self) -> None:
        repair, lines = self.repair(written(RING + PAIR))
        self.assertEqual([sorted(one["number"] for one in choices) for choices in repair["choices"]], [[0, 1, 2], [3, 4]])
        self.assertEqual((repair["smallest"], repair["allChoices"], repair["atLeast"]), (True, True, 2))
        self.assertEqual(lines[0], "d.xml: repair: leave out or mend these 2 links, and a timeline fits; fewer will not do")
        self.assertEqual(lines[2], "d.xml:4:1: note: repair, link 1 of 2, or in its place: B BEFORE C (link 1: b BEFORE c)")
        self.assertEqual(len(lines), 6)

    def test_smallest_among_all_sets(self) -> None:
        random = Random(3)
        relations = ("BEFORE", "AFTER", "IBEFORE", "IS_INCLUDED", "INCLUDES", "DURING", "ENDS")
        tried = 0
        while tried < 8:
            links = [
                link(*random.choice((("a", r, "b"), ("b", r, "c"), ("c", r, "d"), ("a", r, "d"), ("b", r, "d"))))
                for r in random.choices(relations, k=7)
            ]
            if self.fits(links, ()):
                continue
            tried += 1
            fitting = self.smallest(links)
            repair, _ = self.repair(written(links))
            with self.subTest(links):
                choices = [[one["number"] for one in part] for part in repair["choices"]]
                first = {part[0] for part in choices}
                self.assertIn(first, fitting)
                self.assertEqual((len(first), repair["smallest"], repair["allChoices"]), (len(fitting[0]), True, True))
                exchanged = {frozenset(first - {part[0]} | {other}) for part in choices for other in part}
                self.assertEqual(exchanged, {frozenset(one) for one in fitting if len(one & first) >= len(first) - 1})

    def smallest(self, links: Sequence[str]) -> list[set[int]]:
        """All smallest sets of links without which a timeline fits."""
        for size in range(len(links) + 1):
            fitting = [set(one) for one in itertools.combinations(range(len(links)), size) if self.fits(links, one)]
            if fitting:
                return fitting
        raise AssertionError("no timeline fits without links")

    def fits(self, links: Sequence[str], left_out: Collection[int]) -> bool:
        """Whether a timeline fits without some links."""
        content = written([one for number, one in enumerate(links) if number not in left_out])
        return subprocess.run([TML, "solve", "-"], input=content.encode(), stdout=subprocess.DEVNULL, check=False).returncode == 0

    def test_bounds(self) -> None:
        from tml_corpus.asking.program import Program
        from tml_corpus.clash import leftout
        from tml_corpus.clash.first import find_clashes
        from tml_corpus.clash.formats import Text
        from tml_corpus.clash.report import Wanted
        from tml_corpus.files.finding import Found

        self.write("d.xml", written(RING + PAIR))
        rows = [
            (
                1,
                "no set of links without which a timeline fits was found within the limit of questions about one document; fewer than 1 "
                "will not do",
            ),
            (6, "leave out or mend these 2 links, and a timeline fits; fewer will not do"),
        ]
        for questions, said in rows:
            with self.subTest(questions), mock.patch.object(leftout, "QUESTIONS", questions):
                report = find_clashes(Program(TML), Found(self.path("d.xml")), Wanted(repair=True))
                self.assertEqual(needed(report.repair).text(), said)
                self.assertIn(f": repair: {said}\n", Text(False).file(report))

    def test_the_best_set_within_the_bound(self) -> None:
        from tml_corpus.clash.report import PlacedRepair

        repair = PlacedRepair([[], [], []], False, False, 2, 0)
        best = "this is the best set found within the limit of questions about one document, and fewer than 2 will not do"
        self.assertEqual(repair.text(), f"leave out or mend these 3 links, and a timeline fits; {best}")

    def test_with_dates_that_touch(self) -> None:
        times = '<TIMEX3 tid="s" type="DATE" value="1998"/><TIMEX3 tid="t" type="DATE" value="1999"/>\n'
        _, lines = self.repair(document(times + TIMES + link("s", "BEFORE", "t")))
        self.assertEqual(lines, ["d.xml: repair: mend the link between dates that touch as said above, and a timeline fits"])
        _, lines = self.repair(document(times + TIMES + link("s", "BEFORE", "t") + "\n" + "\n".join(PAIR)))
        said = "mend the link between dates that touch as said above, leave out or mend any one of these 2 links, and a timeline fits"
        self.assertEqual(lines, [f"d.xml: repair: {said}"])

    def test_links_with_end_tags_and_comments(self) -> None:
        links = [one.replace("/>", "><!-- x --> </TLINK >") for one in RING]
        _, lines = self.repair(written(links))
        self.assertEqual(lines, ["d.xml: repair: leave out or mend any one of these 3 links, and a timeline fits"])


class Further(CorpusTest):
    def test_clashes_that_share_no_links(self) -> None:
        self.write("d.xml", written(RING + PAIR + [link("f", "BEFORE", "f")]))
        for more, clashes in ((0, 1), (1, 2), (9, 3)):
            with self.subTest(more):
                _, [line], error = self.run_it("clashes", "--more", str(more), "--format", "jsonl", "d.xml")
                found = [[link["number"] for link in clash["links"]] for clash in json.loads(line)["clashes"]]
                self.assertEqual(len(found), clashes)
                self.assertEqual(len(set(itertools.chain(*found))), sum(map(len, found)))
                if clashes > 1:
                    self.assertIn("further clash", error)

    def test_each_has_its_evidence(self) -> None:
        self.write("d.xml", written(RING + PAIR))
        _, lines, _ = self.run_it("clashes", "--more", "5", "--evidence", "kept", "d.xml")
        self.assertIn("error: clash 2, 1 of ", "\n".join(lines))
        kept = [line.split(": evidence in ")[1] for line in lines if ": evidence in " in line]
        self.assertEqual(len(set(kept)), 2)
        said = set()
        for evidence in kept:
            judged = subprocess.run([TML, "verify", "d.xml", evidence], cwd=self.folder, stdout=subprocess.PIPE, check=False)
            said.add(judged.stdout)
        self.assertEqual(said, {b"verified clash 0 1 2\n", b"verified clash 3 4\n"})
        self.assertEqual(len(os.listdir(self.path("kept"))), 2)


if __name__ == "__main__":
    unittest.main()
