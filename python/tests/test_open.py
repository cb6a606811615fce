"""`tml-corpus open`: how many pairs one more link settles, against the reference and against `tml matrix`, and what is printed."""

import io
import os
import random
import re
import unittest
from unittest import mock

from corpus import TML, CorpusTest, document, match_in, needs_matrix, text_at
from processes import PATIENCE, interrupt, until
from reference.nets import Link, Net
from reference.possible import possible_by_closure
from reference.timelines import least_raised, orders_that_fit
from test_known import lines_of
from test_reference import random_net
from test_timeline import event, link
from tml.matrices import read_matrix
from tml.running import run
from tml.statuses import LINK_LIMIT
from tml_corpus.asking.pool import Interruption
from tml_corpus.asking.program import Program
from tml_corpus.files.finding import Found
from tml_corpus.matrix.settling import Settling
from tml_corpus.matrix.show_open import Bounds, show_open

PAIR = r"^(\d+)(?: to (\d+))?: (.*), (.*): ((?:[A-Z_]+ \d+(?:, )?)+)$"


def decided_in(net: Net) -> int:
    """How many pairs of a net are decided."""
    return sum(len(relations) == 1 for _, _, relations in possible_by_closure(net))


class Counts(unittest.TestCase):
    def test_counts_are_those_of_nets_with_one_more_link(self) -> None:
        counted = 0
        for number in range(120):
            net = random_net(random.Random(f"open {number}"), random.Random(number).randint(2, 6))
            if least_raised(net.points(), orders_that_fit(net, range(len(net.links)))) is None:
                continue
            matrix = read_matrix(lines_of(net), [f"i{place}" for place in range(net.intervals())])
            settling, before = Settling(matrix), decided_in(net)
            self.assertEqual(len(settling.open_pairs()) + before, len(matrix.cells))
            for pair in settling.open_pairs()[:4]:
                settled = settling.settled(pair)
                for relation, count in settled.counts.items():
                    more = Net(net.bounds, (*net.links, Link(settled.left, relation.encode(), settled.right)))
                    self.assertEqual(before + count, decided_in(more), (net, pair, relation))
                    counted += count > 1
        self.assertGreater(counted, 100)

    def test_pairs_that_are_near_come_first(self) -> None:
        lines = [b"a b AFTER\n", b"a c BEFORE AFTER\n", b"a d BEFORE AFTER\n", b"b c BEFORE AFTER\n", b"b d BEFORE AFTER\n", b"c d AFTER\n"]
        self.assertEqual(Settling(read_matrix(lines, list("abcd"))).open_pairs(), [(1, 2), (0, 2), (1, 3), (0, 3)])


@needs_matrix
class OpenTest(CorpusTest):
    CONTENT = document("".join(event(number) for number in range(4)) + link(0, "BEFORE", 1) + link(2, "DURING", 3))

    def printed(self, content: str, *words: str) -> tuple[list[tuple[str, ...]], str]:
        """The pairs and the last line of what is printed."""
        self.write("d.xml", content)
        status, lines, error = self.run_it("open", "d.xml", *words)
        self.assertEqual((status, error), (0, ""), lines)
        return [match_in(PAIR, line).groups("") for line in lines[:-1]], lines[-1]


class Printed(OpenTest):
    def test_a_small_document(self) -> None:
        pairs, last = self.printed(self.CONTENT)
        self.assertEqual(last, "d.xml: 4 intervals, 6 pairs: 1 decided, 5 open, 5 of these looked at, 5 shown")
        least = [int(found[0]) for found in pairs]
        self.assertEqual(least, sorted(least, reverse=True))
        self.assertEqual(len({found[2:4] for found in pairs}), 5)
        during = next(found for found in pairs if found[2:4] == ("x (i2)", "x (i3)"))
        self.assertEqual(during[:2] + during[4:], ("1", "", "IS_INCLUDED 1, SIMULTANEOUS 1, BEGINS 1, ENDS 1"))

    def test_the_least_number_is_that_of_the_relations(self) -> None:
        for found in self.printed(self.CONTENT)[0]:
            numbers = [int(number) for number in re.findall(r" (\d+)", found[4])]
            self.assertEqual((int(found[0]), int(found[1] or found[0])), (min(numbers), max(numbers)))

    def test_bounds(self) -> None:
        pairs, last = self.printed(self.CONTENT, "--limit", "2", "--pairs", "3", "--jobs", "1")
        self.assertEqual((len(pairs), last), (2, "d.xml: 4 intervals, 6 pairs: 1 decided, 5 open, 3 of these looked at, 2 shown"))
        self.assertEqual({found[2:4] for found in self.printed(self.CONTENT, "--pairs", "1")[0]}, {("x (i1)", "x (i2)")})
        pairs, last = self.printed(self.CONTENT, "--limit", "0", "--pairs", "0")
        self.assertEqual((pairs, last.split(" decided, ")[1]), ([], "5 open, 5 of these looked at, 0 shown"))

    def test_times_and_events(self) -> None:
        days = "".join(f'<TIMEX3 tid="t{day}" type="DATE" value="1998-01-XX">day</TIMEX3>' for day in (1, 2))
        pairs, _ = self.printed(document(days + event(1)), "--limit", "3")
        self.assertEqual({found[2:4] for found in pairs}, {("day (t1)", "day (t2)"), ("day (t1)", "x (i1)"), ("day (t2)", "x (i1)")})

    def test_what_is_asked_about_links_is_counted_and_makes_no_matrix(self) -> None:
        self.write("d.xml", self.CONTENT)
        with (
            mock.patch("tml_corpus.matrix.reading.read_matrix", wraps=read_matrix) as read,
            mock.patch("tml_corpus.asking.program.run", wraps=run) as asked,
            mock.patch("sys.stdout", io.StringIO()) as out,
        ):
            show_open(
                Program(TML), Found(self.path("d.xml")), Bounds(0, 2), False, lambda work, items, **_: map(work, items), Interruption()
            )
        relations = sum(len(match_in(PAIR, line)[5].split(", ")) for line in out.getvalue().splitlines()[:-1])
        commands = [call.args[0][1] for call in asked.call_args_list]
        self.assertEqual((read.call_count, commands.count("matrix")), (1, 1 + relations))

    def test_nothing_is_open(self) -> None:
        for content in (document(""), document(event(1)), document(event(1) + event(2) + link(1, "AFTER", 2))):
            self.assertRegex(self.printed(content)[1], r", 0 open, 0 of these looked at, 0 shown$")

    def test_the_sample(self) -> None:
        lines = text_at("samples/port.xml").splitlines(keepends=True)
        mended = "".join(line.replace("DURING", "AFTER") if 'lid="l6"' in line else line for line in lines)
        pairs, last = self.printed(mended, "--limit", "20")
        self.assertEqual((len(pairs), last), (16, "d.xml: 13 intervals, 78 pairs: 62 decided, 16 open, 16 of these looked at, 16 shown"))
        self.assertEqual(pairs[0][:4], ("2", "6", "closed (ei4)", "called (ei7)"))


class Refused(OpenTest):
    def test_clashes_and_faults(self) -> None:
        clash = document(event(1) + event(2) + link(1, "BEFORE", 2) + link(1, "AFTER", 2))
        clashing = "d.xml: not looked at: no timeline fits, since these links clash"
        for content, said in ((clash, clashing), (document("<EVENT/>"), "MissingAttribute")):
            self.write("d.xml", content)
            status, lines, error = self.run_it("open", "d.xml")
            self.assertEqual((status, error), (1, ""))
            self.assertIn(said, "\n".join(lines))
        self.assertEqual(self.run_it("open", "gone.xml")[:2], (2, ["gone.xml: not judged: no such file or directory"]))

    def test_a_folder(self) -> None:
        self.write("c/a.xml", self.CONTENT)
        self.write("c/b.xml", document("<EVENT/>"))
        self.write("c/e/a.xml", self.CONTENT)
        status, alone, _ = self.run_it("open", "c/a.xml")
        self.assertEqual(status, 0)
        status, lines, error = self.run_it("open", "c")
        self.assertEqual((status, error), (1, ""))
        named = [*(f"c/a.xml: {line}" for line in alone[:-1]), alone[-1]]
        self.assertEqual(lines[: len(named)], named)
        self.assertEqual(lines[-len(named) :], [line.replace("c/a.xml", "c/e/a.xml") for line in named])
        self.assertIn("c/b.xml:2:1: error: 10 MissingAttribute", lines[len(named)])
        os.makedirs(self.path("f"))
        self.assertEqual(self.run_it("open", "f")[:2], (2, ["f: not judged: no file in this folder matches *.tml or *.xml"]))

    def test_answers_that_do_not_agree(self) -> None:
        self.write("d.xml", self.CONTENT)
        rows = [
            ("sed 's/^i2 i3 BEGINS$/i2 i3 ENDS/'", "two answers of tml to `matrix` do not belong together"),
            ("sed 's/^i0 i2 BEFORE$/i0 i2 BEFORE AFTER/'", "(what was counted is not what tml matrix says|two answers of tml)"),
        ]
        for change, said in rows:
            with self.subTest(change):
                fake = self.fake(f'if [ $1 = matrix ]; then {TML} "$@" | {change}; exit 0; fi\nexec {TML} "$@"')
                status, [line], _ = self.run_it("open", "d.xml", tml=fake)
                self.assertEqual(status, 2)
                self.assertRegex(line, f"^d\\.xml: not judged: {said}")

    def test_as_many_links_as_there_may_be(self) -> None:
        self.write("d.xml", document(event(1) + event(2) + event(3) + LINK_LIMIT * link(1, "DURING", 2)))
        self.assertEqual(self.run_it("open", "d.xml")[:2], (2, ["d.xml: not judged: the document has 4,096 links, and may have no more"]))

    def test_an_interruption(self) -> None:
        self.write("d.xml", document("".join(event(number) for number in range(60))))
        # The second question about all relations is answered once there is a file `go`.
        held = "if [ -e asked ]; then touch waits; until [ -e go ]; do sleep 0.05; done; fi; touch asked"
        child = self.start("open", "d.xml", "--jobs", "1", tml=self.fake(f'if [ $1 = matrix ]; then {held}; fi\nexec {TML} "$@"'))
        until(lambda: os.path.exists(self.path("waits")))
        interrupt(child)
        self.write("go", "")
        out, err = child.communicate(timeout=PATIENCE)
        self.assertEqual((child.returncode, out, err), (130, b"interrupted: not all pairs were looked at\n", b""))


if __name__ == "__main__":
    unittest.main()
