"""`tml-corpus seconds` and `tml-corpus timeline --seconds`: placings in all forms, what cannot all be met, and pictures true to scale."""

import csv
import json
import os
import unittest
import xml.etree.ElementTree as ElementTree
from random import Random

from corpus import TML, CorpusTest, document, needed, needs_seconds, text_at
from differential.documents import document_of
from differential.lengths import draw_timed_net
from picture_reader import Picture
from reference.acceptance import Accepted, judge_document
from reference.dates import Time
from reference.lengths import limits_of
from reference.placings import Placing, constraint_of, lines_of, place, timed_of
from test_timeline import SVG, XHTML
from tml.lines import Step
from tml_corpus.asking.program import Program
from tml_corpus.clash import constraints
from tml_corpus.document.words import Wording
from tml_corpus.seconds.civil import FIRST, LAST, civil, length
from tml_corpus.timeline.axis import extent, marks

DAY = 86_400


def bridge() -> str:
    """The sample with durations."""
    return text_at("samples/bridge.xml")


class Axis(unittest.TestCase):
    """Marks of an axis."""

    def test_marks(self) -> None:
        noon = 884_260_800
        rows = [
            ((noon, noon + 8, 10), ["12:00:00", "12:00:01", "12:00:02"]),
            ((noon, noon + 4 * 3600, 6), ["01-08 12:00", "01-08 13:00", "01-08 14:00"]),
            ((noon, noon + 5 * DAY, 8), ["1998-01-09", "1998-01-10", "1998-01-11"]),
            ((noon, noon + 30 * DAY, 6), ["1998-01-12", "1998-01-19", "1998-01-26"]),
            ((noon, noon + 100 * DAY, 5), ["1998-02", "1998-03", "1998-04"]),
            ((noon, noon + 4000 * DAY, 8), ["2000", "2002", "2004"]),
            ((FIRST, LAST, 8), ["2000", "4000", "6000"]),
            ((-5, LAST + 5, 8), ["0", "100,000,000,000", "200,000,000,000"]),
        ]
        for words, texts in rows:
            found = marks(*words)
            self.assertEqual([text for _, text in found][:3], texts, words)
            self.assertLessEqual(len(found), words[2])
            self.assertTrue(all(words[0] <= second <= words[1] for second, _ in found))

    def test_extents(self) -> None:
        self.assertEqual(extent([0, 40]), (-1, 41))
        self.assertEqual(extent([7]), (6, 8))
        self.assertEqual(extent([FIRST, LAST]), (FIRST, LAST))

    def test_dates_and_lengths(self) -> None:
        wanted = ["1970-01-01T00:00:00", "1969-12-31T23:59:59", "10000-01-01T00:00:00", f"second {LAST + 2}"]
        self.assertEqual([civil(second) for second in (0, -1, LAST + 1, LAST + 2)], wanted)
        self.assertEqual([length(seconds) for seconds in (0, 1, 3_661, 2 * DAY)], ["0 s", "1 s", "1 h 1 min 1 s", "2 d"])


class Constraints(unittest.TestCase):
    """What is counted of constraints is what the reference counts."""

    def test_lengths(self) -> None:
        values = (
            "P1D",
            "PT1H30M",
            "P2W",
            "P1W2DT3H4M5S",
            "P0D",
            "P1Y",
            "P1M",
            "PXD",
            "P",
            "PT",
            "P1DT",
            "PT1D",
            "1998",
            "",
            "P1234567890D",
        )
        for kind in ("DURATION", "SET", "DATE"):
            for modifier in ("", "LESS_THAN", "EQUAL_OR_LESS", "MORE_THAN", "EQUAL_OR_MORE", "APPROX"):
                for value in values:
                    wanted = limits_of(Time(kind.encode(), modifier.encode() or None, value.encode() or None))
                    found = constraints.limits_of(kind, modifier, value)
                    self.assertEqual((found.least, found.most), (wanted.least, wanted.most), (kind, modifier, value))

    @unittest.skipUnless(os.access(TML, os.X_OK), f"no program {TML}: build it as README.md says, or name one by TML=PROGRAM")
    def test_constraints_and_ranges(self) -> None:
        program, placed = Program(os.path.abspath(TML)), 0
        for number in range(40):
            random = Random(f"constraints {number}")
            source = document_of(random, draw_timed_net(random, random.randrange(1, 6)))
            accepted = judge_document(source)
            if not isinstance(accepted, Accepted):
                continue
            timed = timed_of(accepted.document)
            found = constraints.Constraints(Wording(program, source))
            of_lines = [constraint_of(timed, line) for line in lines_of(timed)]
            wanted = [(one.begin, one.end, one.weight) for one in of_lines if one]
            self.assertEqual(sorted((one.begin, one.end, one.weight) for one in found.all()), sorted(wanted))
            for line in lines_of(timed):
                if (one := constraint_of(timed, line)) is not None:
                    same = found.constraint(Step(line.word.decode(), *line.numbers))
                    self.assertEqual((same.begin, same.end, same.weight), (one.begin, one.end, one.weight))
            placing = place(timed)
            if isinstance(placing, Placing):
                placed += 1
                ranges = found.ranges()
                self.assertTrue(all(low <= second <= high for second, (low, high) in zip(placing.seconds, ranges, strict=True)))
        self.assertGreater(placed, 10)


@needs_seconds
class Forms(CorpusTest):
    """What `tml-corpus seconds` prints."""

    def printed(self, *words: str, content: str | None = None) -> tuple[int, str, str]:
        """The status, standard output and standard error over a document."""
        self.write("d.xml", bridge() if content is None else content)
        child = self.start("seconds", "d.xml", *words)
        out, err = child.communicate(timeout=120)
        return child.returncode, out.decode(), err.decode()

    def test_lines(self) -> None:
        status, out, error = self.printed()
        lines = out.splitlines()
        self.assertEqual((status, error, lines[-1]), (0, "", "d.xml: placed: 9 intervals, 7 links"))
        self.assertIn("1998-01-11T00:00:00 to 1998-01-12T00:00:00, 1 d: Sunday (t4)", lines)
        [opened] = [line for line in lines if "opened (ei4)" in line]
        self.assertIn("starts from 1998-01-11T18:00:04 up to 1998-01-11T23:59:58", opened)
        self.assertIn("ends from 1998-01-11T18:00:05 up to 1998-01-11T23:59:59", opened)

    def test_json_and_csv(self) -> None:
        status, out, error = self.printed("--format", "json")
        found = json.loads(out)
        self.assertEqual((status, error, found["verdict"]), (0, "", "placed"))
        days = {one["name"]: one for one in found["intervals"]}
        self.assertEqual(days["t2"]["end"] - days["t2"]["start"], 2 * DAY)
        self.assertEqual((days["t4"]["from"], days["t4"]["earliestStart"]), ("1998-01-11T00:00:00", 884_476_800))
        self.assertEqual(days["t4"]["latestStart"], 884_476_800)
        rows = list(csv.DictReader(self.printed("--format", "csv")[1].splitlines()))
        self.assertEqual([row["name"] for row in rows], [one["name"] for one in found["intervals"]])
        self.assertEqual(sorted(int(row["start"]) for row in rows), [int(row["start"]) for row in rows])

    def test_calendar(self) -> None:
        status, out, error = self.printed("--format", "ics")
        self.assertEqual((status, error, out.count("BEGIN:VEVENT")), (0, "", 9))
        self.assertTrue(out.startswith("BEGIN:VCALENDAR\r\nVERSION:2.0\r\n") and out.endswith("END:VCALENDAR\r\n"))
        self.assertIn("DTSTART:19980112T000000\r\nDTEND:19980113T000000\r\nSUMMARY:January 12\\, 1998 (t0)\r\n", out)
        first = f'<TIMEX3 tid="b" type="DATE" value="0001-01-01">{"é;" * 60}</TIMEX3>'
        far = document(f'<TIMEX3 tid="a" type="DATE" value="9999-12-31"/>{first}')
        status, out, error = self.printed("--format", "ics", content=far)
        self.assertEqual((status, error, out.count("BEGIN:VEVENT")), (0, "d.xml: 1 interval outside of the years 1 to 9999 left out\n", 1))
        self.assertIn("DTSTART:00010101T000000\r\n", out)
        self.assertLessEqual(max(len(line.encode()) for line in out.split("\r\n")), 75)

    def test_what_cannot_all_be_met(self) -> None:
        late = bridge().replace("P2D", "P3D")
        status, out, error = self.printed(content=late)
        lines = out.splitlines()
        self.assertEqual((status, error), (1, ""))
        self.assertEqual(lines[-1], "d.xml: no placing in seconds: these links, dates and lengths cannot all be met, 64,806 seconds short")
        self.assertIn("d.xml:4:228: note: two days lasts 3 d at least", lines)
        self.assertIn("d.xml:10:1: error: cycle, 1 of 7: shut IS_INCLUDED Thursday at noon (l1: ei1 IS_INCLUDED t1)", lines)
        found = json.loads(self.printed("--format", "json", content=late)[1])
        self.assertEqual((found["verdict"], found["short"]), ("not placed", 64_806))
        self.assertEqual(sorted(link["number"] for link in found["links"]), list(range(7)))
        status, out, error = self.printed("--format", "csv", content=late)
        self.assertEqual((status, out, error.splitlines()), (1, "", lines))

    def test_lengths_alone(self) -> None:
        status, out, _ = self.printed(content=document('<TIMEX3 tid="p" type="DURATION" value="P0D">no time</TIMEX3>'))
        self.assertEqual(status, 1)
        last = "d.xml: no placing in seconds: these dates and lengths cannot all be met, 1 second short"
        self.assertEqual(out.splitlines(), ["d.xml:2:1: note: no time lasts 0 s at most", last])

    def test_faults_and_dates_that_touch(self) -> None:
        status, out, _ = self.printed(content="<TimeML>")
        self.assertEqual((status, out.splitlines()[0][:16]), (1, "d.xml:1:1: error"))
        days = '<TIMEX3 tid="a" type="DATE" value="1998-01-08"/><TIMEX3 tid="b" type="DATE" value="1998-01-09"/>'
        touching = document(days + '<TLINK timeID="a" relatedToTime="b" relType="BEFORE"/>')
        self.assertEqual(self.printed(content=touching)[0], 1)
        status, out, _ = self.printed("--touching", content=touching)
        said = "d.xml:2:97: note: read as IBEFORE: 1998-01-08 ends exactly where 1998-01-09 begins, and BEFORE asks for a gap"
        self.assertEqual((status, out.splitlines()[0]), (0, said))
        status, out, error = self.printed("--touching", "--format", "csv", content=touching)
        self.assertEqual((status, len(out.splitlines()), error.count("note: read as IBEFORE")), (0, 3, 1))
        self.assertEqual(self.printed("--touching", content=document("<x/>"))[0], 1)

    def test_what_tml_does_not_confirm_is_not_shown(self) -> None:
        fake = self.fake(f'if [ $1 = confirm ]; then echo seconds Sum; exit 7; fi\nexec {os.path.abspath(TML)} "$@"')
        self.write("d.xml", bridge())
        status, lines, _ = self.run_it("seconds", "d.xml", tml=fake)
        self.assertEqual((status, lines), (2, ["d.xml: not judged: tml confirm did not accept the placing of tml seconds: seconds Sum"]))


@needs_seconds
class Pictures(CorpusTest):
    """Pictures over a true axis of time."""

    def drawn(self, content: str, name: str) -> str:
        """The picture of a document."""
        self.write("d.xml", content)
        status, lines, error = self.run_it("timeline", "--seconds", "d.xml", "-o", name)
        self.assertEqual((status, error), (0, ""), lines)
        return self.read_text(name)

    def test_dates_are_true_to_scale(self) -> None:
        self.drawn(bridge(), "d.svg")
        found = [bar for bar in Picture.read(self.read_text("d.svg")).bars if bar.classes[0] == "full"]
        bars = {bar.name: (bar.left, bar.right - bar.left) for bar in found}
        day = bars["t0"][1]
        self.assertAlmostEqual(bars["t4"][1], day, delta=0.2)
        self.assertAlmostEqual(bars["t2"][1], 2 * day, delta=0.3)
        self.assertAlmostEqual(bars["t0"][0] - bars["t1"][0], 3.5 * day, delta=0.4)
        hollow = [bar.name for bar in Picture.read(self.read_text("d.svg")).bars if bar.classes[0] == "hollow"]
        self.assertEqual(len(hollow), 1)

    def test_what_has_no_limit_is_open(self) -> None:
        content = document(
            '<TIMEX3 tid="a" type="DATE" value="1998-01-08"/><TIMEX3 tid="b" type="SET"/><TLINK timeID="b" relatedToTime="a" '
            'relType="AFTER"/>'
        )
        [bar] = [bar for bar in Picture.read(self.drawn(content, "d.svg")).bars if bar.classes[0] == "hollow"]
        self.assertEqual((bar.name, bar.classes[2:]), ("b", ("open-right",)))

    def test_pages(self) -> None:
        root = ElementTree.fromstring(self.drawn(bridge(), "d.html").split("\n", 1)[1].encode())
        titles = {needed(title.text) for title in root.iterfind(f".//{SVG}g/{SVG}title")}
        rows = {title for one in root.iter(XHTML + "div") if (title := one.get("title"))}
        self.assertEqual((len(rows), len(titles)), (9, 9))
        self.assertIn("more than 30 hours", "".join(titles))
        self.assertEqual(len(list(root.iter(XHTML + "script"))), 4)

    def test_nothing_is_drawn_where_there_is_no_placing(self) -> None:
        self.write("d.xml", bridge().replace("P2D", "P3D"))
        status, lines, _ = self.run_it("timeline", "--seconds", "d.xml", "-o", "d.svg")
        self.assertEqual((status, lines[-1][:32]), (1, "d.xml: no placing in seconds: th"))
        self.assertFalse(os.path.exists(self.path("d.svg")))

    def test_a_document_without_intervals(self) -> None:
        self.assertIn("There is no interval", self.drawn("<TimeML/>", "d.svg"))

    def test_texts_are_escaped(self) -> None:
        content = document('<TIMEX3 tid="a" type="DATE" value="1998">&lt;script&gt;</TIMEX3>')
        self.assertNotIn("<script>", self.drawn(content, "d.svg"))


if __name__ == "__main__":
    unittest.main()
