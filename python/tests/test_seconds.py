"""The reference for `seconds` and `confirm`: against worked examples, and against all placings within a few seconds."""

import itertools
import random
import re
import unittest
from collections import Counter
from collections.abc import Iterator

from corpus import document, text_at
from reference import Outcome, expected, judge, judge_failing
from reference.dates import Bounds, Time
from reference.lengths import Limits, limits_of
from reference.nets import Link, Net
from reference.placings import Cycle, Placing, Timed, is_negative, is_placed, place
from reference.relations import RELATIONS
from reference.seconds import read_seconds, seconds_text

DAY = b"tml-seconds 1\nplacing 2\nat 884217600 884304000\nat 884217600 884304000\nend\n"
CYCLE = b"tml-seconds 1\ncycle 5\nupper 1\nvia 0 1\nleast 1\nvia 0 0\nlower 0\nend\n"


def day_with(relation: str) -> bytes:
    """A date and a duration of one day, with a link from this to that."""
    times = '<TIMEX3 tid="d" type="DATE" value="1998-01-08"/><TIMEX3 tid="p" type="DURATION" value="P1D"/>'
    return document(f'{times}<TLINK timeID="p" relatedToTime="d" relType="{relation}"/>').encode()


def all_within(seconds: int, points: int) -> Iterator[tuple[int, ...]]:
    """All lists of so many seconds, of the seconds from 0 up."""
    return itertools.product(range(seconds), repeat=points)


class Lengths(unittest.TestCase):
    """How long a time lasts."""

    def limits(self, value: bytes | None, modifier: bytes | None = None, kind: bytes = b"DURATION") -> Limits:
        return limits_of(Time(kind, modifier, value))

    def test_counts(self) -> None:
        for value, length in (
            (b"P1D", 86_400), (b"PT1S", 1), (b"P2W", 1_209_600), (b"P1W1DT1H1M1S", 694_861), (b"P0D", 0), (b"PT0S", 0),
            (b"P000000007D", 604_800), (b"P999999999WT999999999S", 604_800 * 999_999_999 + 999_999_999),
        ):  # fmt: skip
            self.assertEqual(self.limits(value), Limits(length, length), value)

    def test_what_has_no_length(self) -> None:
        for value in (
            b"P1Y", b"P1M", b"P0Y1D", b"P0M", b"PXD", b"P1DTXH", b"P", b"PT", b"P1DT", b"P1", b"1D", b"PT1D", b"P1H", b"P1S", b"P1D1W",
            b"P1234567890D", b"P-1D", b"P1.5D", b"p1d", b"P1D ", b"P1D\n", b"1998", b"",
        ):  # fmt: skip
            self.assertEqual(self.limits(value), Limits(), value)
        self.assertEqual(limits_of(None), Limits())
        self.assertEqual(self.limits(None), Limits())
        for kind in (b"DATE", b"TIME", b"SET"):
            self.assertEqual(self.limits(b"P1D", None, kind), Limits())

    def test_the_table_of_the_page_on_dates(self) -> None:
        rows = re.findall(r"^\| `([^`]+)` \| (.*?) \| (\d*) \| (\d*) \| .* \|$", text_at("docs/DATES.md"), re.MULTILINE)
        self.assertGreater(len(rows), 12)
        for value, words, least, most in (map(str.strip, row) for row in rows):
            kind = words if words in ("SET", "DATE") else "DURATION"
            modifier = words.strip("`").encode() if words.startswith("`") else None
            wanted = Limits(int(least) if least else None, int(most) if most else None)
            self.assertEqual(self.limits(value.encode(), modifier, kind.encode()), wanted, (value, words))

    def test_modifiers(self) -> None:
        for modifier, limits in (
            (b"LESS_THAN", Limits(None, 59)), (b"EQUAL_OR_LESS", Limits(None, 60)), (b"MORE_THAN", Limits(61, None)),
            (b"EQUAL_OR_MORE", Limits(60, None)), (b"APPROX", Limits()), (b"START", Limits()), (b"MID", Limits()), (b"BEFORE", Limits()),
        ):  # fmt: skip
            self.assertEqual(self.limits(b"PT1M", modifier), limits, modifier)
        self.assertEqual(self.limits(b"P0D", b"LESS_THAN"), Limits(None, -1))


class Placings(unittest.TestCase):
    """Placings, and the cycles where there is none."""

    def nets(self, count: int) -> Iterator[Timed]:
        """Nets of one to three intervals within a few seconds, with limits and links."""
        for number in range(count):
            draw = random.Random(f"seconds {number}")
            size = draw.choice((1, 2, 2, 3))
            bounds, limits = [], []
            for _ in range(size):
                low = draw.randrange(4)
                bounds.append(Bounds(draw.randrange(2) == 0, low, low + draw.randint(1, 4 - low)))
                least, most = draw.choice((None, draw.randrange(-1, 4))), draw.choice((None, draw.randrange(5)))
                limits.append(Limits(least, most))
            links = [Link(draw.randrange(size), draw.choice(RELATIONS), draw.randrange(size)) for _ in range(draw.randrange(3))]
            yield Timed(Net(tuple(bounds), tuple(links)), tuple(limits))

    def test_there_is_a_placing_exactly_where_one_of_all_is(self) -> None:
        kinds: Counter[str] = Counter()
        for timed in self.nets(400):
            found = place(timed)
            one = next((seconds for seconds in all_within(5, timed.net.points()) if is_placed(timed, seconds)), None)
            self.assertEqual(isinstance(found, Placing), one is not None, timed)
            right = is_placed(timed, found.seconds) if isinstance(found, Placing) else is_negative(timed, found.lines)
            self.assertTrue(right, timed)
            self.assertEqual(read_seconds(seconds_text(found)), found)
            kinds[type(found).__name__] += 1
        self.assertGreater(min(kinds.values()), 50)

    def test_cycles_are_short(self) -> None:
        for timed in self.nets(400):
            found = place(timed)
            if isinstance(found, Cycle):
                self.assertLessEqual(len(found.lines), timed.origin() + 1)

    def test_worked_examples(self) -> None:
        files = {b"during": day_with("DURING"), b"inside": day_with("IS_INCLUDED"), b"day": DAY, b"cycle": CYCLE}
        self.assertIsNone(judge([b"seconds", b"during"], files, Outcome(0, DAY)))
        self.assertIsNone(judge([b"seconds", b"inside"], files, Outcome(2, CYCLE)))
        for words, status, text in (
            ([b"confirm", b"during", b"day"], 0, b"confirmed placing\n"),
            ([b"confirm", b"inside", b"cycle"], 0, b"confirmed cycle\n"),
            ([b"confirm", b"during", b"cycle"], 7, b"seconds Sum\n"),
            ([b"confirm", b"inside", b"day"], 7, b"seconds Link 0\n"),
            ([b"confirm", b"during", b"none"], 4, b"read fault\n"),
            ([b"confirm", b"day", b"none"], 1, b"fault 7 Misplaced 0\n"),
        ):
            self.assertEqual(expected(words, files), Outcome(status, text), words)

    def test_reasons(self) -> None:
        files = {b"during": day_with("DURING")}
        for lines, text in (
            (b"placing 1\nat 0 1\n", b"seconds Size 1\n"),
            (b"placing 2\nat 0 1\nat 1 1\n", b"seconds Order 1\n"),
            (b"placing 2\nat 0 1\nat 0 2\n", b"seconds Link 0\n"),
            (b"placing 2\nat 884217600 884304001\nat 884217600 884304001\n", b"seconds Bound 1\n"),
            (b"placing 2\nat 884217600 884304000\nat 884217600 884303999\n", b"seconds Length 1\n"),
            (b"placing 1\nat -0 1\n", b"evidence line 3\n"),
            (b"cycle 0\n", b"seconds Sum\n"),
            (b"cycle 1\nspan 0\n", b"seconds End\n"),
            (b"cycle 2\nspan 0\nspan 0\n", b"seconds Step 1\n"),
            (b"cycle 1\nleast 0\n", b"seconds Step 0\n"),
        ):
            files[b"e"] = b"tml-seconds 1\n" + lines + b"end\n"
            self.assertEqual(expected([b"confirm", b"during", b"e"], files), Outcome(7, text), lines)


class Texts(unittest.TestCase):
    """The text of placings and cycles."""

    def test_bad_lines(self) -> None:
        for text, line in (
            (b"", 1), (b"tml-seconds 1", 1), (b"tml-seconds 1\n", 2), (b"tml-seconds 2\n", 1), (b"tml-seconds 1\nplacing 4294967296\n", 2),
            (b"tml-seconds 1\nplacing 4294967295\n", 3), (b"tml-seconds 1\nplacing 1\nat 0 9223372036854775808\nend\n", 3),
            (b"tml-seconds 1\nplacing 1\nat -9223372036854775809 0\nend\n", 3), (b"tml-seconds 1\nplacing 1\nat 0 01\nend\n", 3),
            (b"tml-seconds 1\nplacing 0\nend", 3), (b"tml-seconds 1\nplacing 0\nend\n\n", 4), (b"tml-seconds 1\nplacing 0\r\nend\n", 2),
            (b"tml-seconds 1\ncycle 1\nvia 0\nend\n", 3), (b"tml-seconds 1\ncycle 1\nspan -1\nend\n", 3),
        ):  # fmt: skip
            self.assertEqual(read_seconds(text), line, text)

    def test_the_least_and_the_greatest_second(self) -> None:
        text = b"tml-seconds 1\nplacing 1\nat -9223372036854775808 9223372036854775807\nend\n"
        self.assertEqual(read_seconds(text), Placing((-(2**63), 2**63 - 1)))

    def test_a_text_that_is_cut_off(self) -> None:
        files = {b"d": day_with("DURING")}
        for room in range(len(DAY)):
            outcome = Outcome(5, DAY[:room])
            self.assertIsNone(judge_failing([b"seconds", b"d"], files, outcome, reads_failed=False, room=room))
        wrong = Outcome(5, b"tml-evidence 2\n")
        self.assertIsNotNone(judge_failing([b"seconds", b"d"], files, wrong, reads_failed=False, room=len(wrong.text)))


if __name__ == "__main__":
    unittest.main()
