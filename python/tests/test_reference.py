"""The reference of `python/dev/reference`: against the worked examples of the documentation, against itself, and against `tml`."""

import datetime
import functools
import itertools
import os
import random
import re
import subprocess
import unittest
from collections.abc import Callable, Iterable, Iterator, Mapping, Sequence
from pathlib import Path

from corpus import EVENT, INSTANCE, TML, TOP, CorpusTest, document, needs_matrix, needs_score, of_type, text_at
from reference import Free, Outcome, expected, judge, judge_failing
from reference.checking import first_refusal, is_supported, refusal
from reference.civil import date_of, day_of, first_week, weeks_of_year
from reference.dates import Bounds, extent
from reference.evidence import Clash, Counterexample, Entailment, Evidence, Timeline, read_claims, text_of, text_of_claims
from reference.nets import Calendar, Link, Net, Ranks, Span, Step, Via, fits, interval_at, keeps_calendar
from reference.possible import Row, least_of_each, possible_by_closure, possible_rows, possible_tried
from reference.relations import BASE_RELATIONS, RELATIONS, Order, holds, orders_of
from reference.timelines import all_timelines, closure, least_raised, least_tried, orders_that_fit, rows_of_closure, rows_tried
from tml.statuses import EVIDENCE_LIMIT

LeastOfPairs = dict[tuple[int, int], dict[bytes, Ranks]]
"""Of each pair of intervals the relations that are possible, each with its least timeline."""

COMMANDS = ("spans", "check", "dates", "solve", "relations", "canon")


def samples() -> dict[bytes, bytes]:
    """The files that the pages speak of: the samples, and what the tour makes of one of them."""
    paths = [path for path in Path(TOP, "samples").rglob("*") if path.is_file()]
    files = {path.relative_to(TOP).as_posix().encode(): path.read_bytes() for path in paths}
    lines = text_at("samples/port.xml").splitlines(keepends=True)
    mended = "".join(line.replace("DURING", "AFTER") if 'lid="l6"' in line else line for line in lines)
    return {**files, b"mended.xml": mended.encode()}


def outcome(line: str, **files: bytes) -> Outcome:
    """The one outcome of the words of a line, over files with these names."""
    named = {name.encode(): content for name, content in files.items()}
    return of_type(Outcome, expected([word.encode() for word in line.split()], named))


def blocks(text: str) -> Iterator[tuple[str, str]]:
    """Of each command of the examples of a page its words after `$`, and the lines that it prints."""
    for block in re.findall(r"^```console\n(.*?)^```$", text, re.MULTILINE | re.DOTALL):
        for example in re.split(r"^\$ ", block, flags=re.MULTILINE)[1:]:
            command, _, printed = example.partition("\n")
            yield command, printed


def timelines_of_order(points: frozenset[int], open_intervals: frozenset[int]) -> Iterator[dict[int, int]]:
    """All ranks of some intervals without a gap: of each rank which points have it, where no end comes before or with its start."""
    if not points:
        yield {}
        return
    free = [point for point in points if point % 2 == 0 or point // 2 in open_intervals]
    for count in range(1, len(free) + 1):
        for first in itertools.combinations(free, count):
            opened = open_intervals | {point // 2 for point in first if point % 2 == 0}
            for later in timelines_of_order(points - set(first), opened):
                yield {**{point: 0 for point in first}, **{point: rank + 1 for point, rank in later.items()}}


def all_by_order(intervals: int) -> list[Ranks]:
    """All timelines of some intervals, made in another way than the reference makes them."""
    return [tuple(one[point] for point in range(2 * intervals)) for one in timelines_of_order(frozenset(range(2 * intervals)), frozenset())]


def random_net(draw: random.Random, intervals: int) -> Net:
    """A net of so many intervals, with few dates and links, so that some clash and some don't."""
    bounds: list[Bounds | None] = []
    for _ in range(intervals):
        low = draw.randrange(4)
        bounds.append(draw.choice([None, Bounds(draw.randrange(2) == 0, low, low + draw.randint(1, 3))]))
    links = [Link(draw.randrange(intervals), draw.choice(RELATIONS), draw.randrange(intervals)) for _ in range(draw.randrange(5))]
    return Net(tuple(bounds), tuple(links))


class Definitions(unittest.TestCase):
    """What the reference says in two ways is the same."""

    def test_orders_say_the_relation(self) -> None:
        for ranks, relation, (left, right) in itertools.product(all_timelines(2), RELATIONS, itertools.product(range(2), repeat=2)):
            wanted = holds(interval_at(ranks, left), relation, interval_at(ranks, right))
            self.assertEqual(all(order.is_true(ranks) for order in orders_of(left, relation, right)), wanted)

    def test_exactly_one_base_relation_holds(self) -> None:
        base = set(RELATIONS) - {b"IDENTITY", b"DURING", b"DURING_INV"}
        self.assertEqual(len(base), 13)
        for first, second in itertools.product(itertools.combinations(range(5), 2), repeat=2):
            true = [relation for relation in RELATIONS if holds(first, relation, second)]
            self.assertEqual(len(base.intersection(true)), 1, (first, second))
            self.assertEqual(b"OVERLAPS" in true, first[0] < second[0] < first[1] < second[1])

    def test_timelines_that_are_tried_and_walks_say_the_same(self) -> None:
        fitting = 0
        for number in range(200):
            draw = random.Random(number)
            net = random_net(draw, draw.randint(1, 3))
            links = [link for link in range(len(net.links)) if draw.randrange(4)]
            order = Order(draw.randrange(net.points()), draw.randrange(net.points()), draw.randrange(2) == 0)
            none: list[Order] = []
            for further in (none, [order], [order.negation()]):
                ranks = draw.choice(all_timelines(net.intervals()))
                self.assertEqual(keeps_calendar(net, ranks), all(order.is_true(ranks) for order in net.calendar_orders()), (net, ranks))
                raised = least_raised(net.points(), orders_that_fit(net, links) + further)
                self.assertEqual(raised, least_tried(net, links, further), net)
            every = range(len(net.links))
            if least_tried(net, every) is None:
                continue
            fitting += 1
            self.assertEqual(rows_of_closure(net), rows_tried(net), net)
            self.assertEqual(closure(net).says(order), least_tried(net, every, [order.negation()]) is None, (net, order))
        self.assertGreater(fitting, 50)

    def test_days_and_weeks_are_those_of_python(self) -> None:
        draw = random.Random(0)
        for number in [*range(2000), *(draw.randrange(3_652_059) for _ in range(2000)), 3_652_058]:
            day = datetime.date.fromordinal(number + 1)
            year, week, weekday = day.isocalendar()
            self.assertEqual((date_of(number), day_of(day.year, day.month, day.day)), ((day.year, day.month, day.day), number))
            self.assertEqual(first_week(year) + 7 * (week - 1) + weekday - 1, number)
            self.assertIn(week, range(1, weeks_of_year(year) + 1))
        self.assertEqual(date_of(3_652_059), (10_000, 1, 1))

    def test_extents_are_those_of_sets_of_days(self) -> None:
        days = [datetime.date(1979, 1, 1) + datetime.timedelta(one) for one in range(8800)]
        texts = {shape: [day.strftime(shape) for day in days] for shape in ("%Y", "%Y-%m", "%Y-%m-%d", "%G", "%G-W%V", "%G-W%V-%u")}
        texts["quarter"] = [f"{day.year}-Q{(day.month + 2) // 3}" for day in days]
        texts["half"] = [f"{day.year}-H{1 if day.month < 7 else 2}" for day in days]
        chosen = {shape: random.Random(shape).sample(of_days[800:-800], 15) for shape, of_days in texts.items() if shape != "%G"}
        values = [(value, value, shape) for shape, some in chosen.items() for value in some]
        values += [("198", "198", "%Y"), ("199", "199", "%Y"), ("1988-HX", "1988", "%Y"), ("198X-H2", "198", "%Y")]
        values += [("198X", "198", "%Y"), ("199X-02-29", "199", "%Y"), ("1988-XX-03", "1988", "%Y"), ("1988-QX", "1988", "%Y")]
        values += [("1988-02-XX", "1988-02", "%Y-%m"), ("1988-02-03TXX", "1988-02-03", "%Y-%m-%d"), ("1988-W03-X", "1988-W03", "%G-W%V")]
        values += [("198X-WXX", "198", "%G"), ("198X-W01-1", "198", "%G"), ("1988-WXX-3", "1988", "%G")]
        for value, known, shape in values:
            belonging = [day.toordinal() for day, text in zip(days, texts[shape], strict=True) if text.startswith(known)]
            low, high = ((one - 719_163) * 86_400 for one in (min(belonging), max(belonging) + 1))
            self.assertEqual(extent(value.encode()), (low, high), value)

    def test_evidence_is_supported_where_it_is_not_refused(self) -> None:
        for number in range(800):
            draw = random.Random(number)
            net = random_net(draw, draw.randint(1, 3))
            evidence = self.evidence(draw, net)
            self.assertEqual(is_supported(net, evidence), refusal(net, evidence) is None, (net, evidence))
            claims = (evidence, *(self.evidence(draw, net) for _ in range(draw.randrange(3))))
            refusals = [(claim, *found) for claim, one in enumerate(claims) if (found := refusal(net, one))]
            self.assertEqual(first_refusal(net, claims), refusals[0] if refusals else None)
            self.assertEqual((read_claims(text_of(evidence)), read_claims(text_of_claims(claims))), ((evidence,), claims))

    def evidence(self, draw: random.Random, net: Net) -> Evidence:
        """Evidence of a random kind, which is often nearly right."""
        ranks = draw.choice([*all_timelines(net.intervals())[:40], (0, 1), least_tried(net, range(len(net.links))) or (1, 0)])
        left, right, relation = draw.randrange(4), draw.randrange(3), draw.choice(RELATIONS)
        kind = draw.randrange(4)
        if kind == 0:
            return Timeline(ranks)
        if kind == 1:
            return Entailment(left, relation, right, tuple(self.steps(draw, net) for _ in orders_of(left, relation, right)))
        if kind == 2:
            return Counterexample(left, relation, right, ranks)
        cites = tuple(sorted(draw.sample(range(len(net.links) + 1), draw.randrange(len(net.links) + 2))))
        return Clash(cites, self.steps(draw, net), tuple(ranks for _ in cites))

    def steps(self, draw: random.Random, net: Net) -> tuple[Step, ...]:
        """A few steps."""
        points = net.points() + 1
        made: tuple[Callable[[], Step], ...] = (
            lambda: Via(draw.randrange(4), draw.randrange(3)),
            lambda: Span(draw.randrange(4)),
            lambda: Calendar(draw.randrange(points), draw.randrange(points)),
        )
        return tuple(draw.choice(made)() for _ in range(draw.randrange(4)))


@functools.cache
def base_relation(first: tuple[int, int], second: tuple[int, int]) -> bytes:
    """The one base relation that holds of two intervals, by their starts and ends."""
    [relation] = [one for one in BASE_RELATIONS if holds(first, one, second)]
    return relation


class PossibleRelations(unittest.TestCase):
    """Which base relations are possible, and the least timelines that have them."""

    def rows_by_brute_force(self, net: Net, timelines: Iterable[Ranks]) -> tuple[list[Row], LeastOfPairs] | None:
        """The rows, and of each pair the least timelines, by all timelines; none where none fits."""
        found = [ranks for ranks in timelines if fits(net, ranks, range(len(net.links)))]
        rows: list[Row] = []
        least: LeastOfPairs = {}
        for left, right in itertools.product(range(net.intervals()), repeat=2):
            having: dict[bytes, list[Ranks]] = {relation: [] for relation in BASE_RELATIONS}
            for ranks in found:
                having[base_relation(interval_at(ranks, left), interval_at(ranks, right))].append(ranks)
            least[left, right] = {one: tuple(map(min, zip(*some, strict=True))) for one, some in having.items() if some}
            if left < right:
                rows.append((left, right, tuple(least[left, right])))
        return (rows, least) if found else None

    def test_nets_by_brute_force(self) -> None:
        fitting, undecided = 0, 0
        for intervals, nets in ((1, 5), (2, 120), (3, 60), (4, 8)):
            timelines = all_by_order(intervals)
            if intervals <= 3:
                self.assertEqual(sorted(timelines), sorted(all_timelines(intervals)))
            for number in range(nets):
                net = random_net(random.Random(f"{intervals} {number}"), intervals)
                found = self.rows_by_brute_force(net, timelines)
                if found is None:
                    continue
                rows, least = found
                self.assertEqual(list(possible_rows(net)), rows, net)
                self.assertEqual(list(possible_by_closure(net)), rows, net)
                for (left, right), wanted in least.items():
                    self.assertEqual(least_of_each(net, left, right), wanted, (net, left, right))
                fitting, undecided = fitting + 1, undecided + sum(1 < len(one) < 13 for _, _, one in rows)
        self.assertGreater(fitting, 60)
        self.assertGreater(undecided, 10)

    def test_closures_and_timelines_that_are_tried_say_the_same(self) -> None:
        for number in range(150):
            net = random_net(random.Random(f"possible {number}"), random.Random(number).randint(1, 3))
            if least_tried(net, range(len(net.links))) is not None:
                self.assertEqual(list(possible_by_closure(net)), list(possible_tried(net)), net)

    def test_possible_and_entailed_say_the_same_of_one(self) -> None:
        for number in range(60):
            net = random_net(random.Random(f"one {number}"), 5)
            if least_raised(net.points(), orders_that_fit(net, range(len(net.links)))) is None:
                continue
            decided = [(left, *found, right) for left, right, found in possible_rows(net) if len(found) == 1]
            self.assertEqual(decided, [row for row in rows_of_closure(net) if row[1] in BASE_RELATIONS], net)

    HEAD = document(EVENT + "".join(f'<MAKEINSTANCE eiid="{name}" eventID="e1"/>' for name in "abc"))

    def test_answers(self) -> None:
        link = '<TLINK eventInstanceID="a" relatedToEventInstance="b" relType="%s"/></TimeML>'
        plain, during = self.HEAD.encode(), self.HEAD.replace("</TimeML>", link % "DURING").encode()
        clash = during.replace(b"</TimeML>", (link % "BEFORE").encode())
        timelines = {
            "IS_INCLUDED": ("1 2", "0 3", "0 1"),
            "SIMULTANEOUS": ("0 1", "0 1", "0 1"),
            "BEGINS": ("0 1", "0 2", "0 1"),
            "ENDS": ("1 2", "0 2", "0 1"),
        }
        parts = (f"relation {one}\ntimeline 3\n" + "".join(f"at {pair}\n" for pair in ranks) for one, ranks in timelines.items())
        text = "possible 4\n" + "".join(parts)
        same = "possible 1\nrelation SIMULTANEOUS\ntimeline 3\nat 0 1\nat 0 1\nat 0 1\n"
        rows = [
            (during, "possible d a b", 0, text),
            (plain, "possible d a a", 0, same),
            (plain, "possible d x y", 8, "unknown X\n"),
            (plain, "possible d a e1", 8, "unknown Y\n"),
            (clash, "possible d a y", 8, "unknown Y\n"),
            (b"<TimeML", "possible d x y", 1, "fault 3 BadMarkup 0\n"),
            (b"<TimeML", "matrix d", 1, "fault 3 BadMarkup 0\n"),
            (b"<TimeML/>", "matrix d", 0, ""),
            (plain, "matrix e", 4, "read fault\n"),
        ]
        for content, line, status, printed in rows:
            found = expected([word.encode() for word in line.split()], {b"d": content})
            self.assertEqual(found, Outcome(status, printed.encode()), line)
        first, *others = outcome("matrix d", d=during).text.decode().splitlines()
        every = " ".join(map(bytes.decode, BASE_RELATIONS))
        self.assertEqual((first, others), ("a b IS_INCLUDED SIMULTANEOUS BEGINS ENDS", [f"a c {every}", f"b c {every}"]))
        for line in ("possible d a b", "matrix d"):
            words = [word.encode() for word in line.split()]
            self.assertEqual(expected(words, {b"d": clash}).status, 2)
            evidence = b"clash 2\ncite 0\ncite 1\nwalk 3\nvia 1 0\nvia 0 0\nspan 0\n"
            spares = b"timeline 3\nat 0 1\nat 2 3\nat 0 1\ntimeline 3\nat 0 1\nat 0 1\nat 0 1\n"
            self.assertIsNone(judge(words, {b"d": clash}, Outcome(2, b"tml-evidence 2\nclaims 1\n" + evidence + spares + b"end\n")))

    def test_words(self) -> None:
        for line in ("possible d", "possible d a", "possible d a b c", "possible", "matrix", "matrix d d", "Matrix d"):
            found = outcome(line, d=b"<TimeML/>")
            self.assertEqual(found.status, 3, line)
            self.assertLessEqual({b"tml possible DOC X Y", b"tml matrix DOC"}, set(found.text.splitlines()), line)


class Overlaps(unittest.TestCase):
    """The relations that TimeML does not have."""

    DOCUMENT = document(
        '<TIMEX3 tid="a" type="SET"/><TIMEX3 tid="b" type="SET"/><TLINK timeID="a" relatedToTime="b" relType="OVERLAPS"/>'
    ).encode()

    def test_answers(self) -> None:
        proof = b"entails 1 OVERLAPPED_BY 0\nwalk 1\nvia 0 0\nwalk 1\nvia 0 1\nwalk 1\nvia 0 2\n"
        rows = [
            ([b"relations", b"-"], b"a OVERLAPS b\n"),
            ([b"solve", b"-"], b"tml-evidence 2\nclaims 1\ntimeline 2\nat 0 2\nat 1 3\nend\n"),
            ([b"ask", b"-", b"b", b"OVERLAPPED_BY", b"a"], b"tml-evidence 2\nclaims 1\n" + proof + b"end\n"),
        ]
        for words, text in rows:
            self.assertIsNone(judge(words, {b"-": self.DOCUMENT}, Outcome(0, text)), words)

    def test_overlap_is_no_relation(self) -> None:
        refused = self.DOCUMENT.replace(b"OVERLAPS", b"OVERLAP")
        self.assertEqual(outcome("check d", d=refused).text.split()[:3], [b"fault", b"11", b"BadValue"])
        self.assertEqual(expected([b"ask", b"-", b"a", b"OVERLAP", b"b"], {b"-": self.DOCUMENT}), Outcome(8, b"unknown REL\n"))

    def test_drills_are_those_of_fourteen_relations(self) -> None:
        for number, figures in {3: (736, 6, 5, 3), 10: (2634, 23, 7, 22)}.items():
            printed = outcome(f"drill {number}").text.split()
            self.assertEqual(tuple(map(int, printed[3:10:2])), figures)


class Pages(unittest.TestCase):
    """What the pages print of their examples."""

    def test_smallest_documents_of_the_page_on_faults(self) -> None:
        found = re.findall(r"^Smallest: `([^`\n]+)`\s\(`(fault .*?)`\)", text_at("docs/FAULTS.md"), re.MULTILINE)
        times = "".join(f'<TIMEX3 tid="t{one:04}" type="DATE"/>' for one in range(1025))
        links = 4097 * '<TLINK timeID="t0000" relatedToTime="t0000" relType="IDENTITY"/>'
        made = [
            ("\N{LATIN SMALL LETTER Y WITH DIAERESIS}", "fault 1 NotUtf8 0"),
            ("", "fault 6 Unclosed 0"),
            ("<TimeML>" + 32 * "<P>", "fault 8 TooDeep 101"),
            (f"<TimeML>{times}</TimeML>", "fault 16 TooManyIntervals 33800"),
            (f'<TimeML><TIMEX3 tid="t0000" type="DATE"/>{links}</TimeML>', "fault 17 TooManyLinks 262185"),
        ]
        self.assertEqual(len({line.split()[1] for _, line in found + made}), 17)
        for text, line in found + made:
            self.assertEqual(expected([b"check", b"-"], {b"-": text.encode("latin-1")}), Outcome(1, f"{line}\n".encode()), text)

    def test_values_of_the_page_on_dates(self) -> None:
        rows = re.findall(r"^\| `([^`]+)` \| (.*?) \| `((?:exact|within|free|fault) ?.*?)` \|", text_at("docs/DATES.md"), re.MULTILINE)
        self.assertGreater(len(rows), 50)
        for value, words, printed in rows:
            kind = words if words in ("TIME", "DURATION", "SET") else "DATE"
            modifier = f' mod="{words.strip("`")}"' if "`" in words else ""
            text = f'<TimeML><TIMEX3 tid="t" type="{kind}" value="{value}"{modifier}/></TimeML>'.encode()
            wanted = Outcome(1, f"{printed}\n".encode()) if printed.startswith("fault") else Outcome(0, f"t {printed}\n".encode())
            self.assertEqual(expected([b"dates", b"-"], {b"-": text}), wanted, value)

    def test_commands_of_the_pages(self) -> None:
        files, asked = samples(), 0
        for name in ("README.md", "docs/TOUR.md", "docs/CLASHES.md"):
            for command, printed in blocks(text_at(name)):
                words = command.split()
                if words[0] != "tml" or "|" in words or ">" in words or (words[1] != "drill" and words[2].encode() not in files):
                    continue
                asked += 1
                self.is_printed([word.encode() for word in words[1:]], files, printed)
        self.assertGreater(asked, 8)

    def is_printed(self, words: Sequence[bytes], files: Mapping[bytes, bytes], printed: str) -> None:
        """What a page prints is right; where it leaves lines out, these are not asked."""
        wanted = expected(words, files)
        if "...\n" not in printed:
            self.assertIsNone(judge(words, files, Outcome(wanted.status, printed.encode())))
        elif isinstance(wanted, Outcome):
            pattern = ".*\n".join(map(re.escape, printed.split("...\n")))
            self.assertRegex(wanted.text.decode(), re.compile(f"^{pattern}$", re.DOTALL))

    def test_a_clash_that_a_page_prints_and_others_that_are_wrong(self) -> None:
        files, talks = samples(), b"samples/talks.xml"
        right = dict(blocks(text_at("docs/CLASHES.md")))["tml solve samples/talks.xml"].encode()
        slips = ((b"at 4 5\n", b"at 4 6\n"), (b"cite 2\n", b""), (b"clash 3", b"clash 2"), (b"via 2 1", b"via 2 0"), (b"end\n", b"end"))
        for words in ([b"solve", talks], [b"relations", talks], [b"ask", talks, b"t1", b"ENDS", b"t2"]):
            self.assertIsNone(judge(words, files, Outcome(2, right)))
            self.assertIsNotNone(judge(words, files, Outcome(0, right)))
            for old, new in slips:
                self.assertIn(old, right)
                self.assertIsNotNone(judge(words, files, Outcome(2, right.replace(old, new, 1))), old)


class Failing(unittest.TestCase):
    """Reads that fail, and sinks with little room."""

    def test_reads(self) -> None:
        files = {b"d": b"<TimeML/>"}
        fault = Outcome(4, b"read fault\n")
        self.assertEqual(expected([b"check", b"e"], files), fault)
        self.assertIsNone(judge_failing([b"spans", b"d"], files, fault, reads_failed=True, room=None))
        self.assertIsNone(judge_failing([b"spans", b"d"], files, Outcome(0, b"0 9 empty TimeML\n"), reads_failed=True, room=None))
        self.assertIsNotNone(judge_failing([b"spans", b"d"], files, fault, reads_failed=False, room=None))
        self.assertIsNotNone(judge_failing([b"drill", b"1"], files, fault, reads_failed=True, room=None))

    def test_room(self) -> None:
        words, files, text = [b"spans", b"d"], {b"d": b"<TimeML/>"}, b"0 9 empty TimeML\n"
        for room, outcome, right in (
            (17, Outcome(0, text), True),
            (16, Outcome(5, text[:16]), True),
            (16, Outcome(5, text[:15]), False),
            (16, Outcome(0, text[:16]), False),
            (16, Outcome(0, text), False),
            (0, Outcome(5, b""), True),
        ):
            self.assertEqual(judge_failing(words, files, outcome, reads_failed=False, room=room) is None, right, (room, outcome))
        self.assertIsNone(judge_failing(words, {b"d": b"<"}, Outcome(1, b"fault"), reads_failed=False, room=5))
        self.assertIsNone(judge_failing([b"dates", b"d"], files, Outcome(0, b""), reads_failed=False, room=0))


class Program(CorpusTest):
    """What `tml` prints is what the reference says."""

    def is_right(self, words: Sequence[bytes], files: Mapping[bytes, bytes]) -> bytes:
        """Runs the program over files of these contents."""
        for name, content in files.items():
            self.write(name.decode(), content)
        program = os.path.abspath(TML).encode()
        run = subprocess.run([program, *words], cwd=self.folder, capture_output=True, stdin=subprocess.DEVNULL, check=False)
        self.assertEqual(run.stderr, b"")
        self.assertIsNone(judge(words, files, Outcome(run.returncode, run.stdout)), words)
        return run.stdout

    def test_samples(self) -> None:
        files = samples()
        names = sorted(name for name in files if name.endswith(b".xml"))
        for name, command in itertools.product(names, COMMANDS):
            text = self.is_right([command.encode(), name], files)
            if command == "solve":
                self.is_right([b"verify", name, b"evidence"], {**files, b"evidence": text})

    @needs_matrix
    def test_what_is_possible(self) -> None:
        files = samples()
        for name in sorted(name for name in files if name.endswith(b".xml")):
            self.is_right([b"matrix", name], files)
        files = {b"d": files[b"samples/rates.xml"]}
        for left, right in itertools.product([b"ei1", b"t1", b"e1"], [b"t0", b"ei1", b"ei2"]):
            self.is_right([b"possible", b"d", left, right], files)

    @needs_score
    def test_reduced_links_and_scores(self) -> None:
        files = samples()
        names = sorted(name for name in files if name.endswith(b".xml"))
        for name, other in itertools.product(names, repeat=2):
            self.is_right([b"score", name, other], files)
        for name in names:
            self.is_right([b"reduce", name], files)

    def test_questions(self) -> None:
        files = {b"d": samples()[b"samples/rates.xml"]}
        for left, right, relation in itertools.product([b"ei1", b"t1"], [b"t0", b"ei1", b"ei2"], RELATIONS[::2]):
            text = self.is_right([b"ask", b"d", left, relation, right], files)
            self.is_right([b"verify", b"d", b"evidence"], {**files, b"evidence": text})

    def test_words(self) -> None:
        files = {b"d": document(EVENT + INSTANCE).encode()}
        self.is_right([b"check", b"\xff"], files)
        lines = ("spans", "check e", "drill 0", "drill 7", "drill 07", "ask d i1 LATER i2", "ask d i2 LATER i1", "verify d e", "canon d d")
        for line in lines:
            self.is_right([word.encode() for word in line.split()], files)


PROOF = b"tml-evidence 1\nentails 0 BEFORE 2\nwalk 3\nvia 0 0\nspan 1\nvia 1 0\nend\n"
TIMELINE = b"tml-evidence 1\ntimeline 3\nat 0 1\nat 2 3\nat 4 5\nend\n"
BOTH = b"tml-evidence 2\nclaims 2\n" + PROOF[15:-4] + TIMELINE[15:-4] + b"end\n"
CHAIN = document(
    EVENT
    + "".join(f'<MAKEINSTANCE eiid="{name}" eventID="e1"/>' for name in "abc")
    + "".join(f'<TLINK eventInstanceID="{a}" relatedToEventInstance="{b}" relType="BEFORE"/>' for a, b in (("a", "b"), ("b", "c")))
).encode()


def claims(number: int, *bodies: bytes) -> bytes:
    """A text of version 2."""
    return b"tml-evidence 2\nclaims %d\n%send\n" % (number, b"".join(bodies))


class Texts(unittest.TestCase):
    """The bad lines of texts that are evidence but for a line."""

    def test_bad_lines(self) -> None:
        clash = Clash((1, 2), (Span(0), Via(1, 0)), ((0, 1), (0, 1)))
        proof = Entailment(0, b"ENDS", 1, ((), (Via(0, 0),), (Calendar(0, 1), Span(0))))
        counter = Counterexample(0, b"AFTER", 1, (0, 1))
        ones = (Timeline(()), Timeline((0, 1)), clash, proof, counter)
        self.assertEqual(read_claims(text_of_claims(ones)), ones)
        for right in (text_of(clash), text_of_claims((clash,)), text_of_claims(ones)):
            lines = right.splitlines(keepends=True)
            for number in range(len(lines)):
                before, line, after = b"".join(lines[:number]), lines[number], b"".join(lines[number + 1 :])
                self.assertEqual(read_claims(before), number + 1)
                for wrong in (line[:-1] + b"\r\n", b" " + line, b"\n" + line, line.upper() if line != line.upper() else b"x\n"):
                    self.assertEqual(read_claims(before + wrong + after), number + 1, wrong)
            self.assertEqual(read_claims(right[:-1]), len(lines))
            self.assertEqual(read_claims(right + b"\n"), len(lines) + 1)
            self.assertEqual(read_claims(right + b"x"), len(lines) + 1)

    def test_bad_numbers(self) -> None:
        for head, before in ((b"tml-evidence 1\n", 1), (b"tml-evidence 2\nclaims 2\ntimeline 0\n", 3)):
            self.assertEqual(read_claims(head + b"clash 2\ncite 4294967295\n"), before + 2)
            self.assertEqual(read_claims(head + b"clash 2\ncite 4294967294\ncite 4294967295\n"), before + 4)
            self.assertEqual(read_claims(head + b"timeline 4294967296\n"), before + 1)
            self.assertEqual(read_claims(head + b"timeline 01\n"), before + 1)
        for number in (b"0", b"01", b"", b"-1", b"+1", b"4294967296", b"1 ", b" 1", b"1.0", b"99999999999"):
            self.assertEqual(read_claims(b"tml-evidence 2\nclaims %s\ntimeline 0\nend\n" % number), 2, number)
        self.assertEqual(read_claims(b"tml-evidence 2\nclaims 4294967295\ntimeline 0\n"), 4)

    def test_bad_claims(self) -> None:
        body = b"timeline 1\nat 0 1\n"
        rows = [
            (b"", 1),
            (b"tml-evidence 2\n", 2),
            (b"tml-evidence 2", 1),
            (b"tml-evidence 3\n", 1),
            (b"tml-evidence 2\n" + body + b"end\n", 2),
            (b"tml-evidence 1\nclaims 1\n" + body + b"end\n", 2),
            (claims(1), 3),
            (claims(2, body), 5),
            (claims(1, body, body), 5),
            (claims(2, b"tml-evidence 1\n", body, body), 3),
            (claims(2, body, b"tml-evidence 1\n", body), 5),
            (claims(2, body, b"end\n", body), 5),
            (claims(2, body, b"claims 1\n", body), 5),
            (claims(2, body, body[:-7]), 6),
            (claims(2, body[:-7], body), 4),
        ]
        for text, line in rows:
            self.assertEqual(read_claims(text), line, text)

    def test_free_answers_say_so(self) -> None:
        wanted = of_type(Free, expected([b"ask", b"d", b"i1", b"IDENTITY", b"i1"], {b"d": document(EVENT + INSTANCE).encode()}))
        body = b"entails 0 IDENTITY 0\nwalk 0\nwalk 0\nwalk 0\nwalk 0\n"
        self.assertTrue(wanted.is_right(claims(1, body)))
        wrong = (b"tml-evidence 1\n" + body + b"end\n", claims(2, body, body), claims(1, body.replace(b"IDENTITY", b"SIMULTANEOUS")))
        for text in wrong:
            self.assertFalse(wanted.is_right(text), text)

    def test_free_answers_that_are_cut_off(self) -> None:
        words, files = [b"ask", b"d", b"i1", b"IDENTITY", b"i1"], {b"d": document(EVENT + INSTANCE).encode()}
        whole = claims(1, b"entails 0 IDENTITY 0\nwalk 0\nwalk 0\nwalk 0\nwalk 0\n")
        others = (whole.replace(b"2", b"1", 1), whole.replace(b"claims 1", b"claims 2"))
        for room, text in itertools.product((0, 15, 20, 24, 40, len(whole) - 1), (whole, *others)):
            wrong = judge_failing(words, files, Outcome(5, text[:room]), reads_failed=False, room=room)
            self.assertEqual(wrong is None, text[:room] in whole, (room, text))


class SeveralClaims(unittest.TestCase):
    """What `renew`, `join` and `verify` say of texts of both versions."""

    def is_answered(self, line: str, status: int, text: bytes, **files: bytes) -> None:
        """Checks what is answered to words."""
        self.assertEqual(outcome(line, **files), Outcome(status, text), line)

    def test_renew(self) -> None:
        self.is_answered("renew e", 0, claims(1, PROOF[15:-4]), e=PROOF)
        self.is_answered("renew e", 0, claims(1, PROOF[15:-4]), e=claims(1, PROOF[15:-4]))
        self.is_answered("renew e", 0, BOTH, e=BOTH)
        self.is_answered("renew e", 7, b"evidence line 2\n", e=b"tml-evidence 2\nclaims 0\n")
        self.is_answered("renew e", 7, b"evidence line 1\n", e=b"tml-evidence 3\n")
        self.is_answered("renew e", 4, b"read fault\n")

    def test_join(self) -> None:
        self.is_answered("join e f", 0, BOTH, e=PROOF, f=TIMELINE)
        self.is_answered("join e e", 0, claims(4, BOTH[24:-4], BOTH[24:-4]), e=BOTH)
        self.is_answered("join e f", 7, b"evidence line 1\n", e=b"x", f=b"y")
        self.is_answered("join e f", 7, b"second line 2\n", e=PROOF, f=b"tml-evidence 2\nclaims 0\n")
        self.is_answered("join e f", 4, b"read fault\n", f=TIMELINE)
        self.is_answered("join e f", 4, b"read fault\n", e=PROOF)
        self.is_answered("join e f", 7, b"evidence line 8\n", e=PROOF + b"\n")
        for line in ("join e", "join", "join e f g", "renew", "renew e f"):
            self.assertEqual(expected([word.encode() for word in line.split()], {b"e": PROOF, b"f": PROOF}).status, 3, line)
        standard = {b"-": PROOF, b"e": TIMELINE}
        self.assertEqual(expected([b"join", b"-", b"e"], standard), Outcome(0, BOTH))
        self.assertEqual(expected([b"join", b"-", b"-"], standard), Outcome(7, b"second line 1\n"))

    def test_limits(self) -> None:
        long, least = b" " * (EVIDENCE_LIMIT + 1), b" " * EVIDENCE_LIMIT
        self.is_answered("renew e", 9, b"too long EVIDENCE\n", e=long)
        self.is_answered("renew e", 7, b"evidence line 1\n", e=least)
        self.is_answered("join e f", 9, b"too long EVIDENCE\n", e=long, f=long)
        self.is_answered("join e f", 9, b"too long SECOND\n", e=PROOF, f=long)
        self.is_answered("join e f", 7, b"evidence line 1\n", e=least, f=long)
        self.is_answered("join e f", 7, b"second line 1\n", e=PROOF, f=least)
        self.is_answered("verify d e", 9, b"too long EVIDENCE\n", d=CHAIN, e=long)

    def test_verify(self) -> None:
        shown = b"verified entails a BEFORE c\nverified timeline\n"
        self.is_answered("verify d e", 0, shown, d=CHAIN, e=BOTH)
        self.is_answered("verify d e", 0, b"verified timeline\n", d=CHAIN, e=TIMELINE)
        self.is_answered("verify d e", 7, b"evidence claim 1 part 1 Link 1\n", d=CHAIN, e=BOTH.replace(b"at 4", b"at 3"))
        self.is_answered("verify d e", 7, b"evidence claim 0 part 1 Step 1\n", d=CHAIN, e=BOTH.replace(b"span 1", b"span 2"))
        self.is_answered("verify d e", 7, b"evidence claim 0 part 1 Link 1\n", d=CHAIN, e=TIMELINE.replace(b"at 4", b"at 3"))
        self.is_answered("verify d e", 7, b"evidence line 8\n", d=CHAIN, e=BOTH.replace(b"claims 2", b"claims 1"))

    def test_what_is_printed(self) -> None:
        self.is_answered("solve d", 0, claims(1, TIMELINE[15:-4]), d=CHAIN)
        counter = claims(1, b"counter 2 BEFORE 0\n", TIMELINE[15:-4])
        self.is_answered("ask d c BEFORE a", 0, counter, d=CHAIN)
        proof = of_type(Free, expected([b"ask", b"d", b"a", b"BEFORE", b"c"], {b"d": CHAIN}))
        self.assertTrue(proof.is_right(claims(1, PROOF[15:-4])))
        self.assertFalse(proof.is_right(PROOF))

    def test_drills(self) -> None:
        text = "drill 1024\nbytes 309328\nlinks 2694\ngreatest 25\nrelations 28167\nverified timeline\n"
        self.assertEqual(expected([b"drill", b"1024"], {}), Outcome(0, text.encode()))
        for number in (b"0", b"1025", b"01024", b"+1", b"1024 ", b""):
            self.assertEqual(expected([b"drill", number], {}).status, 3, number)


if __name__ == "__main__":
    unittest.main()
