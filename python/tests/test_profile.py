"""The table of the profile: `tml` is asked about every row of it in both directions, so that the two cannot differ."""

import random
import unittest
from collections.abc import Callable, Mapping, Sequence
from itertools import product

from corpus import TML, CorpusTest, needed
from tml import statuses
from tml.explaining import faults
from tml.explaining.faults import read_fault
from tml.statuses import INVERSES
from tml.tags import profile
from tml.tags.profile import CARRIED, IDENTIFIERS, LEFT, LINK_TAGS, RIGHT, ROOT, TABLE, TAGS, WRAPPERS, Form, Kind, Row
from tml.tags.values import CALENDAR, DURATION, no_date
from tml_corpus.asking.program import Program

TARGETS = (
    '<EVENT eid="E" class="STATE"/><MAKEINSTANCE eiid="I" eventID="E"/><TIMEX3 tid="T" type="DATE"/><SIGNAL sid="S"/>'
    '<TLINK lid="L" timeID="T" relatedToTime="T" relType="IDENTITY"/>'
)
NAMES = {"EVENT": "E", "MAKEINSTANCE": "I", "TIMEX3": "T", "SIGNAL": "S"}
ROWS = [row for of_tag in TABLE.values() for row in of_tag.values()]


class Numbers:
    """New identifiers."""

    def __init__(self) -> None:
        self.last = 0

    def next(self) -> str:
        """One that was not there yet."""
        self.last += 1
        return f"n{self.last}"


class Profile(CorpusTest):
    def setUp(self) -> None:
        super().setUp()
        self.program, self.numbers = Program(TML), Numbers()

    def fault(self, text: str | bytes) -> int:
        """The number of the first fault of a document; 0 where it is accepted."""
        fault = read_fault(self.program.check(text if isinstance(text, bytes) else text.encode()).text)
        return fault.number if fault else 0

    def values(self, tag: str) -> dict[str, str]:
        """Right values for all attributes that a tag has to have, one of each pair."""
        rows = [row for name, row in TABLE[tag].items() if row.needs[:1] == (name,)]
        return {row.name: self.right(row.form) for row in rows}

    def right(self, form: Form) -> str:
        """A right value of a form."""
        if form.kind is Kind.LISTED:
            return form.values[0]
        if form.kind is Kind.IDENTIFIER:
            return self.numbers.next()
        return "x y" if form.kind is Kind.TEXT else NAMES[form.target]

    def written(self, tag: str, values: Mapping[str, str]) -> str:
        """A tag without content."""
        return f"<{tag}" + "".join(f' {name}="{value}"' for name, value in values.items()) + "/>"

    def inside(self, *tags: str) -> str:
        """A document of some tags, with what they may refer to."""
        return f"<TimeML>{TARGETS}{''.join(tags)}</TimeML>"

    def with_value(self, row: Row, value: str) -> str:
        """A tag that is right but for one attribute, which has this value."""
        values = self.values(row.tag)
        for name in row.needs:
            values.pop(name, None)
        return self.written(row.tag, {**values, row.name: value})

    def test_each_value_that_is_listed_is_accepted(self) -> None:
        tags = [self.with_value(row, value) for row in ROWS for value in row.form.values or [self.right(row.form)]]
        self.assertEqual(self.fault(self.inside(*tags)), 0)

    def test_values_that_are_not_of_their_form_are_refused(self) -> None:
        for row in ROWS:
            wrong: dict[Kind, list[str]] = {Kind.LISTED: ["x", *(value.swapcase() for value in row.form.values[:1])], Kind.TEXT: []}
            for value in wrong.get(row.form.kind, [":"]):
                with self.subTest(tag=row.tag, name=row.name, value=value):
                    self.assertEqual(self.fault(self.inside(self.with_value(row, value))), faults.BAD_VALUE)

    def test_what_has_to_be_there(self) -> None:
        for tag, of_tag in TABLE.items():
            for names in {row.needs for row in of_tag.values() if row.needs}:
                values = {name: value for name, value in self.values(tag).items() if name not in names}
                for lacking in (values, {**values, names[-1]: ""}):
                    with self.subTest(tag=tag, names=names, lacking=lacking):
                        self.assertEqual(self.fault(self.inside(self.written(tag, lacking))), faults.MISSING)
        # With these alone each tag is accepted.
        self.assertEqual(self.fault(self.inside(*(self.written(tag, self.values(tag)) for tag in TABLE))), 0)

    def test_pairs(self) -> None:
        for pair in (LEFT, RIGHT):
            values = {**self.values("TLINK"), **dict(zip(pair, "IT", strict=True))}
            self.assertEqual(self.fault(self.inside(self.written("TLINK", values))), faults.CONFLICT)

    def test_references(self) -> None:
        for row in ROWS:
            for target, name in NAMES.items():
                if row.form.kind is Kind.REFERENCE and target != row.form.target:
                    with self.subTest(tag=row.tag, name=row.name, target=target):
                        self.assertEqual(self.fault(self.inside(self.with_value(row, name))), faults.UNKNOWN_REFERENCE)

    def test_identifiers(self) -> None:
        for tag, name in IDENTIFIERS.items():
            with self.subTest(tag):
                self.assertEqual(self.fault(self.inside(self.with_value(TABLE[tag][name], "T"))), faults.DUPLICATE)

    def test_other_attributes_are_carried(self) -> None:
        names = {row.name for row in ROWS} | {name for of_tag in CARRIED.values() for name in of_tag} | {"x"}
        tags = []
        for tag in (*TABLE, *WRAPPERS):
            others = {name: ":" for name in names if name not in TABLE.get(tag, {})}
            tags.append(self.written(tag, {**(self.values(tag) if tag in TABLE else {}), **others}))
        self.assertEqual(self.fault(self.inside(*tags)), 0)

    def test_names_of_tags(self) -> None:
        self.assertEqual(self.fault(self.inside(*(f"<{name}></{name}>" for name in WRAPPERS))), 0)
        for name in {name.swapcase() for name in TAGS} - set(TAGS) | {"x"}:
            with self.subTest(name):
                self.assertEqual(self.fault(self.inside(f"<{name}/>")), faults.UNKNOWN_TAG)
        for name in {*WRAPPERS, *TABLE}:
            with self.subTest(root=name):
                self.assertEqual(self.fault(f"<{name}/>"), faults.MISPLACED)
        self.assertEqual(self.fault(self.inside(f"<{ROOT}/>")), faults.MISPLACED)

    def test_what_tags_may_hold(self) -> None:
        for tag in TABLE:
            attributes = self.written(tag, self.values(tag)).removesuffix("/>")
            for inner in ("x", "<P/>"):
                with self.subTest(tag=tag, inner=inner):
                    self.assertEqual(self.fault(self.inside(f"{attributes}>{inner}</{tag}>")), faults.MISPLACED if tag in LINK_TAGS else 0)

    def test_identifiers_have_these_letters(self) -> None:
        letters = [chr(code) for code in range(32, 127) if chr(code) not in '<&"'] + ["é"]
        allowed = [letter for letter in letters if profile.IDENTIFIER_LETTERS.fullmatch(letter)]
        self.assertEqual(self.fault(self.inside(*(f'<SIGNAL sid="{letter}x"/>' for letter in allowed))), 0)
        for letter in set(letters) - set(allowed):
            with self.subTest(letter):
                self.assertEqual(self.fault(self.inside(f'<SIGNAL sid="x{letter}"/>')), faults.BAD_VALUE)

    def test_limits(self) -> None:
        longest, many, links, deep = statuses.IDENTIFIER_LIMIT, statuses.INTERVAL_LIMIT, statuses.LINK_LIMIT, statuses.OPEN_LIMIT - 1
        link = '<TLINK timeID="T" relatedToTime="T" relType="IDENTITY"/>'
        rows: list[tuple[Callable[[int], str], int, int]] = [
            (lambda count: f'<SIGNAL sid="{"x" * count}"/>', longest, faults.BAD_VALUE),
            (lambda count: "<P>" * count + "</P>" * count, deep, faults.TOO_DEEP),
            (lambda count: "".join(f'<TIMEX3 tid="t{number}" type="SET"/>' for number in range(count)), many - 2, faults.MANY_INTERVALS),
            (lambda count: link * count, links - 1, faults.MANY_LINKS),
        ]
        for made, limit, number in rows:
            with self.subTest(number):
                self.assertEqual([self.fault(self.inside(made(count))) for count in (limit, limit + 1)], [0, number])

    def test_inverses(self) -> None:
        for relation, inverse in INVERSES.items():
            asked = []
            for link in (f'timeID="a" relatedToTime="b" relType="{relation}"', f'timeID="b" relatedToTime="a" relType="{inverse}"'):
                text = f'<TimeML><TIMEX3 tid="a" type="SET"/><TIMEX3 tid="b" type="SET"/><TLINK {link}/></TimeML>'
                asked.append(self.program.ask(["relations", "-"], text.encode()))
            self.assertEqual(asked[0].text, asked[1].text)
            self.assertIn(f"a {relation} b\n", asked[0].text.decode())
        self.assertEqual(set(INVERSES), set(profile.RELATION.values))


class Values(CorpusTest):
    def times(self, values: Sequence[str]) -> bytes:
        """A document of times with these values."""
        tags = "".join(f'<TIMEX3 tid="t{number}" type="TIME" value="{value}"/>' for number, value in enumerate(values))
        return f"<TimeML>{tags}</TimeML>".encode()

    def test_dates_and_no_dates(self) -> None:
        draw = random.Random(7)
        years = "0000 0001 1900 1996 1998 2000 2004 9999 199X 000X 19XX 00XX XXXX 1X98 198 19 000 1 19X".split()
        fields = ["", *"-01 -00 -12 -13 -XX -W00 -W53 -W54 -WXX -W01-0 -W01-8 -WXX-7 -W5 -Q0 -Q4 -Q5 -QX -H0 -H1 -H2 -H3 -HX -H12".split()]
        days = [f"-{month}-{day}" for month in ("01", "02", "04", "00", "13", "XX") for day in ("00", "28", "29", "30", "31", "32", "XX")]
        clocks = ["", *"T00 T23 T24 T25 TXX T24:00 T24:01 T24:XX T23:60 T23:59:59 T23:59:60 T24:00:00 T24:00:01 T1 T12:00Z".split()]
        values = [
            *map("".join, product(years, fields)),
            *map("".join, product(years, days)),
            *map("".join, product(["1998-01-08", "XXXX-XX-XX"], clocks)),
        ]
        shaped = {value: no_date(value) for value in values}
        good = [value for value, why in shaped.items() if why is None]
        bad = [value for value, why in shaped.items() if why is not None]
        program = Program(TML)
        for first in range(0, len(good), 500):
            part = good[first : first + 500]
            reply = program.ask(["dates", "-"], self.times(part))
            self.assertEqual(reply.status, 0, reply.text)
            for value, words in zip(part, reply.lines(), strict=True):
                placed = CALENDAR.fullmatch(value) is not None and not value.startswith("XXXX")
                self.assertEqual(words[1] != "free", placed, value)
        for value in draw.sample(bad, 60):
            with self.subTest(value):
                fault = needed(read_fault(program.check(self.times([value])).text))
                self.assertEqual(fault.number, faults.BAD_DATE)

    def test_durations_are_no_dates(self) -> None:
        for value in ("P1Y", "PXM", "P1Y2M3W4DT5H6M7S", "PT1S", "P123456789D"):
            self.assertTrue(DURATION.fullmatch(value), value)
        for value in ("P", "PT", "P1", "P1DT", "P1S", "PT1D", "P1M1Y", "P1234567890D", "PXXD", "1998"):
            self.assertFalse(DURATION.fullmatch(value), value)


if __name__ == "__main__":
    unittest.main()
