"""What the calendar says of times: remembered by their types, modifiers and values, it is what `tml dates` prints of the document."""

import os
from collections.abc import Iterator
from itertools import product

from corpus import TML, CorpusTest, document
from ordinary import Item
from tml.statuses import MOST_REMEMBERED
from tml.tags.cutting import units_of_whole
from tml.tags.source import Source
from tml_corpus.asking.program import CannotRun, Program, Reply
from tml_corpus.document.dates import dates_of

VALUES = (
    "1998", "1998-Q1", "1998-01-08T18:30", "199X", "1998-XX", "XXXX-12-25", "P3D", "1998-SU", "", " ", "1998-01-08 ", "&#49;998", "a'b",
    "é\u2003𝄞", "19980108", "1998-W53", "x" * 300, "1998-H1", "1998-HX", "199", "19",
)  # fmt: skip
TYPES, MODIFIERS = ("DATE", "TIME", "DURATION", "SET"), ("", "START", "MID", "END", "BEFORE", "APPROX")


def times() -> Iterator[str]:
    """Times with all values, types and modifiers, with quotes of both kinds, and further attributes of every kind."""
    for number, (value, kind, modifier) in enumerate(product(VALUES, TYPES, MODIFIERS)):
        quote = '"' if "'" in value or number % 3 else "'"
        attributes = [f"tid='n{number}.x'", f"type = '{kind}'", f"mod='{modifier}'", f"value={quote}{value}{quote}", 'anchorTimeID="n0.x"']
        yield f"<TIMEX3 {' '.join(attributes[number % 5 :] + attributes[: number % 5])}>x</TIMEX3>\n"
    yield "<TIMEX3 tid='quotes' type='DATE' value='\"1998\"'/><TIMEX3 tid='none' type='DATE'/>"


class Remembered(CorpusTest):
    def setUp(self) -> None:
        super().setUp()
        self.program = Asked(os.path.abspath(TML))

    def found(self, text: bytes) -> dict[str, list[str]]:
        """What is found of a document."""
        return dates_of(self.program, Source(text, units_of_whole(self.program, text)))

    def printed(self, text: bytes) -> dict[str, list[str]]:
        """What `tml` prints of it."""
        return {words[0]: words[1:] for words in Program.ask(self.program, ["dates", "-"], text).lines()}

    def test_of_all_values_types_and_modifiers(self) -> None:
        text = document("".join(times())).encode()
        for _ in range(2):
            found = self.found(text)
            self.assertEqual(found, self.printed(text))
            self.assertEqual(len(found), len(VALUES) * len(TYPES) * len(MODIFIERS) + 2)
        # A value that is empty is none. The second question is about those alone that are too long to be remembered.
        asked = [question.count(b"<TIMEX3") for question in self.program.questions]
        self.assertEqual(asked, [len(found) - 1, len(TYPES) * len(MODIFIERS)])

    def test_of_ordinary_documents(self) -> None:
        for number in range(60):
            text = Item(number).document().encode()
            self.assertEqual(self.found(text), self.printed(text))
        self.assertLess(len(self.program.questions), 60)

    def test_of_a_long_document(self) -> None:
        text = document("".join(times()) + " " * 300_000).encode()
        for _ in range(2):
            self.assertEqual(self.found(text), self.printed(text))
        self.assertEqual(self.program.questions, [text, text])

    def test_no_more_are_remembered_than_there_is_room_for(self) -> None:
        for left in (1, 0):
            self.program.dates = {("DATE", "", f"x{number}"): ["free"] for number in range(MOST_REMEMBERED - left)}
            self.assertEqual(self.found(document('<TIMEX3 tid="a" type="DATE" value="1998-01"/>').encode())["a"][0], "exact")
            self.assertEqual(len(self.program.dates), MOST_REMEMBERED)

    def test_answers_that_do_not_belong_to_the_question_are_not_believed(self) -> None:
        text = document('<TIMEX3 tid="a" type="DATE" value="1998"/><TIMEX3 tid="b" type="DATE" value="1999"/>').encode()
        others = [(0, b"t0 free\n"), (0, b"t1 free\nt0 free\n"), (0, b"a free\nb free\n"), (0, b""), (1, b"fault 10 MissingAttribute 8\n")]
        for status, answer in others:
            with self.subTest(answer):
                self.program.answer = Reply(status, answer, "dates")
                self.assertRaises(CannotRun, self.found, text)
                self.assertEqual(self.program.dates, {})


class Asked(Program):
    """A program of which the questions about dates are noted, and answered so where an answer is given."""

    def __init__(self, path: str) -> None:
        super().__init__(path)
        self.questions: list[bytes] = []
        self.answer: Reply | None = None

    def ask(self, words: list[str], document: bytes, other: bytes | None = None) -> Reply:
        if words[0] != "dates":
            return super().ask(words, document, other)
        assert isinstance(document, bytes)
        self.questions.append(document)
        return self.answer or super().ask(words, document, other)
