"""What one command prints is evidence for another, over real files: each answer of `ask` and each clash is verified."""

import itertools
import os
import subprocess
import unittest

from corpus import TML, CorpusTest
from tml.asking import Answerer
from tml.finding import BUILT_LIBRARY
from tml.library import Library
from tml.process import Process
from tml.statuses import RELATIONS, TmlStatus

EVENT = "<EVENT eid='e' class='STATE'/>"
DONE, CLASH, READ_FAULT = TmlStatus.DONE, TmlStatus.CLASH, TmlStatus.READ_FAULT


def instances(names: str, *links: tuple[str, str, str]) -> bytes:
    """A document of instances of one event, with links between them."""
    made = "".join(f"<MAKEINSTANCE eiid='{name}' eventID='e'/>" for name in names)
    linked = "".join(
        f"<TLINK eventInstanceID='{one}' relatedToEventInstance='{other}' relType='{relation}'/>" for one, relation, other in links
    )
    return f"<TimeML>{EVENT}{made}{linked}</TimeML>".encode()


def day(name: str, value: str, more: str = "") -> str:
    """A date."""
    return f"<TIMEX3 tid='{name}' type='DATE' value='{value}'{more}/>"


def dated(times: str, relation: str) -> bytes:
    """A document of two times, with an instance a that has this relation to the first one."""
    link = f"<TLINK eventInstanceID='a' relatedToTime='t1' relType='{relation}'/>"
    return f"<TimeML>{times}{EVENT}<MAKEINSTANCE eiid='a' eventID='e'/>{link}</TimeML>".encode()


RATES = b"""<?xml version="1.0" ?>
<TimeML>
<TIMEX3 tid="t0" type="TIME" value="1998-01-08T18:30:00" functionInDocument="CREATION_TIME">Jan 8</TIMEX3>
Rates <EVENT eid="e1" class="OCCURRENCE">fell</EVENT> before the bank <EVENT eid="e2" class="REPORTING">spoke</EVENT> on
<TIMEX3 tid="t1" type="DATE" value="1998-01-07">Wednesday</TIMEX3>.
<MAKEINSTANCE eiid="ei1" eventID="e1"/><MAKEINSTANCE eiid="ei2" eventID="e2"/>
<TLINK eventInstanceID="ei1" relatedToEventInstance="ei2" relType="BEFORE"/>
<TLINK eventInstanceID="ei2" relatedToTime="t1" relType="IS_INCLUDED"/>
</TimeML>
"""
SMALL = {
    "no links": (instances("abc"), "a b c"),
    "a chain": (instances("abc", ("a", "BEFORE", "b"), ("b", "BEFORE", "c")), "a b c"),
    "one within another, or at the same time": (instances("abc", ("a", "DURING", "b")), "a b c"),
    "one before another": (instances("abc", ("a", "BEFORE", "b")), "a b c"),
    "two days, one after the other": (f"<TimeML>{day('t1', '1998-01-08')}{day('t2', '1998-01-09')}</TimeML>".encode(), "t1 t2"),
    "a text": (RATES, "t0 t1 ei1 ei2"),
    "a circle of weak orders": (instances("ab", ("a", "DURING", "b"), ("b", "DURING", "a")), "a b"),
    "equal ends": (instances("abc", ("a", "ENDS", "b"), ("b", "IBEFORE", "c")), "a b c"),
    "the middle of a month, the next month, and what begins the first": (
        dated(day("t1", "1998-01", " mod='MID'") + day("t2", "1998-02"), "BEGINS"),
        "t1 t2 a",
    ),
    "a day twice, and what is within it": (dated(day("t1", "1998-01-08") + day("t2", "1998-01-08"), "IS_INCLUDED"), "t1 t2 a"),
}
CLASHES = {
    "a ring of three, and two links that clash by themselves": (
        instances("abc", ("a", "BEFORE", "b"), ("b", "BEFORE", "c"), ("c", "BEFORE", "a"), ("b", "BEFORE", "a")),
        ("0 1 2", "0 3"),
    ),
    "two clashes with a link in common": (
        instances("abc", ("a", "IS_INCLUDED", "b"), ("a", "DURING", "c"), ("b", "BEFORE", "c"), ("c", "IBEFORE", "a")),
        ("0 1 2", "1 3"),
    ),
    "one of two links that say the same": (
        instances("ab", ("a", "BEFORE", "b"), ("a", "BEFORE", "b"), ("b", "BEFORE", "a")),
        ("0 2", "1 2"),
    ),
    "two clashes with no link in common": (
        instances("abc", ("a", "BEGINS", "b"), ("a", "ENDS", "b"), ("b", "BEFORE", "c"), ("c", "BEFORE", "b")),
        ("0 1", "2 3"),
    ),
}


@unittest.skipUnless(os.access(TML, os.X_OK), f"no program {TML}")
class PrintedEvidence(unittest.TestCase):
    def setUp(self) -> None:
        self.asked: Answerer = Process(TML)
        if os.path.exists(BUILT_LIBRARY):
            self.asked = Library(BUILT_LIBRARY)

    def test_each_answer_of_ask_is_verified(self) -> None:
        proofs = 0
        for kind, (document, names) in SMALL.items():
            for one, other, relation in itertools.product(names.split(), names.split(), RELATIONS):
                with self.subTest(kind, asked=(one, relation, other)):
                    status, evidence = self.asked.answer("ask", [document], [one, relation, other])
                    self.assertEqual(status, DONE)
                    is_proof = evidence.startswith(b"tml-evidence 2\nclaims 1\nentails ")
                    proofs += is_proof
                    claim = f"verified {'entails' if is_proof else 'counter'} {one} {relation} {other}\n"
                    self.assertEqual(self.asked.answer("verify", [document, evidence]), (DONE, claim.encode()))
        own = sum(len(names.split()) for _, names in SMALL.values())
        self.assertGreaterEqual(proofs, 4 * own, "of each interval and itself four relations hold")

    def test_one_of_the_minimal_clashes_is_shown_and_verified(self) -> None:
        for kind, (document, cited) in CLASHES.items():
            with self.subTest(kind):
                status, evidence = self.asked.answer("solve", [document])
                self.assertEqual(status, CLASH)
                status, verdict = self.asked.answer("verify", [document, evidence])
                self.assertEqual(status, DONE)
                self.assertIn(verdict.decode(), [f"verified clash {links}\n" for links in cited])


class RealFiles(CorpusTest):
    def setUp(self) -> None:
        super().setUp()
        self.write("document", RATES)

    def answered(self, *words: str) -> tuple[int, bytes]:
        """The status and the text of a run of the program."""
        done = subprocess.run([TML, *words], cwd=self.folder, stdin=subprocess.DEVNULL, stdout=subprocess.PIPE, check=False)
        return done.returncode, done.stdout

    def printed_to(self, name: str, *words: str) -> None:
        """Runs a command that is done, with its output in a file."""
        status, text = self.answered(*words)
        self.assertEqual(status, DONE, words)
        self.write(name, text)

    def test_what_is_printed_to_a_file_is_verified(self) -> None:
        for words, verdict in (
            (["solve", "document"], b"verified timeline\n"),
            (["ask", "document", "ei1", "BEFORE", "ei2"], b"verified entails ei1 BEFORE ei2\n"),
            (["ask", "document", "t0", "INCLUDES", "ei1"], b"verified counter t0 INCLUDES ei1\n"),
        ):
            self.printed_to("evidence", *words)
            self.assertEqual(self.answered("verify", "document", "evidence"), (DONE, verdict))

    def test_what_is_joined_and_renewed_is_verified(self) -> None:
        self.printed_to("timeline", "solve", "document")
        self.printed_to("proof", "ask", "document", "ei1", "BEFORE", "ei2")
        self.printed_to("joined", "join", "timeline", "proof")
        self.printed_to("renewed", "renew", "joined")
        verdicts = b"verified timeline\nverified entails ei1 BEFORE ei2\n"
        self.assertEqual(self.answered("verify", "document", "renewed"), (DONE, verdicts))

    def test_what_is_no_file_that_can_be_read_is_a_read_fault(self) -> None:
        for name in ("none", "", "."):
            with self.subTest(name):
                self.assertEqual(self.answered("check", name), (READ_FAULT, b"read fault\n"))
                self.assertEqual(self.answered("verify", "document", name), (READ_FAULT, b"read fault\n"))

    def test_a_file_that_is_named_twice_is_read_twice(self) -> None:
        self.printed_to("timeline", "solve", "document")
        self.printed_to("joined", "join", "timeline", "timeline")
        self.assertEqual(self.answered("verify", "document", "joined"), (DONE, 2 * b"verified timeline\n"))


if __name__ == "__main__":
    unittest.main()
