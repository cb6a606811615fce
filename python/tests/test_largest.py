"""Answers about as large as may be: all pairs of 1,024 intervals, a clash over all of them, and evidence of some 50 MB.

What these are is worked out here. The rows of `crates/command_rows/stdin` have the other commands at the same limits, and more bytes of
documents and evidence.
"""

from __future__ import annotations

import subprocess
import unittest
from itertools import combinations

from corpus import TML, CorpusTest, needs_matrix
from tml.statuses import INTERVAL_LIMIT as INTERVALS
from tml.statuses import LINK_LIMIT as LINKS

TIMES = "".join(f'<TIMEX3 tid="t{number}" type="SET"/>' for number in range(INTERVALS))
SECONDS = 60
"""How long a run may take. The program takes a second or less."""


def before(first: int, second: int) -> str:
    """The link of an interval before another one."""
    return f'<TLINK timeID="t{first}" relatedToTime="t{second}" relType="BEFORE"/>'


def chain() -> str:
    """Each interval before the next four, and the first ones again, so that there are as many links as may be."""
    links = [before(first, first + step) for step in range(1, 5) for first in range(INTERVALS - step)]
    return f"<TimeML>{TIMES}{''.join((links + links)[:LINKS])}</TimeML>"


def ring() -> str:
    """Each interval before the next one, and the last before the first."""
    return f"<TimeML>{TIMES}{''.join(before(first, (first + 1) % INTERVALS) for first in range(INTERVALS))}</TimeML>"


def cites() -> str:
    """How many links a clash of the ring cites, and each of them."""
    return f"clash {INTERVALS}\n" + "".join(f"cite {link}\n" for link in range(INTERVALS))


def walk() -> str:
    """A closed walk round the ring."""
    return f"walk {2 * INTERVALS}\n" + "".join(f"via {link} 0\nspan {(link + 1) % INTERVALS}\n" for link in range(INTERVALS))


def spares(least: int) -> str:
    """For each link of the ring the timeline without it, which begins after it, with ranks from the least one on."""
    lines = [f"at {least + 2 * place} {least + 2 * place + 1}\n" for place in range(INTERVALS)]
    turned = ("".join(lines[place:] + lines[:place]) for place in range(INTERVALS - 1, -1, -1))
    return "".join(f"timeline {INTERVALS}\n{timeline}" for timeline in turned)


VERIFIED = f"verified clash {' '.join(map(str, range(INTERVALS)))}\n"


class Largest(CorpusTest):
    def answer(self, *words: str) -> tuple[int, str]:
        """The status of the program and what it prints."""
        done = subprocess.run([TML, *words], cwd=self.folder, stdin=subprocess.DEVNULL, capture_output=True, timeout=SECONDS, check=False)
        return done.returncode, done.stdout.decode()

    @needs_matrix
    def test_all_pairs_are_related(self) -> None:
        self.write("chain", chain())
        pairs = list(combinations(range(INTERVALS), 2))
        wanted = {
            "relations": "".join(f"t{first} BEFORE t{second}\n" for first, second in pairs),
            "matrix": "".join(f"t{first} t{second} BEFORE\n" for first, second in pairs),
        }
        for command, text in wanted.items():
            status, printed = self.answer(command, "chain")
            self.assertTrue((status, printed) == (0, text), f"{command}: status {status}, {len(printed)} characters and not {len(text)}")

    def test_a_clash_over_all_intervals_is_written_and_accepted(self) -> None:
        self.write("ring", ring())
        status, clash = self.answer("solve", "ring")
        self.assertEqual(status, 2)
        begun, _, rest = clash.partition("walk ")
        self.assertEqual(begun, f"tml-evidence 2\nclaims 1\n{cites()}")
        wanted = spares(0) + "end\n"
        self.assertTrue(rest[rest.index("timeline ") :] == wanted, "other spares")
        self.assertGreater(len(clash), 12_000_000)
        self.write("clash", clash)
        self.assertEqual(self.answer("verify", "ring", "clash"), (0, VERIFIED))

    def test_evidence_of_50_mb_is_accepted(self) -> None:
        self.write("ring", ring())
        claim = cites() + walk() + spares(4_000_000_000)
        evidence = f"tml-evidence 2\nclaims 2\n{claim}{claim}end\n"
        self.assertGreater(len(evidence), 50_000_000)
        self.write("evidence", evidence)
        self.assertEqual(self.answer("verify", "ring", "evidence"), (0, 2 * VERIFIED))


if __name__ == "__main__":
    unittest.main()
