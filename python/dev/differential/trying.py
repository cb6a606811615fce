"""Tries batches of cases: draws them, runs them and collects the differences."""

from __future__ import annotations

import itertools
from collections import Counter
from collections.abc import Callable, Iterator, Sequence
from dataclasses import dataclass, field
from random import Random

from differential import agreeing
from differential.agreeing import draw_agreeing
from differential.cases import Case
from differential.chances import chance
from differential.comparing import complaint
from differential.documents import draw_document
from differential.drawing import (
    Written,
    draw_case,
    draw_confirming,
    draw_of_evidence,
    draw_placing,
    draw_reducing,
    draw_scored,
    draw_writing,
)
from differential.libraries import Libraries, obstacle
from differential.programs import Programs
from differential.rows import Rows, is_for_rows
from differential.words import DOCUMENT
from reference import Outcome
from tml.statuses import TmlStatus

CASES = 100
WRITINGS = 20
PRINTED = (TmlStatus.DONE, TmlStatus.CLASH)
"""The statuses with which evidence, a placing or a cycle is printed."""
OF_EVIDENCE = 80
AGREEING = 12
THROUGH_PROCESSES = 0.05
"""How many of the cases that a table can have are run by a process each nevertheless."""


@dataclass(frozen=True)
class Difference:
    """A case, what the program answered, and what is wrong with that."""

    case: Case
    outcome: Outcome
    said: str


@dataclass
class Tally:
    """What was tried so far."""

    cases: int = 0
    skipped: int = 0
    subjects: Counter[str] = field(default_factory=Counter)
    statuses: Counter[int] = field(default_factory=Counter)
    by_library: int = 0
    not_asked: Counter[str] = field(default_factory=Counter)
    differences: list[Difference] = field(default_factory=list)

    def take(self, case: Case, outcome: Outcome) -> None:
        """Counts a case."""
        self.cases += 1
        self.subjects[case.subject] += 1
        self.statuses[outcome.status] += 1


class Trial:
    """Runs and compares cases: by tables where that program is there, else by a process each; and by a library too, where one is there."""

    def __init__(self, programs: Programs, rows: Rows | None, libraries: Libraries | None = None) -> None:
        self.programs = programs
        self.rows = rows
        self.libraries = libraries
        self.tally = Tally()

    def try_all(self, cases: Sequence[Case], random: Random) -> list[tuple[Case, Outcome]]:
        """Runs cases, compares what they give, and counts them. Cases that nothing here can run are left out."""
        by_rows = [case for case in cases if self.by_rows(case)]
        in_rows = [case for case in by_rows if case.memory is not None or not chance(random, THROUGH_PROCESSES)]
        chosen = set(map(id, in_rows))
        alone = [case for case in cases if id(case) not in chosen and case.memory is None]
        self.tally.skipped += len(cases) - len(in_rows) - len(alone)
        done = list(zip(in_rows, self.rows.outcomes(in_rows) if self.rows else [], strict=True))
        done += zip(alone, self.programs.outcomes(alone), strict=True)
        for case, outcome in done:
            self.take(case, outcome)
        return done

    def take(self, case: Case, outcome: Outcome) -> None:
        """Compares and counts a case."""
        self.tally.take(case, outcome)
        if self.libraries is not None:
            reason = obstacle(case)
            self.tally.by_library += reason is None
            self.tally.not_asked.update([reason] if reason else [])
        said = self.said(case, outcome)
        if said is not None:
            self.tally.differences.append(Difference(case, outcome, said))

    def said(self, case: Case, outcome: Outcome) -> str | None:
        """What is wrong with an outcome, and with what the library answers to the same."""
        by_library = self.libraries.complaint(case, outcome) if self.libraries is not None and obstacle(case) is None else None
        return " ".join(filter(None, (said_of(case, outcome), by_library))) or None

    def by_rows(self, case: Case) -> bool:
        """Whether a table is to have a case."""
        return self.rows is not None and is_for_rows(case)

    def outcome(self, case: Case) -> Outcome:
        """What the program answers to one case."""
        if case.memory is not None and self.rows is not None:
            return self.rows.outcomes([case])[0]
        return self.programs.outcome(case)

    def differs(self, case: Case) -> bool:
        """Whether the program answers to a case what it may not."""
        if case.memory is not None and not self.by_rows(case):
            return False
        outcome = self.outcome(case)
        return self.said(case, outcome) is not None or self.disagrees(case, outcome) is not None

    def disagrees(self, case: Case, outcome: Outcome) -> str | None:
        """What is wrong with an answer by those to further questions."""
        if case.subject != agreeing.SUBJECT:
            return None
        return said_of_all(case, outcome, [(one, self.outcome(one)) for one in agreeing.further(case, outcome)])

    def ordinary(self, random: Random) -> None:
        """Tries a batch of all subjects but evidence, and some evidence."""
        self.try_all([draw_case(random) for _ in range(CASES)], random)

    def evidence(self, random: Random) -> None:
        """Tries a batch of evidence: lets the program write some, and damages it."""
        done = self.try_all([draw_writing(random) for _ in range(WRITINGS)], random)
        written = [Written(case.files[DOCUMENT], outcome.text) for case, outcome in done if outcome.status in PRINTED and outcome.text]
        if written:
            self.try_all([draw_of_evidence(random, written) for _ in range(OF_EVIDENCE)], random)

    def placings(self, random: Random) -> None:
        """Tries a batch of placings and cycles: lets the program write some, and damages them."""
        done = self.try_all([draw_placing(random) for _ in range(WRITINGS)], random)
        written = [Written(case.files[DOCUMENT], outcome.text) for case, outcome in done if outcome.status in PRINTED and outcome.text]
        if written:
            self.try_all([draw_confirming(random, written) for _ in range(OF_EVIDENCE)], random)

    def links(self, random: Random) -> None:
        """Tries a batch of documents of which links follow from others, and of pairs of documents."""
        self.try_all([draw_scored(random) if chance(random, 0.6) else draw_reducing(random) for _ in range(CASES)], random)

    def agreement(self, random: Random) -> None:
        """Tries a batch of answers that are to agree with each other."""
        documents = [draw_document(random, random.choice((1, 2, 2, 3, 3, 4, 4, 5, 6, 8))) for _ in range(AGREEING)]
        done = self.try_all([draw_agreeing(random, document) for document in documents], random)
        questions = [agreeing.further(case, outcome) for case, outcome in done]
        answered = {id(case): (case, outcome) for case, outcome in self.try_all(list(itertools.chain(*questions)), random)}
        for (case, outcome), others in zip(done, questions, strict=True):
            said = said_of_all(case, outcome, [answered[id(one)] for one in others])
            if said is not None:
                self.tally.differences.append(Difference(case, outcome, said))


def said_of(case: Case, outcome: Outcome) -> str | None:
    """What is wrong with an outcome. A referee that fails is a difference too, and no end of the run."""
    try:
        return complaint(case, outcome)
    except Exception as error:
        return f"A referee failed: {error!r}"


def said_of_all(case: Case, outcome: Outcome, others: Sequence[tuple[Case, Outcome]]) -> str | None:
    """What is wrong with an answer by those to further questions, if there are any."""
    try:
        return agreeing.complaint(case, outcome, others) if others else None
    except Exception as error:
        return f"A referee failed: {error!r}"


def batches(trial: Trial, about: str | None) -> Iterator[Callable[[Random], None]]:
    """What each batch does: one of five is evidence, one is placings and one is answers that are to agree; or all are about one subject."""
    ordinary = (trial.ordinary, trial.ordinary, trial.evidence, trial.placings, trial.agreement)
    alone = {"evidence": trial.evidence, "links": trial.links, "placings": trial.placings}
    yield from itertools.cycle((alone[about],) if about else ordinary)
