"""Says of an outcome what is wrong with it: by the reference, and by the further referees."""

from __future__ import annotations

from collections.abc import Mapping

from differential import reals, trees
from differential.cases import Case, Memory, Output
from differential.rows import is_word
from reference import Outcome, judge, judge_failing

BUFFER = 65536
"""The most bytes that the program asks for in one read."""
REFEREES = (trees.complaint, reals.complaint)


def complaint(case: Case, outcome: Outcome) -> str | None:
    """What is wrong with the outcome of a case, in a sentence, or None where it is right."""
    words = case.words if all(map(is_word, case.words)) else (b"",)
    if case.memory is not None:
        return of_memory(case, case.memory, outcome)
    if case.real is not None and case.real.output != Output.PIPE:
        return judge_failing(words, case.files, outcome, reads_failed=False, room=0)
    wrong = judge(words, case.files, outcome)
    if wrong is not None or case.real is not None:
        return wrong
    return next((said for referee in REFEREES if (said := referee(case, outcome))), None)


def calls_of(content: bytes | None, reads_of: int) -> int:
    """How many calls it takes to start a file and to read it to its end; 1 where it is not there."""
    if content is None:
        return 1
    most = min(max(reads_of, 1), BUFFER)
    return 2 + (len(content) + most - 1) // most


def of_memory(case: Case, memory: Memory, outcome: Outcome) -> str | None:
    """The same where devices in memory have failed.

    A read that fails is as good as a file that is not there: the calls are counted, so it is known which file that is. Where one
    name is read twice and only the second reading fails, it is not said by files, so a read fault may come or not.
    """
    files: Mapping[bytes, bytes] = case.files
    may_fail, first = False, 0
    names = case.readings()
    for name in names:
        calls = calls_of(files.get(name), memory.reads_of)
        if any(first <= number < first + calls for number in memory.failing_reads):
            if first == 0 or names.count(name) == 1:
                files = {key: content for key, content in files.items() if key != name}
            else:
                may_fail = True
            break
        first += calls
    return judge_failing(case.words, files, outcome, reads_failed=may_fail, room=memory.written_at_most())
