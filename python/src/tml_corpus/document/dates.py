"""What the calendar says of times: `tml dates` answers it, and what it answered is remembered.

It goes by the type, the modifier and the value of a time alone (docs/DEFINITIONS.md). So `tml` is asked about a document of
those times alone that it was not asked about before. In a corpus the same dates come again and again.
"""

from __future__ import annotations

from tml.statuses import MANY_BYTES, MOST_REMEMBERED
from tml.tags.source import Source

from ..asking.program import ACCEPTED, CannotRun, Program

LONGEST_REMEMBERED = 64
"""How many characters the value of a time has at most on which the answer is remembered."""

Time = tuple[str, str, str]
"""The type, the modifier and the value, as they are written; nothing where one is not there."""


def dates_of(program: Program, source: Source) -> dict[str, list[str]]:
    """What the calendar says of each time of an accepted document, in words, by the name of the time."""
    tags = source.tags("TIMEX3")
    names = [source.value(tag, "tid") for tag in tags]
    if len(source.document) > MANY_BYTES:
        return answers(program, source.document, names)
    times = [(source.value(tag, "type"), source.value(tag, "mod"), source.value(tag, "value")) for tag in tags]
    said = {time: program.dates[time] for time in times if time in program.dates}
    said |= asked(program, [time for time in dict.fromkeys(times) if time not in said])
    return dict(zip(names, map(said.__getitem__, times), strict=True))


def asked(program: Program, times: list[Time]) -> dict[Time, list[str]]:
    """What `tml` answers on some times, which is remembered."""
    if not times:
        return {}
    tags = b"".join(written(number, time) for number, time in enumerate(times))
    said = answers(program, b"<TimeML>%s</TimeML>" % tags, [f"t{number}" for number in range(len(times))])
    found = dict(zip(times, said.values(), strict=True))
    if len(program.dates) < MOST_REMEMBERED:
        program.dates.update((time, words) for time, words in found.items() if len(time[2]) <= LONGEST_REMEMBERED)
    return found


def answers(program: Program, document: bytes, names: list[str]) -> dict[str, list[str]]:
    """What `tml` answers on the times of a document, which have these names."""
    reply = program.ask(["dates", "-"], document)
    lines = list(reply.lines())
    if reply.status != ACCEPTED or [words[0] for words in lines] != names:
        raise CannotRun("the answers of tml to `check` and `dates` do not belong together")
    return {words[0]: words[1:] for words in lines}


def written(number: int, time: Time) -> bytes:
    """A time as a tag: between quotes of one kind a value has only those of the other kind."""
    parts = zip(("type", "mod", "value"), time, strict=True)
    attributes = "".join(f" {name}='{value}'" if '"' in value else f' {name}="{value}"' for name, value in parts if value)
    return f'<TIMEX3 tid="t{number}"{attributes}/>'.encode("utf-8", "surrogateescape")
