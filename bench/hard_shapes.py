"""What a hard document is: the files of a case, and the shape that makes it at each size."""

from __future__ import annotations

from collections.abc import Callable, Sequence
from dataclasses import dataclass, replace

KIB, MIB = 1 << 10, 1 << 20
NETS = (256, 512, 1024)
"""Sizes of nets: how many intervals they have. The last one is the limit."""
TEXTS = (MIB, 2 * MIB, 4 * MIB)
"""Sizes of documents in bytes. The last one is the limit."""
EVIDENCE = (4 * MIB, 16 * MIB, 64 * MIB)
"""Sizes of evidence in bytes. The last one is the limit."""


@dataclass(frozen=True)
class Case:
    """The files that commands read, and the words after them."""

    document: bytes
    """The document. `drill` reads none."""
    other: bytes | None = None
    """The key, evidence or seconds. If there is none, the key is the document, and the rest is what is printed of it."""
    second: bytes = b""
    """The second evidence of `join`."""
    asked: tuple[str, str, str] = ("", "", "")
    """Two intervals, and a relation between their names, for `ask` and `possible`."""


@dataclass(frozen=True)
class Shape:
    """Cases of one kind that grow with their size."""

    name: str
    make: Callable[[int], Case]
    commands: tuple[str, ...]
    sizes: tuple[int, ...]
    faulty: bool = False
    """Whether `tml check` has to report a fault of the document."""


Link = tuple[int, str, int]
Links = list[Link]
EVENT = '<EVENT eid="e" class="STATE">x</EVENT>'


def names_of(times: int, instances: int, length: int = 0) -> list[str]:
    """The names of times and instances, each of this length where that is not 0."""
    names = [f"t{one}" for one in range(times)] + [f"i{one}" for one in range(times, times + instances)]
    return [name.ljust(length, "-") for name in names]


def net(links: Sequence[Link], instances: int, times: Sequence[str] = (), length: int = 0) -> Case:
    """A document of times, then instances, and links between them by their numbers. Its questions are about the first and the last one."""
    names = names_of(len(times), instances, length)
    tags = [f'<TIMEX3 tid="{name}" {value}/>' for name, value in zip(names, times)]
    tags += [f'<MAKEINSTANCE eiid="{name}" eventID="e"/>' for name in names[len(times) :]]

    def end(one: int, time: str, instance: str) -> str:
        return f'{time if one < len(times) else instance}="{names[one]}"'

    tags += [
        f'<TLINK {end(a, "timeID", "eventInstanceID")} {end(b, "relatedToTime", "relatedToEventInstance")} relType="{name}"/>'
        for a, name, b in links
    ]
    return Case(f"<TimeML>{EVENT}{''.join(tags)}</TimeML>".encode(), asked=(names[0], "BEFORE", names[-1]))


def against(case: Case, key: Case) -> Case:
    """A case whose key is the document of another one."""
    return replace(case, other=key.document)
