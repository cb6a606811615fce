"""What `help` says of a function beside what it answers: its arguments, what it raises, and an example."""

from __future__ import annotations

from collections.abc import Mapping
from types import FunctionType
from typing import Any

NO_NAME = "UnknownName: a name is that of no interval, or a relation is none of TLINK"

ARGUMENTS = {
    "document: File": ("the bytes of a document, the path of a file, or what tml.read answered", '"samples/rates.xml"'),
    "key: File": ("the document to compare with, given in the same way", '"samples/bridge.xml"'),
    "evidence: File": ("the bytes of evidence, or the path of a file", "proof.evidence"),
    "second: File": ("further evidence, given in the same way", "clash.evidence"),
    "text: File": ("the .text of a placing or a cycle, or the path of a file", "placing.text"),
    "first: str": ("the name of an interval: the eiid of a MAKEINSTANCE or the tid of a TIMEX3", '"ei1"'),
    "relation: str": ("a relation, as BEFORE; tml.RELATIONS has all", '"BEFORE"'),
    "second: str": ("the name of another interval, or of the same one", '"ei2"'),
    "most: int | None": ("how many clashes are wanted, 1 or more; by default all", ""),
    "links: Linkables": ("relations in the forms that tml.with_links takes", '[("ei1", "BEFORE", "ei2")]'),
    "relations: Linkables": (
        "triples, links, or rows with first, relation and second: dictionaries, a frame, an array, a generator",
        '[("ei1", "BEFORE", "ei2")]',
    ),
    "times: Mapping[str, str] | Sequence[Time] | None": ("values by the names of times, or times that tml.read answered", ""),
    "weights: Iterable[float]": ("a number for each relation, in the same order", "[0.9]"),
    "number: int": ("how many events, from 1 to 1024", "100"),
    "by: Answerer | None": ("who answers, a tml.Library or a tml.Process; by default the one that is found", ""),
}
"""What each argument is, by its name and its type, and a value of it that is an example."""

ERRORS = {
    "File": ("TypeError: a file is neither bytes nor a path", "OSError: a file cannot be read"),
    "str": (NO_NAME, "TypeError: a name or a relation is no text"),
    "Linkables": (NO_NAME, "TypeError: a row says no relation"),
    "Iterable[float]": ("ValueError: there is not one number for each relation, or there are more than 4,096 relations",),
    "int": ("ValueError: there is no such drill",),
    "int | None": ("ValueError: the number is below 1, or none",),
    "Answerer | None": ("MemoryError: there is not enough memory", "CannotRun: there is neither library nor program, or it is not tml"),
}
"""What a function raises, by the types of its arguments."""


def complete(module: Mapping[str, Any]) -> None:
    """Completes what `help` says of the public functions of a module."""
    for function in (one for name in module["__all__"] if isinstance(one := module[name], FunctionType)):
        types = {name: one for name, one in function.__annotations__.items() if f"{name}: {one}" in ARGUMENTS}
        told = [ARGUMENTS[f"{name}: {one}"] for name, one in types.items()]
        errors = dict.fromkeys(error for one in types.values() for error in ERRORS.get(one, ()))
        lines = [
            *(f"{name}: {what}" for name, (what, _) in zip(types, told, strict=True)),
            "",
            "Raises",
            *(f"  {error}" for error in errors),
        ]
        example = f"    tml.{function.__name__}({', '.join(value for _, value in told if value)})"
        function.__doc__ = "\n    ".join([(function.__doc__ or "").rstrip(), "", *lines, "", example])
