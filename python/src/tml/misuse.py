"""What a wrong question is told: what was given, and what was probably meant."""

from __future__ import annotations

from collections.abc import Sequence
from typing import TypeVar

from .saying import cut_short, listed, meant, shown
from .statuses import RELATIONS

__all__ = ["UnknownName"]

Value = TypeVar("Value")


class UnknownName(KeyError):
    """A word of a question names no interval of the document, or no relation. `args` has the word alone."""

    def __init__(self, name: str, said: str = "") -> None:
        super().__init__(name)
        self.said = said

    def __str__(self) -> str:
        return self.said or super().__str__()

    def __reduce__(self) -> tuple[type[UnknownName], tuple[str, str]]:
        return UnknownName, (self.args[0], self.said)


class ByName(dict[str, Value]):
    """Values by the names of intervals, in a dictionary that explains other names."""

    def __missing__(self, name: str) -> Value:
        events = ((key, getattr(one, "event", None)) for key, one in self.items())
        raise unknown_interval(name, list(self), [key for key, event in events if event is not None and event.id == name])


def unknown_relation(name: str) -> UnknownName:
    """The exception where a word is not a relation of TLINK."""
    return UnknownName(name, f"{shown(name)!r} is not a relation of TLINK: {meant(name, RELATIONS) or listed(RELATIONS)}")


def unknown_interval(name: str, intervals: Sequence[str], instances: Sequence[str] = ()) -> UnknownName:
    """The exception where a word is not an interval of a document. Where it is an event, its instances are meant."""
    said = f"{shown(str(name))!r} is not an interval of the document"
    if instances:
        return UnknownName(name, f"{said}, but an EVENT: links and questions name its instance, {listed(instances)}")
    near = meant(str(name), intervals)
    choices = f"its intervals are {listed(intervals)}" if intervals else "it has none"
    return UnknownName(name, f"{said}: {near or choices}")


def unknown_identifier(name: str, identifiers: Sequence[str]) -> UnknownName:
    """The exception where no tag of a document has an identifier."""
    said = f"no tag of the document has the identifier {shown(str(name))!r}"
    return UnknownName(name, f"{said}: {meant(str(name), identifiers) or listed(identifiers)}")


def expect_words(**given: object) -> None:
    """Raises a `TypeError` where a word of a question is no text; words go by the names of the arguments."""
    name, word = next(((name, word) for name, word in given.items() if not isinstance(word, str)), ("", ""))
    if name:
        what = "as BEFORE" if name == "relation" else "the name of an interval"
        hint = f": give its id, {identifier!r}" if isinstance(identifier := getattr(word, "id", None), str) else ""
        raise TypeError(f"{name} is a text, {what}, and not {type(word).__name__}{hint}")


def not_a_file(given: object) -> TypeError:
    """The exception where a document or another file is neither bytes nor a path."""
    said = f"a file is bytes or a path, and not {type(given).__name__}"
    if hasattr(given, "read"):
        return TypeError(f"{said}: give what it has, by .read(), and of one that is opened as text by .read().encode()")
    if isinstance(given, (list, tuple, set)):
        return TypeError(f"{said}: ask about each file by itself, or about many by tml.folder")
    if hasattr(given, "to_dict"):
        return TypeError(f"{said}: {cut_short(str(given), 200)}; tml.expect tells an answer that is not the wished one")
    return TypeError(f"{said}: give a str, a pathlib.Path, bytes, or what tml.read answered")


def is_a_document(text: str) -> TypeError:
    """The exception where the text of a document was given, and text is a path."""
    return TypeError(f"text is the path of a file, and this text is a document: give its bytes, by .encode() ({shown(text[:40])!r})")


def not_an_answerer(given: object) -> TypeError:
    """The exception where `by` is neither a library nor a program."""
    if isinstance(given, str) or hasattr(given, "__fspath__"):
        kind = "Library" if ".so" in str(given) else "Process"
        return TypeError(f"by is a tml.Library or a tml.Process, and not a path: write by=tml.{kind}({str(given)!r})")
    return TypeError(f"by is a tml.Library or a tml.Process, and not {type(given).__name__}")
