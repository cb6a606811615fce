"""Answers as dictionaries, of what `json` takes."""

from __future__ import annotations

from collections.abc import Mapping
from dataclasses import Field, fields, is_dataclass
from fractions import Fraction
from typing import Any

from .results import NOT_SHOWN, Fault, Score


def dictionary_of(answer: Any) -> dict[str, Any]:
    """An answer, which is a dataclass, by the names of its fields."""
    found = {one.name: plain(getattr(answer, one.name)) for one in fields(answer) if is_shown(one)}
    if isinstance(answer, Fault):
        found |= {"message": answer.message}
    if isinstance(answer, Score):
        found |= {name: plain(getattr(answer, name)) for name in ("precision", "recall", "f1")}
    return {"result": type(answer).__name__, **found}


def is_shown(one: Field[Any]) -> bool:
    """Whether a field is part of the answer."""
    return one.metadata != NOT_SHOWN


def plain(value: Any) -> Any:
    """A value as `json` takes it: bytes as text, fractions as numbers."""
    if is_dataclass(value):
        return dictionary_of(value)
    if isinstance(value, bytes):
        return value.decode("utf-8", "surrogateescape")
    if isinstance(value, Fraction):
        return float(value)
    if isinstance(value, Mapping):
        return {key: plain(one) for key, one in value.items()}
    if isinstance(value, tuple) and hasattr(value, "_asdict"):
        return {key: plain(one) for key, one in value._asdict().items()}
    return [plain(one) for one in value] if isinstance(value, (tuple, list)) else value
