"""What the package `tml` uses of pandas."""

from collections.abc import Sequence
from typing import Any

class DataFrame:
    def __init__(self, data: Sequence[Sequence[Any]], index: Sequence[str], columns: Sequence[str]) -> None: ...
    def __getattr__(self, name: str) -> Any: ...
