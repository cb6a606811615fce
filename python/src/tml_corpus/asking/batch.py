"""What goes to a worker of a cluster and comes back, as bytes: some files and the work on them, and the results.

A worker has a copy of this package and of the package `tml` under names of their own, with a digest of the source in them, so that one
which serves several versions mixes none of them up. Each side reads the classes of the other as its own.
"""

from __future__ import annotations

import io
import pickle
import re
from collections.abc import Callable, Sequence
from functools import partial
from typing import Any

from tml.attempts import attempted
from tml.running import CannotRun

FAMILY, SHARED = "tml_corpus", "tml"
"""How the names of this package and of its copies begin, and those of the package `tml`."""

COPY = re.compile(rf"({FAMILY}|{SHARED})(?:_[0-9a-f]{{16}})?(\..*)?")
"""The name of a module of either package, or of a copy of it."""

OWN = {FAMILY: __name__.partition(".")[0], SHARED: CannotRun.__module__.partition(".")[0]}
"""The names that the two have here."""


class Reader(pickle.Unpickler):
    """Reads what another copy of these packages wrote."""

    def find_class(self, module: str, name: str) -> Any:
        found = COPY.fullmatch(module)
        return super().find_class(f"{OWN[found[1]]}{found[2] or ''}" if found else module, name)


def read(text: bytes) -> Any:
    """What was written so."""
    return Reader(io.BytesIO(text)).load()


def written(thing: object) -> bytes:
    """The bytes of a thing."""
    return pickle.dumps(thing)


def packed(results: Sequence[Any], given: Sequence[Any], failed: Callable[[Any, str], Any]) -> bytes:
    """The bytes of the results of some work. If one of them has none, that is a failure of what it was made of."""
    try:
        return written(results)
    except Exception:
        packable = [partial(lambda made, _: read(written(made)), result) for result in results]
        return written([attempted(work, one, failed) for work, one in zip(packable, given, strict=False)])


def do_batch(text: bytes) -> bytes:
    """The results of a batch: the text has what is done before it, the work, what is made of failures, and the files.

    It runs on the worker.
    """
    prepare, work, failed, files = read(text)
    prepare()
    return packed([attempted(work, file, failed) for file in files], files, failed)
