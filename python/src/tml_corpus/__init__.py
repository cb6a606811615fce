"""A companion to `tml` for whole corpora: every judgement comes from `tml`, none is made again here.

    import tml_corpus

    for judgement in tml_corpus.check_folder("samples"):
        print(judgement.path, judgement.accepted())
"""

TYPE_CHECKING = False
"""As that of `typing`, which is not imported here: a command comes by this package before it can say that memory does not last."""

if TYPE_CHECKING:
    from typing import Any

    from .functions import *

    VERSION: str
    """The version of the companions, which is that of the package `tml`."""


def __getattr__(name: str) -> "Any":
    """Loads the functions and the version of the package once they are asked for, so that a command can begin in little memory."""
    if name == "VERSION":
        from tml import __version__

        return __version__
    from importlib import import_module

    if not name.startswith("_") and name in (functions := import_module(".functions", __name__)).__all__:
        return getattr(functions, name)
    raise AttributeError(f"module {__name__!r} has no attribute {name!r}")
