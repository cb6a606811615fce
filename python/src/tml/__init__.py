"""Questions about TimeML documents, answered by the proved `tml`: by its library in this process, or else by the program.

    import tml

    match tml.check("samples/rates.xml"):
        case tml.Accepted() as accepted:
            print(accepted.intervals)
        case tml.Fault() as fault:
            print(fault)

docs/PYTHON.md describes the package.
"""

from __future__ import annotations

import sys
from importlib import import_module
from typing import TYPE_CHECKING, Any

if TYPE_CHECKING:
    from .asking import *
    from .confidence import *
    from .documents import *
    from .expecting import *
    from .folders import *
    from .library import *
    from .lines import *
    from .matrices import *
    from .misuse import *
    from .process import *
    from .questions import *
    from .results import *
    from .running import *
    from .statuses import *
    from .writing import *

__version__ = "0.5.0"
"""The version of everything. pyproject.toml and tools/release read it here, and a test holds the newest heading of CHANGELOG.md to it."""

MODULES = (
    "asking", "confidence", "documents", "expecting", "folders", "library", "lines", "matrices", "misuse", "process", "questions",
    "results", "running", "statuses", "writing",
)  # fmt: skip
"""The modules whose `__all__` together are the names of this package."""


def load() -> None:
    """Loads the modules of the package, once."""
    if "__all__" not in globals():
        loaded = [import_module(f".{module}", __name__) for module in MODULES]
        globals().update({known: getattr(module, known) for module in loaded for known in module.__all__})
        globals()["__all__"] = sorted(known for module in loaded for known in module.__all__)


if not TYPE_CHECKING:

    def __getattr__(name: str) -> Any:
        """Loads the package once a name of it is asked for, so that programs which need one module of it begin fast."""
        if not name.startswith("__") or name == "__all__":
            load()
        if name not in globals():
            # Python asks `dir` for a name that is near.
            raise AttributeError(f"module {__name__!r} has no attribute {name!r}", name=name, obj=sys.modules[__name__])
        return globals()[name]


def __dir__() -> list[str]:
    """The names of the package, and those that each module has."""
    load()
    return sorted({*globals()["__all__"], *(name for name in globals() if name.startswith("__"))})
