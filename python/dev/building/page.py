"""The page tml.html: web/page.html with its style, its scripts, their tables, and the module, so that one file has it all.

Editors know the sources as they are: a page, a style, and modules that import each other. A browser that opens a file from the disk loads
no module next to it, so each script comes after those that it imports, without `import` and `export`. The sentences on faults, the orders
of relations and the colours are those of the companions.
"""

from __future__ import annotations

import re
from base64 import b64encode
from hashlib import sha256

from building.compiling import TOP
from building.linking import CannotMake
from tml.explaining.faults import SENTENCES
from tml.markup import data
from tml.statuses import BASE_RELATIONS, FAULT_NAMES, ORDERS
from tml_corpus.figure.shapes import FILLINGS, PALE
from tml_corpus.matrix.orders import SIGNS
from tml_corpus.pages.colours import variables
from tml_corpus.pages.index import FOR_BROWSERS

SOURCES = TOP / "web"
NAME = FOR_BROWSERS
EXAMPLE = TOP / "samples/port.xml"
PLACES = {
    "policy": '<meta http-equiv="Content-Security-Policy" content="default-src \'self\'">',
    "style": '<link rel="stylesheet" href="page.css">',
    "script": '<script type="module" src="page.mjs"></script>',
}
"""What of the page is replaced."""

IMPORT = re.compile(r'^import \{[^}]*\} from "\./(\w+\.mjs)";\n', re.MULTILINE)
OF_NODE = "// The program, in Node."
"""The line of tml.mjs from which on a page needs nothing."""

TOP_LEVEL = re.compile(r"^(?:async )?(?:const|let|function|class) (\w+)", re.MULTILINE)
"""The names that a module has for all of a script."""

ENDS = re.compile(r"</(?:script|style)|<!--", re.IGNORECASE)
"""What a script or a style in a page may not have."""


def page_of(module: bytes) -> bytes:
    """The page that has this module."""
    page = (SOURCES / "page.html").read_text(encoding="utf-8")
    style, script = variables() + (SOURCES / "page.css").read_text(encoding="utf-8"), bundled("page.mjs")
    made = {
        "policy": f'<meta http-equiv="Content-Security-Policy" content="{policy(style, script)}">',
        "style": inlined("style", "", style),
        "script": "\n".join(
            [
                data("tables", tables()).text,
                inlined("script", ' type="text/plain" id="worker"', bundled("worker.mjs")),
                inlined("script", ' type="text/plain" id="module"', b64encode(module).decode()),
                inlined("script", ' type="module"', script),
            ]
        ),
    }
    for name, place in PLACES.items():
        if page.count(place) != 1:
            raise CannotMake(f"web/page.html needs exactly one line {place}")
        page = page.replace(place, made[name])
    return page.encode()


def policy(style: str, script: str) -> str:
    """What the page may load: its own style, its own script and its worker. Nothing that it has can go anywhere."""
    parts = {
        "default-src": "'none'",
        "script-src": f"{digest(script)} 'wasm-unsafe-eval'",
        "style-src": digest(style),
        "worker-src": "blob:",
        "base-uri": "'none'",
        "form-action": "'none'",
    }
    return "; ".join(f"{name} {value}" for name, value in parts.items())


def digest(text: str) -> str:
    """A text as the policy of a page names it."""
    return f"'sha256-{b64encode(sha256(text.encode()).digest()).decode()}'"


def inlined(element: str, attributes: str, text: str) -> str:
    """A style or a script in the page."""
    end = ENDS.search(text)
    if end is not None:
        raise CannotMake(f"a {element} has {end[0]}, which ends it too early")
    return f"<{element}{attributes}>{text}</{element}>"


def tables() -> dict[str, object]:
    """The tables of the scripts: the sentence on each fault, the orders of each relation, colours, and a document to begin with."""
    return {
        "faults": {name: SENTENCES[number] for number, name in enumerate(FAULT_NAMES, 1)},
        "orders": ORDERS,
        "base": BASE_RELATIONS,
        "signs": SIGNS,
        "fillings": {kind: {"full": colour, "pale": PALE.get(kind, colour)} for kind, (colour, _) in FILLINGS.items()},
        "example": EXAMPLE.read_text(encoding="utf-8"),
    }


def bundled(name: str) -> str:
    """A script with all that it imports."""
    text = "".join(map(plain, dict.fromkeys(modules_of(name))))
    names = TOP_LEVEL.findall(text)
    if len(set(names)) < len(names):
        raise CannotMake(f"the modules of {name} have the same name twice: {max(names, key=names.count)}")
    return f'"use strict";\n{text}'


def modules_of(name: str) -> list[str]:
    """The modules that a script needs, each after those that it imports, the script last."""
    imported = IMPORT.findall((SOURCES / name).read_text(encoding="utf-8"))
    return [one for other in imported for one in modules_of(other)] + [name]


def plain(name: str) -> str:
    """A module as a part of a script."""
    text = (SOURCES / name).read_text(encoding="utf-8").split(OF_NODE)[0]
    return re.sub(r"^export ", "", IMPORT.sub("", text), flags=re.MULTILINE)
