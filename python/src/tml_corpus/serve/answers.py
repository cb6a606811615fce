"""The requests about documents, by the names of their methods: each takes what the client can do, a document and what it sent."""

from __future__ import annotations

from collections.abc import Callable
from dataclasses import dataclass

from .actions import actions
from .completion import completion
from .document import OpenDocument
from .hover import hover
from .names import definition, references, symbols
from .places import UTF_16
from .rename import prepare_rename, rename
from .wire import Json, member


@dataclass
class Client:
    """What the client said of itself."""

    encoding: str = UTF_16
    symbols_as_tree: bool = False
    creates_files: bool = False
    initialized: bool = False
    shut_down: bool = False


Answer = Callable[[Client, OpenDocument, Json], Json]


def offset_in(document: OpenDocument, params: Json) -> int:
    """The offset of the position that a request is about."""
    return document.places.offset(member(params, "position", kind=dict))


def at_position(answer: Callable[[OpenDocument, int], Json]) -> Answer:
    """The answer to a request about a position."""
    return lambda _, document, params: answer(document, offset_in(document, params))


def asked_references(_: Client, document: OpenDocument, params: Json) -> Json:
    """The answer to a request for references."""
    declared = member(params, "context", "includeDeclaration", kind=bool, default=True)
    return references(document, offset_in(document, params), with_definition=declared)


def asked_rename(_: Client, document: OpenDocument, params: Json) -> Json:
    """The answer to a request for another name."""
    return rename(document, offset_in(document, params), member(params, "newName", kind=str))


def asked_symbols(client: Client, document: OpenDocument, _: Json) -> Json:
    """The answer to a request for symbols."""
    return symbols(document, as_tree=client.symbols_as_tree)


def asked_actions(client: Client, document: OpenDocument, params: Json) -> Json:
    """The answer to a request for what can be done."""
    only = member(params, "context", "only", kind=list, default=None)
    kinds = None if only is None else [one for one in only if isinstance(one, str)]
    stretch = document.places.stretch(member(params, "range", kind=dict))
    return actions(document, stretch, kinds, creates_files=client.creates_files)


ANSWERS: dict[str, Answer] = {
    "textDocument/hover": at_position(hover),
    "textDocument/definition": at_position(definition),
    "textDocument/completion": at_position(completion),
    "textDocument/references": asked_references,
    "textDocument/prepareRename": at_position(prepare_rename),
    "textDocument/rename": asked_rename,
    "textDocument/documentSymbol": asked_symbols,
    "textDocument/codeAction": asked_actions,
}
