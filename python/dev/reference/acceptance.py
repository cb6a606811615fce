"""Whether a document is accepted: the section *Acceptance* of docs/DEFINITIONS.md."""

from __future__ import annotations

from dataclasses import dataclass

from .faults import Fault
from .nesting import Element, tree_fault, tree_of
from .references import Document, document_of, reference_fault
from .typed_tags import type_fault, typed_tags
from .units import cut, source_fault


@dataclass(frozen=True)
class Accepted:
    """An accepted document: its tree, and what it says."""

    tree: Element
    document: Document


def judge_document(source: bytes) -> Accepted | Fault:
    """The first fault of the first phase that has one; or else the document."""
    fault = source_fault(source)
    if fault:
        return fault
    units, _ = cut(source)
    fault = tree_fault(units, len(source)) or type_fault(units)
    if fault:
        return fault
    tags = typed_tags(units)
    return reference_fault(tags) or Accepted(tree_of(units), document_of(tags))
