"""The canonical text of a tree: the section *Canonical texts* of docs/DEFINITIONS.md."""

from __future__ import annotations

from .nesting import Element, Leaf


def written(node: Element | Leaf) -> bytes:
    """A node of the canonical tree as it is written: attributes in the byte order of their names, `&quot;` for `"`."""
    if isinstance(node, Leaf):
        return node.text
    attributes = sorted(node.attributes, key=lambda one: one.name)
    values = [b' %s="%s"' % (one.name, one.value.replace(b'"', b"&quot;")) for one in attributes]
    tag = node.name + b"".join(values)
    if not node.children:
        return b"<" + tag + b"/>"
    return b"<" + tag + b">" + b"".join(written(child) for child in node.children) + b"</" + node.name + b">"


def canonical_text(root: Element) -> bytes:
    """The canonical text of a tree."""
    return written(root) + b"\n"
