"""What all pages of a report share: their frame, and the small parts that sentences are made of."""

from __future__ import annotations

from collections.abc import Sequence

from tml.markup import NOTHING, Child, Markup, element, html_file, lined, together

from ..timeline.lettering import plain

POLICY = "style-src 'self'; script-src 'self'; base-uri 'none'; form-action 'none'"
"""Styles and scripts of files next to the page alone."""


def page_file(title: str, policy: str, head: Sequence[Markup], *body: Child) -> str:
    """A page as a file, which is XML too. It loads only what its policy names."""
    content = lined(
        element("meta", charset="utf-8"),
        element("meta", http_equiv="Content-Security-Policy", content=f"default-src 'none'; {policy}"),
        element("meta", name="viewport", content="width=device-width, initial-scale=1"),
        element("title", plain(title)),
        *head,
    )
    parts = lined(element("head", "\n", content), element("body", "\n", lined(*body)))
    return html_file(element("html", "\n", parts, xmlns="http://www.w3.org/1999/xhtml", lang="en"))


def framed(title: str, script: str, *content: Child, top: str = "") -> str:
    """A page as a file, which loads the style and a script that are in the folder above."""
    loaded = element("link", rel="stylesheet", href=f"{top}report.css"), element("script", src=f"{top}{script}", defer="")
    return page_file(title, POLICY, loaded, element("main", "\n", lined(*content)))


def isolated(text: str) -> Markup:
    """A text on one line, so that its direction matters to nothing around it."""
    return element("bdi", plain(text))


def coded(text: str) -> Markup:
    """The same, where what stands between backticks is code."""
    parts = plain(text).split("`")
    if len(parts) % 2 == 0:
        return isolated(text)
    return element("bdi", [element("code", part) if place % 2 else together(part) for place, part in enumerate(parts)])


def section(name: str, title: str, *content: Child) -> Markup:
    """A section with its heading; nothing where it has no content."""
    inside = lined(*content)
    return element("section", "\n", element("h2", title), "\n", inside, id=name, aria_label=title) if inside else NOTHING


def listed(*items: Child, kind: str | None = None) -> Markup:
    """A list; nothing where it has no items."""
    return element("ul", "\n", lined(*items), class_=kind) if items else NOTHING
