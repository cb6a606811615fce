"""HTML and SVG as values: whatever text stands in an element or an attribute is escaped, since only this module makes `Markup`.

Texts come from strangers. What XML does not allow, what cannot be printed and what could turn a line around is taken out of them too.
What is made is both XML and HTML.
"""

from __future__ import annotations

import functools
import html
import json
import re
import unicodedata
from collections.abc import Iterable
from typing import TypeAlias

JOINERS = "\u200c\u200d"
"""Format characters that some scripts need; the others are left out, since they could turn the texts around."""

WITHOUT_CONTENT = frozenset(("br", "circle", "ellipse", "hr", "input", "line", "link", "meta", "path", "polygon", "rect", "stop", "wbr"))
"""The elements that never have any."""

NAME = re.compile("[A-Za-z][A-Za-z0-9-]*")


class Markup:
    """Some markup. It is no text, so that none can be taken for the other."""

    __slots__ = ("text",)

    def __init__(self, text: str) -> None:
        self.text = text

    def __eq__(self, other: object) -> bool:
        return isinstance(other, Markup) and self.text == other.text

    def __hash__(self) -> int:
        return hash(self.text)

    def __bool__(self) -> bool:
        return bool(self.text)

    def __repr__(self) -> str:
        return f"Markup({self.text!r})"


Child: TypeAlias = Markup | str | int | None | Iterable["Child"]
"""What stands in an element: markup as it is, texts and numbers, which are escaped, and any number of these."""

Value: TypeAlias = str | int | float | None
"""The value of an attribute: None leaves it out."""

NOTHING = Markup("")
PICTURES = "http://www.w3.org/2000/svg"
DOCTYPE = "<!DOCTYPE html>\n"


def element(name: str, /, *children: Child, **attributes: Value) -> Markup:
    """An element. Attributes are named as arguments: `class_` is class, and `data_row` is data-row. Pictures get the name of SVG."""
    if name == "svg":
        attributes = {"xmlns": PICTURES, **attributes}
    written = [f" {attribute_name(key)}={quoted(value)}" for key, value in attributes.items() if value is not None]
    opening = checked(name) + "".join(written)
    if name in WITHOUT_CONTENT and not children:
        return Markup(f"<{opening}/>")
    return Markup(f"<{opening}>{inner(children)}</{name}>")


def together(*children: Child) -> Markup:
    """Some children without an element around them."""
    return Markup(inner(children))


def tags(name: str, /, **attributes: Value) -> tuple[Markup, Markup]:
    """The two tags of an element, for what is made part by part."""
    opening, closing = element(name, Markup("\0"), **attributes).text.split("\0")
    return Markup(opening), Markup(closing)


def lined(*children: Child) -> Markup:
    """The same, with an end of line after each that is not empty."""
    return Markup("".join([f"{text}\n" for text in map(inner_of, children) if text]))


def inner(children: Iterable[Child]) -> str:
    """The text of children."""
    return "".join(map(inner_of, children))


def inner_of(child: Child) -> str:
    """The text of a child."""
    if isinstance(child, Markup):
        return child.text
    if isinstance(child, str):
        return escaped(child)
    if child is None:
        return ""
    return str(child) if isinstance(child, int) else inner(child)


def raw(name: str, text: str, **attributes: Value) -> Markup:
    """A style or a script, in which nothing can be escaped. A text that HTML and XML would read differently is refused."""
    if name not in ("style", "script") or "<" in text or "&" in text:
        raise ValueError(f"this text cannot stand in the element {name}")
    return Markup(f"{element(name, **attributes).text.removesuffix(f'</{name}>')}{text}</{name}>")


def data(identifier: str, value: object) -> Markup:
    """A value for the scripts of a page, as JSON."""
    text = json.dumps(value, ensure_ascii=False, separators=(",", ":"))
    for sign in "<>&":
        text = text.replace(sign, f"\\u{ord(sign):04x}")
    return raw("script", text, type="application/json", id=identifier)


def html_file(root: Markup) -> str:
    """A page as a file."""
    return f"{DOCTYPE}{root.text}\n"


def svg_file(root: Markup) -> str:
    """A picture as a file."""
    return f'<?xml version="1.0" encoding="UTF-8"?>\n{root.text}\n'


@functools.cache
def attribute_name(key: str) -> str:
    """The name of an attribute, as it is written."""
    return checked(key.rstrip("_").replace("_", "-"))


@functools.cache
def checked(name: str) -> str:
    """A name that is one; others are refused."""
    if not NAME.fullmatch(name):
        raise ValueError(f"{name!r} is not a name in markup")
    return name


def quoted(value: str | int | float) -> str:
    """The value of an attribute, as it is written."""
    if isinstance(value, str):
        return f'"{escaped(value)}"'
    return f'"{number(value) if isinstance(value, float) else value}"'


def number(value: float) -> str:
    """A number as SVG has it, with one decimal at most."""
    return f"{value:.1f}".removesuffix(".0")


def escaped(text: str) -> str:
    """A harmless text as it stands in XML and HTML, between tags and in values."""
    return html.escape(text if text.isprintable() else harmless(text), quote=False).replace('"', "&quot;")


def harmless(text: str) -> str:
    """A text with its lines, of which all can be printed and nothing turns it around."""
    if text.replace("\n", "").isprintable():
        return text
    return "".join(map(printed, text.replace("\r\n", "\n").replace("\r", "\n")))


def printed(character: str) -> str:
    """A character as it may stand in markup: what cannot be printed is the replacement character."""
    if character.isprintable() or character in JOINERS or character == "\n":
        return character
    if character.isspace():
        return " "
    return "" if unicodedata.category(character) == "Cf" else "\ufffd"
