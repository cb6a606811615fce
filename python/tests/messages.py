#!/usr/bin/env python3
"""All messages of the tools: what they say to people, and their help.

usage: python/tests/messages.py            prints the list
       python/tests/messages.py --write    writes it to messages.txt, for somebody to read

A message is a text of a source with two words side by side, one of them in small letters; `{}` stands for a value. Of a page it is what
stands between its tags or in a title, and of a script in a page a text of it. test_messages.py holds messages.txt to this list.
"""

import ast
import re
import sys
from collections.abc import Iterator
from pathlib import Path

TOP = Path(__file__).resolve().parents[2]
FOLDERS = ("python/src", "python/dev/building", "python/dev/differential", "python/dev/reference", "python/dev/releasing")
LIST = Path(__file__).with_name("messages.txt")

WORD = r"(?:-{0,2}[A-Za-z][A-Za-z'-]*[A-Za-z]|a|I|\{\})"
SIDE_BY_SIDE = re.compile(rf"(?<![\w.<&-]){WORD}[,;:.?!)\"'`]*\s+[(\"'`<]*{WORD}(?![\w=-])")
SMALL_LETTERS = re.compile(r"(?<![\w.&<\\])[a-z]{2,}(?![\w=(])")
TAGS = (
    "a|body|button|div|em|h[1-3]|head|html|label|li|ol|output|p|path|pre|rect|section|span|style|sup|svg|table|td|text|th|title|tr|tspan|ul"
)
HTML = re.compile(rf"<(?:!DOCTYPE html|\?xml version|/?(?:{TAGS})\b)")
TITLES = re.compile(r"(?:aria-label|title|placeholder)=\"([^\"]*)\"")
SCRIPT = '"use strict"'
SCRIPT_TEXT = re.compile(r"\"((?:[^\"\\\n]|\\.)*)\"|`((?:[^`\\]|\\.)*)`")
STYLE = re.compile(r"\{[^{}]*:[^{}]*[;}]")
NO_MESSAGES = re.compile(
    r"\\[dws(]|^[A-Z_\s]+$|^<[A-Z0-9]+ [^>]*/?>(?:</[A-Z0-9]+>)?$|-src '|class=\"|^use strict$|^(?:bar|event|small) "
    r"(?:core|moving|number|unasserted)$"
)
FORMATS = ("python/src/tml/longest.py",)
"""Sources without messages, but with lines as `tml` prints them."""


def text_of(node: ast.expr) -> str | None:
    """The text that an expression makes, with `{}` for each value in it; or None, if it makes no text of its own."""
    match node:
        case ast.Constant(value=str(text)):
            return text
        case ast.JoinedStr(values=parts):
            return "".join("{}" if isinstance(part, ast.FormattedValue) else text_of(part) or "" for part in parts)
        case ast.BinOp(left=left, op=ast.Add(), right=right):
            texts = text_of(left), text_of(right)
            return None if texts == (None, None) else "".join("{}" if text is None else text for text in texts)
    return None


def explanations(tree: ast.AST) -> set[int]:
    """The texts that stand alone and so explain the code; that of a module that shows it as its help is a message."""
    shown = any(isinstance(node, ast.Name) and node.id == "__doc__" for node in ast.walk(tree))
    alone = [node.value for node in ast.walk(tree) if isinstance(node, ast.Expr) and isinstance(node.value, ast.Constant)]
    return set(map(id, alone[1:] if shown else alone))


def values_in(node: ast.expr) -> list[ast.expr]:
    """The values in the text that an expression makes."""
    match node:
        case ast.JoinedStr(values=parts):
            return [part.value for part in parts if isinstance(part, ast.FormattedValue)]
        case ast.BinOp(left=left, right=right):
            return [value for side in (left, right) for value in ([side] if text_of(side) is None else values_in(side))]
    return []


def texts_of(tree: ast.AST) -> Iterator[str]:
    """All texts of a source but explanations, in their order, those inside of the values of others after these."""
    left_out = explanations(tree)

    def below(node: ast.AST) -> Iterator[str]:
        text = text_of(node) if isinstance(node, ast.expr) and id(node) not in left_out else None
        if isinstance(node, ast.expr) and text is not None:
            yield text
        for child in ast.iter_child_nodes(node) if text is None or not isinstance(node, ast.expr) else values_in(node):
            yield from below(child)

    yield from below(tree)


def parts_of(text: str) -> list[str]:
    """What people read of a text: all of it, or the texts of a page, or of a script."""
    if SCRIPT in text:
        return [re.sub(r"\$\{[^{}]*\}", "{}", found[1] or found[2] or "") for found in SCRIPT_TEXT.finditer(text)]
    if HTML.search(text):
        return [*TITLES.findall(text), *re.split(r"<[^<>]*>", re.sub(r"\{\w+\}", "{}", text))]
    return [] if STYLE.search(text.replace("{}", "")) else [text]


def messages_of(source: str) -> list[str]:
    """The messages of a source, each once, in one line each."""
    parts = (part for text in texts_of(ast.parse(source)) for part in parts_of(text))
    messages = [part.strip() for part in parts if SIDE_BY_SIDE.search(part) and SMALL_LETTERS.search(part) and not NO_MESSAGES.search(part)]
    return list(dict.fromkeys(message.replace("\\", "\\\\").replace("\n", "\\n") for message in messages))


def listed() -> str:
    """The list: each source that has messages, and below it these."""
    lines = []
    for folder in FOLDERS:
        for path in sorted((TOP / folder).rglob("*.py")):
            name = path.relative_to(TOP).as_posix()
            found = messages_of(path.read_text(encoding="utf-8")) if name not in FORMATS else []
            lines += [name, *(f"    {message}" for message in found)] if found else []
    return "".join(f"{line}\n" for line in lines)


def main() -> None:
    """Prints or writes the list."""
    if sys.argv[1:] == ["--write"]:
        LIST.write_text(listed(), encoding="utf-8")
    elif sys.argv[1:]:
        sys.exit(__doc__)
    else:
        print(listed(), end="")


if __name__ == "__main__":
    main()
