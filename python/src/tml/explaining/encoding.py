"""Bytes that are not UTF-8: which encoding the file declares, and how its text looks in others."""

from __future__ import annotations

import codecs
import re
import unicodedata
from collections.abc import Iterator
from contextlib import suppress

from ..tags.edits import Edit
from ..tags.source import Explanation, Source

DECLARED = re.compile(rb"<\?xml[^>]{0,200}?encoding\s*=\s*[\"']([A-Za-z0-9._-]{1,40})[\"']")
NAMED = re.compile(r"(<\?xml[^>]{0,200}?encoding\s*=\s*[\"'])[A-Za-z0-9._-]{1,40}")
"""A declaration up to the end of the name of the encoding."""

LONGEST = 4
"""How many bytes a character has at most in any encoding."""

NAMES = {"iso8859-1": "Latin-1", "cp1252": "Windows-1252", "utf-16": "UTF-16"}
"""How an encoding is called."""

TRIED = (
    "cp1252", "cp1250", "iso8859-2", "cp1251", "koi8-r", "iso8859-5", "cp866", "cp1253", "cp1254", "cp1255", "cp1256", "cp1257", "tis-620",
    "mac-roman", "shift_jis", "euc_jp", "euc_kr", "gb18030", "big5",
)  # fmt: skip
"""The encodings in which a text is shown, the more frequent ones first."""

LOOKED_AT, SHOWN = 4096, 30
"""How many characters are looked at to see whether a text makes sense, and how many are shown on each side of the first one in doubt."""

TIMEML = re.compile(r"\ufeff?(?:\s++|<\?xml(?s:.*?)\?>|<!--(?s:.*?)-->|<!DOCTYPE[^<>]*+>)*+<TimeML(?=[\s/>])")
"""How a document begins whose root is `TimeML`."""

ESCAPED = re.compile("[\udc80-\udcff]")
PROPER = re.compile("[^\x00-\x7f\udc80-\udcff]")
WORD = re.compile(r"[^\W\d_]*[^\W\d_\x00-\x7f][^\W\d_]*")
"""A word with a letter that is not ASCII."""

SIGN = re.compile(r"[^\w\s\x00-\x7f]")
SIGNS = "°§©®€£¥¢×±½¼¾™"
"""Signs that a text may have, besides those of punctuation."""

TOGETHER = {"CJK", "HIRAGANA", "KATAKANA", "KATAKANA-HIRAGANA", "HANGUL"}
"""Scripts that one word may have together, by how the names of their letters begin."""


def not_utf8(source: Source, offset: int) -> Explanation:
    """Fault 1: one sentence for all bytes of the document that are not UTF-8."""
    document = source.document
    if offset >= len(document):
        return Explanation()
    found = Explanation(start=offset, end=offset + 1)
    text = document.decode("utf-8", "surrogateescape")
    wrong, byte, encoding = count(ESCAPED, text), document[offset], declared_encoding(document)
    if encoding is not None:
        called = NAMES.get(encoding, encoding)
        letter = f" ({letter_at(document, offset, encoding)} in {called})" if encoding != "utf-16" else ""
        first = f"the byte {byte:02X}{letter} is" if wrong == 1 or not letter else f"{wrong} bytes, the first one {byte:02X}{letter}, are"
        found.text = f"{first} not UTF-8: the file looks like {called}; `tml-corpus fix` turns it into UTF-8"
    elif ends_within_character(document, offset):
        found.text = "the file ends within a character, so its end was lost"
    elif count(PROPER, text.removeprefix("\ufeff")) < wrong:
        first = f"the byte {byte:02X} is" if wrong == 1 else f"{wrong} bytes, the first one {byte:02X}, are"
        found.text = f"{first} not UTF-8, and the file declares no encoding: `tml-corpus fix` shows its text in those that make sense"
    else:
        letter = bytes([byte]).decode("cp1252", "replace")
        hint = f" type {letter} again" if letter.isprintable() and letter != "\ufffd" else " type the character again"
        found.text = f"the byte {byte:02X} is not UTF-8, and other characters of the file are:{hint}"
    return found


def count(characters: re.Pattern[str], text: str) -> int:
    """How many characters of a text match an expression for one."""
    return len(text) - len(characters.sub("", text))


def letter_at(document: bytes, offset: int, encoding: str) -> str:
    """The character that a byte is in a document of an encoding, or begins, or goes on with."""
    for end in range(offset + 1, offset + 1 + LONGEST):
        with suppress(ValueError):
            return document[:end].decode(encoding)[-1]
    return document[offset : offset + 1].hex().upper()


def declared_encoding(document: bytes) -> str | None:
    """The encoding that the first bytes or the declaration of a file name, as Python calls it, if the file can be of it and is not UTF-8.

    In an encoding of several bytes for a character some of these are UTF-8 by chance, but most are not.
    """
    if document.startswith((b"\xff\xfe", b"\xfe\xff")):
        return "utf-16"
    found = DECLARED.search(document[:1000])
    name = decoding(document, found[1].decode()) if found else None
    if name is None:
        return None
    text = document.decode("utf-8", "surrogateescape")
    proper = count(PROPER, text.removeprefix("\ufeff"))
    is_by_chance = proper < count(ESCAPED, text) and len(document.decode(name)) < len(document)
    return name if is_by_chance or not proper else None


def decoding(document: bytes, name: str) -> str | None:
    """The name that Python has for an encoding, if that is another one than UTF-8 and the document can be of it."""
    with suppress(LookupError, ValueError):
        called = codecs.lookup(name).name
        if called not in ("utf-8", "ascii") and document.decode(called).encode(called) == document:
            return called
    return None


def ends_within_character(document: bytes, offset: int) -> bool:
    """Whether the file ends with the beginning of a character."""
    if len(document) - offset > 3:
        return False
    decoder = codecs.getincrementaldecoder("utf-8")()
    try:
        decoder.decode(document)
    except UnicodeDecodeError:
        return False
    return True


def converted(document: bytes, encoding: str | None) -> Iterator[Edit]:
    """The edit that turns a document of an encoding into UTF-8, its declaration included; none if it is not of it.

    There is none either if its root is not `TimeML`: bytes of almost any file can be read as Latin-1.
    """
    with suppress(LookupError, ValueError):
        text = document.decode(encoding) if encoding is not None else ""
        text = NAMED.sub(r"\1UTF-8", text[:1000], count=1) + text[1000:]
        if TIMEML.match(text):
            yield Edit(0, len(document), text.encode())


def is_undeclared(document: bytes) -> bool:
    """Whether a document is not UTF-8, with the exception of few characters by chance, and declares no encoding that it can be of."""
    text = document.decode("utf-8", "surrogateescape").removeprefix("\ufeff")
    return count(PROPER, text) < count(ESCAPED, text) and declared_encoding(document) is None


def readings(document: bytes, offset: int) -> Iterator[tuple[str, str]]:
    """The encodings in which a document makes sense that is not UTF-8 at a byte and declares no encoding, each with what is there.

    Of several encodings in which the same is there the first one is named.
    """
    if not is_undeclared(document):
        return
    seen = set()
    start = max(document.rfind(b"\n", 0, offset) + 1, offset - SHOWN)
    for name in TRIED:
        with suppress(ValueError):
            document.decode(name)
            text = document[start : offset + LOOKED_AT].decode(name, "ignore")
            if makes_sense(text) and text not in seen:
                seen.add(text)
                yield name, text[: offset - start + SHOWN].split("\n")[0].strip()


def makes_sense(text: str) -> bool:
    """Whether nearly all letters of a text that are not ASCII are in words of one script and of one case, and all signs are signs."""
    words = WORD.findall(text)
    alike = sum(word in (word.lower(), word.upper(), word.capitalize()) and len(set(map(script_of, word))) == 1 for word in words)
    return 10 * alike >= 9 * len(words) and all(sign in SIGNS or unicodedata.category(sign)[0] == "P" for sign in SIGN.findall(text))


def script_of(letter: str) -> str:
    """The script of a letter."""
    name = unicodedata.name(letter, "").split(" ")[0]
    return "CJK" if name in TOGETHER else name
