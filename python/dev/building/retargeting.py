"""The module that rattle hands to its compiler, as text, and what of the text has to change for another processor or system.

Rattle has the module compiled for Linux on x86-64. All data lie as they do there wherever pointers have 64 bits.
"""

from __future__ import annotations

from collections.abc import Mapping
from pathlib import Path

from building.linking import CannotMake, run

TRIPLE = "x86_64-unknown-linux-gnu"
TARGET = f"""target datalayout = "e-m:e-p270:32:32-p271:32:32-p272:64:64-i64:64-i128:128-f80:128-n8:16:32:64-S128"
target triple = "{TRIPLE}"
"""
PROCESSOR = '"target-cpu"="x86-64-v2"'
SHUFFLE, TML_SHUFFLE = "@llvm.x86.ssse3.pshuf.b.128", "@tml_shuffle"
"""The one instruction that other processors lack, and the function of web/shuffle.c."""

SOUND = tuple(
    word
    for name in ("trap-unreachable", "disable-machine-licm", "disable-postra-machine-licm", "sink-common-insts=false")
    for word in ("-mllvm", f"-{name}")
)
"""What rattle has clang do, or leave, wherever it compiles for."""


def compiler_of(kit: str) -> str:
    """The compiler of the kit, which has no headers of C."""
    return f"{kit}/toolchain/bin/clang"


def text_of(clang: str, module: Path, folder: Path) -> str:
    """A module of LLVM as text, which is made in a folder."""
    text = folder / "handed.ll"
    run([clang, "-S", "-emit-llvm", "-x", "ir", str(module), "-o", str(text)])
    return text.read_text(encoding="utf-8")


def rewritten(text: str, changes: Mapping[str, str]) -> str:
    """The text with some parts in the place of others, each of which it has to have."""
    for old, new in changes.items():
        if old not in text:
            raise CannotMake(f"the module of rattle has no {old!r}")
        text = text.replace(old, new)
    return text
