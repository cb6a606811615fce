"""Keeps a case in a folder, and reads it again: its files as they are, and `case.json` for all else."""

from __future__ import annotations

import json
from pathlib import Path
from typing import Any

from differential.cases import Case, Memory, Output, Real

ABOUT = "case.json"


def shown(data: bytes) -> str:
    """Bytes as a text of which each character is one byte."""
    return data.decode("latin-1")


def keep(case: Case, folder: Path) -> None:
    """Writes a case to a folder that is made: the files have numbers for names there."""
    folder.mkdir(parents=True, exist_ok=True)
    names = []
    for number, (name, content) in enumerate(case.files.items()):
        (folder / f"file{number}").write_bytes(content)
        names.append(shown(name))
    about: dict[str, Any] = {"subject": case.subject, "words": [shown(word) for word in case.words], "files": names}
    if case.memory is not None:
        about["memory"] = vars(case.memory)
    if case.real is not None:
        folders = [shown(name) for name in case.real.folders]
        about["real"] = {"output": case.real.output.value, "input_closed": case.real.input_closed, "folders": folders}
    (folder / ABOUT).write_text(json.dumps(about, indent=1) + "\n", encoding="ascii")


def kept(folder: Path) -> Case:
    """The case that a folder keeps."""
    about = json.loads((folder / ABOUT).read_text(encoding="ascii"))
    files = {name.encode("latin-1"): (folder / f"file{number}").read_bytes() for number, name in enumerate(about["files"])}
    memory, real = None, None
    if "memory" in about:
        memory = Memory(**{name: tuple(value) if isinstance(value, list) else value for name, value in about["memory"].items()})
    if "real" in about:
        folders = tuple(name.encode("latin-1") for name in about["real"]["folders"])
        real = Real(Output(about["real"]["output"]), about["real"]["input_closed"], folders)
    return Case(about["subject"], tuple(word.encode("latin-1") for word in about["words"]), files, memory, real)
