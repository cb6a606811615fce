"""What a file of settings says."""

from __future__ import annotations

import re

from tml.running import processors

from ..asking.program import CannotRun
from ..files.finding import CannotRead, Found, read_document
from ..files.watch import signature
from ..lint.kinds import NAMES
from .settings import Settings

LIMIT = 16 * 1024
"""How many bytes the file may have."""

MOST_JOBS = 4
"""How many jobs for each processor the file may ask for; more count as this many."""

TEXT = r""""{3}(?:\\.|[^\\])*?(?:"{3,5}|\Z)|'{3}.*?(?:'{3,5}|\Z)|"(?:\\.|[^"\\\n])*+"?|'[^'\n]*+'?"""
TEXT_OR_DOT = re.compile(rf"{TEXT}|#[^\n]*|(\.)", re.DOTALL)
"""A text or a comment of TOML, which may lack its end; or a dot that stands in neither, as in the name of a table within a table."""

TAG_NAME = r"[A-Za-z_:\x80-\U0010ffff][A-Za-z0-9_:.\x80-\U0010ffff-]*"


class Remembering:
    """Reads files of settings for a program that goes on: each of them once, until it changes."""

    def __init__(self) -> None:
        self.known: dict[str, tuple[object, Settings | str]] = {}
        """Of each file what changes when it does, and its settings, or what is wrong with them."""

    def read(self, path: str) -> Settings:
        """The settings of a file."""
        now = signature(Found(path))
        before, found = self.known.get(path, (None, ""))
        if before != now:
            try:
                found = read_settings(path)
            except CannotRun as problem:
                found = str(problem)
            self.known[path] = now, found
        if isinstance(found, str):
            raise CannotRun(found)
        return found


def read_settings(path: str) -> Settings:
    """The settings of a file."""
    import tomllib

    try:
        text = read_text(path)
        table = tomllib.loads(text)
    except (CannotRead, UnicodeDecodeError, RecursionError) as problem:
        raise CannotRun(f"{path} cannot be read: {problem}") from None
    except tomllib.TOMLDecodeError as error:
        place = re.search(r"\(at line (\d+), column (\d+)\)", str(error))
        line, column = (place[1], place[2]) if place else line_and_column(text, len(text))
        raise CannotRun(f"{path}:{line}:{column}: {str(error).split(' (at ')[0]}") from None
    except ValueError:
        raise CannotRun(f"{path} cannot be read: a number has too many digits") from None
    return settings_of(path, table)


def read_text(path: str) -> str:
    """The text of a file of settings that may be read as TOML.

    Names within names, with dots between them, take the reader of TOML memory in the square of how many there are. No setting has any.
    """
    content = read_document(path)
    if len(content) > LIMIT:
        raise CannotRead(f"it has more than {LIMIT:,} bytes")
    text = content.decode("utf-8")
    dot = next((found.start() for found in TEXT_OR_DOT.finditer(text) if found[1]), None)
    if dot is not None:
        line, column = line_and_column(text, dot)
        raise CannotRun(f"{path}:{line}:{column}: there is a dot outside of a text, and no setting has one")
    return text


def line_and_column(text: str, offset: int) -> tuple[int, int]:
    """The line and the column of a character, from 1 on."""
    return text.count("\n", 0, offset) + 1, offset - text.rfind("\n", 0, offset)


def settings_of(path: str, table: dict[str, object]) -> Settings:
    """The settings of a table."""
    from tml.tags.profile import TAGS

    unknown = sorted(set(table) - {"wrappers", "ignore", "warn", "patterns", "jobs"})
    if unknown:
        raise CannotRun(f"{path}: there is no setting {unknown[0]}: there are wrappers, ignore, warn, patterns and jobs")
    lists = {name: texts(path, name, table.get(name, [])) for name in ("wrappers", "ignore", "warn", "patterns")}
    for name in (*lists["ignore"], *lists["warn"]):
        if name not in NAMES:
            raise CannotRun(f"{path}: there is no warning {name}: there are {', '.join(NAMES)}")
    for name in lists["wrappers"]:
        if not re.fullmatch(TAG_NAME, name):
            raise CannotRun(f"{path}: {name} is not the name of a tag")
        if name in TAGS:
            raise CannotRun(f"{path}: {name} is a tag that tml knows, so it cannot be a wrapper of this corpus")
    jobs = table.get("jobs")
    if jobs is not None and (type(jobs) is not int or jobs < 1):
        raise CannotRun(f"{path}: jobs has to be a number from 1 on")
    return Settings(path, jobs=min(jobs, MOST_JOBS * processors()) if isinstance(jobs, int) else None, **lists)


def texts(path: str, name: str, value: object) -> tuple[str, ...]:
    """A list of texts."""
    if not isinstance(value, list) or not all(isinstance(one, str) for one in value):
        raise CannotRun(f'{path}: {name} has to be a list of texts, as {name} = ["a", "b"]')
    return tuple(value)
