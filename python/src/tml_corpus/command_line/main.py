"""The command line of `tml-corpus`.

Status 0 says that all was well, 1 that a document has a fault (or a clash, or an unknown tag), 2 that something could not
be run or read, and 130 that the run was interrupted.

What one command alone needs is imported where it is needed: most runs are `check`, often of one file.
"""

from __future__ import annotations

import argparse
import sys
from collections.abc import Callable, Iterator, Sequence
from contextlib import contextmanager
from functools import partial
from importlib import import_module
from typing import Any

from tml.finding import Answering, find
from tml.running import processors

from ..asking.pool import Interruption, in_order
from ..asking.program import CannotRun, Program
from ..files.finding import PATTERNS, Found, find_files
from ..files.standard_input import STANDARD_INPUT, StandardInput
from .output import complain, run
from .parser import parser
from .run import Files, Run
from .settings import Settings, settings_for
from .statuses import Status


class Words(argparse.Namespace):
    """The words that are read here; where a command does not have one of them it is as it stands here."""

    command: str
    config: str | None = None
    tml: str | None = None
    named_by: str = "--tml"
    library: str | None = ""
    cluster: str | None = None
    jobs: int | None = 1
    paths: Sequence[str] = ()
    glob: Sequence[str] | None = None
    document: str | None = None
    key: str | None = None
    format: str = "text"
    reads_input: bool = False
    stdin_name: str | None = None
    quiet: bool = False
    watch: bool = False
    write_baseline: bool = False


def main(words: Sequence[str] | None = None) -> int:
    """Runs the program and answers its status."""
    return run(command, words)


def command(words: list[str]) -> int:
    """Runs one command and answers its status."""
    read = parser(words[0] if words else None).parse_args(words, Words())
    settings = settings_of(read)
    with Interruption() as stop, prepared(read, settings, stop) as made:
        status = run_command(read, made)
        sys.stdout.flush()
        return Status.INTERRUPTED if made.is_interrupted() else status


def run_command(words: Words, made: Run) -> int:
    """Runs one command, where it is wanted again and again on the files that change, and answers its status."""
    module = import_module(f"..commands.{words.command}", __package__)
    work: Callable[[Run], int] = partial(module.command, options=options_of(module.Options, words))
    if not words.watch:
        return work(made)

    def look(found: list[Found]) -> None:
        work(made._replace(files=made.files._replace(changed=found)))

    from ..files.watch import watch

    watch(lambda: find_files(made.files.paths, made.files.patterns), look, made.stop)
    return 0


def options_of(kind: Any, words: Words) -> Any:
    """The options of a command, a named tuple of this kind, out of the words that were read."""
    return kind(**{name: getattr(words, name) for name in kind._fields})


@contextmanager
def prepared(words: Words, settings: Settings, stop: Interruption) -> Iterator[Run]:
    """The run: with the program, and what does the work on files in their order, the processors here or a cluster."""
    if words.cluster is None:
        # An editor is told only once it has greeted the server that there is no program.
        found = Answering("") if words.command == "serve" else find(words.tml, words.library, words.named_by)
        program = with_wrappers(Program(found.needed(), found.library), words, settings)
        order = partial(in_order, workers=max(words.jobs or settings.jobs or processors(), 1), prepare=program.load)
        yield Run(program, settings, files_of(words, settings), stop, order, words.quiet)
    else:
        from ..asking.cluster import connected

        found = find(words.tml, words.library, is_here=False)
        with connected(words.cluster, found.library, stop) as cluster:
            program = with_wrappers(cluster.program(found), words, settings)
            yield Run(program, settings, files_of(words, settings), stop, partial(cluster.in_order, prepare=program.load), words.quiet)


def settings_of(words: Words) -> Settings:
    """What the file of settings says that lies where the paths are; standard input lies in the current folder.

    A server looks for it where each document lies.
    """
    if words.command == "serve":
        return Settings()
    paths = words.paths or [path for path in (words.document, words.key) if path is not None]
    settings, remarks = settings_for(["." if path == STANDARD_INPUT else path for path in paths], words.config)
    for remark in remarks:
        complain(remark)
    return settings


def with_wrappers(program: Program, words: Words, settings: Settings) -> Program:
    """The program, asked without the tags of the corpus's own wrappers; `tags` counts these too."""
    if not settings.wrappers or words.command == "tags":
        return program
    from ..document.wrappers import Unwrapping

    return Unwrapping(program.path, settings.wrappers, program.library)


def files_of(words: Words, settings: Settings) -> Files:
    """The files that the command is about."""
    if words.watch and (words.format in ("junit", "json") or words.cluster is not None or STANDARD_INPUT in words.paths):
        raise CannotRun("--watch goes neither with --format junit or json, nor with --cluster, nor with -")
    if words.watch and words.write_baseline:
        raise CannotRun("--watch does not go with --write-baseline, which would keep only the last files")
    return Files(words.paths, words.glob or settings.patterns or PATTERNS, standard_input_of(words) if words.reads_input else None)


def standard_input_of(words: Words) -> StandardInput | None:
    """Standard input, where it is among the paths."""
    if STANDARD_INPUT not in words.paths:
        if words.stdin_name is not None:
            raise CannotRun("--stdin-name names the document of -, which is not among the paths")
        return None
    if words.cluster is not None:
        raise CannotRun("- cannot be judged on a cluster, whose workers have another standard input")
    return StandardInput(words.stdin_name)
