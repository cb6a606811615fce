#!/usr/bin/env python3
"""Counts the instructions of `tml` beside those of bench/plain/plain.rs, which says the same and is written by hand.

Builds the plain program, makes documents, and runs both programs over each of them. Both have to print the same bytes and end
with the same status; where the answer is free, `tml verify` or `tml confirm` has to accept what the plain program printed. Prints
a table in Markdown: the millions of instructions of both programs by callgrind (Debian's valgrind) and their ratio, and the
peak memory of both in MiB and its ratio, which stay empty where GNU time (Debian's time) is missing. Needs rustc in the PATH.
Build `tml` first, as README.md says.

usage: bench/beside.py [--tml TML] [--plain PLAIN] [COMMAND ...]
"""

from __future__ import annotations

import argparse
import itertools
import re
import string
import subprocess
import sys
import tempfile
from collections.abc import Callable
from pathlib import Path

from by_hand import built
from canon import many_attributes
from measure import (
    MIB,
    NULL,
    PREFIX,
    SUFFIX,
    annotated_text,
    deepest_nesting,
    events,
    events_in_no_order,
    filled,
    numbered,
    one_text,
    peak_memory,
    shown,
)
from reduce import chain_shuffled, many_of_many, written
from solve import chain_in_order, clash_at_the_last, random_links

HERE = Path(__file__).resolve().parent
SIZE = 4 * MIB
INSTANCES, DATES, LINKS = 400, 100, 4000
ATTRIBUTES = 400_000
CLASH = 2


def shortest_tags() -> bytes:
    """The shortest empty tags."""
    return filled(b"<P/>", SIZE)


def comments() -> bytes:
    """Comments, each with a reference after it."""
    return filled(b"<!--x-->&lt;", SIZE)


def one_tag() -> bytes:
    """A tag of very many attributes, whose names stand in no order."""
    names = ["".join(letters) for letters in itertools.islice(itertools.product(string.ascii_letters, repeat=4), ATTRIBUTES)]
    parts = (f' {names[number * 7919 % ATTRIBUTES]}=""' for number in range(ATTRIBUTES))
    return PREFIX[:-1] + "".join(parts).encode() + b">" + SUFFIX


def sentence(number: int) -> bytes:
    """A sentence as corpora have it. The first ones have a date each, since a document may have no more of these."""
    date = b"on Wednesday"
    if number < DATES:
        date = b'<TIMEX3 tid="t%d" type="DATE" value="1998-%02d-%02d">%s</TIMEX3>' % (number, number % 12 + 1, number % 28 + 1, date)
    return (
        b'<s>The board <EVENT eid="e%d" class="REPORTING">said</EVENT> %s that rates would <EVENT eid="f%d" class="OCCURRENCE">fall</EVENT>'
        b' <SIGNAL sid="s%d">before</SIGNAL> the meeting of its members &amp; guests.</s>\n'
    ) % (number, date, number, number)


def links() -> bytes:
    """The instances of the first sentences, and links between them and to the dates."""
    instance = b'<MAKEINSTANCE eiid="ei%d" eventID="e%d" tense="PAST" aspect="NONE" pos="VERB" polarity="POS"/>\n'
    order = b'<TLINK lid="l%d" eventInstanceID="ei%d" relatedToEventInstance="ei%d" signalID="s%d" relType="BEFORE"/>\n'
    dated = b'<TLINK lid="l%d" eventInstanceID="ei%d" relatedToTime="t%d" relType="IS_INCLUDED"/>\n'
    inner = b'<SLINK lid="m%d" eventInstanceID="ei%d" subordinatedEventInstance="ei%d" relType="EVIDENTIAL"/>\n'
    parts = [instance % (number, number) for number in range(INSTANCES)]
    for number in range(LINKS):
        first, second = number % INSTANCES, number * 7 % INSTANCES
        parts.append(dated % (number, first, number % DATES) if number % 3 else order % (number, first, second, number))
        parts.append(inner % (number, first, second))
    return b"".join(parts)


def corpus_text() -> bytes:
    """Annotated text with dates and signals, and after it as many instances and links as a document may have, nearly."""
    declaration, after = b'<?xml version="1.0" ?>\n', links()
    document = numbered(b"\n", sentence, SIZE - len(declaration) - len(after))
    return declaration + document.removesuffix(b"</TimeML>") + after + b"</TimeML>"


def chain_in_no_order() -> bytes:
    """A chain of intervals, the names and links of which stand in no order."""
    return written(chain_shuffled()[0], 30)


def links_in_no_order() -> bytes:
    """As many links as a document may have, between intervals whose names stand in no order."""
    return written(many_of_many()[0], 30)


Maker = Callable[[], bytes]
TEXTS: dict[str, Maker] = {
    "`<P/>`": shortest_tags,
    "comments and references": comments,
    "EVENTs": lambda: events(SIZE),
    "EVENTs in no order": lambda: events_in_no_order(SIZE),
    "annotated text": lambda: annotated_text(SIZE),
    "text with all kinds of tags": corpus_text,
    "one text": lambda: one_text(SIZE),
    "one tag, 400,000 attributes": one_tag,
    "attributes in no order": lambda: many_attributes(SIZE),
    "deepest nesting": lambda: deepest_nesting(SIZE),
}
NETS: dict[str, Maker] = {
    "a chain": chain_in_order,
    "a chain in no order": chain_in_no_order,
    "4,096 links": random_links,
    "4,096 links in no order": links_in_no_order,
}
CLASHES: dict[str, Maker] = {"a clash": clash_at_the_last}
ROWS: dict[str, dict[str, Maker]] = {
    "spans": {name: TEXTS[name] for name in ("`<P/>`", "annotated text", "text with all kinds of tags")},
    "check": TEXTS,
    "canon": {name: TEXTS[name] for name in ("annotated text", "text with all kinds of tags", "attributes in no order", "`<P/>`")},
    "solve": NETS | CLASHES,
    "relations": NETS,
    "matrix": NETS,
    "reduce": NETS,
    "seconds": NETS | CLASHES,
}


def instructions(words: list[str]) -> float:
    """The millions of instructions of a run."""
    callgrind = ["valgrind", "--tool=callgrind", "--callgrind-out-file=/dev/null"]
    told = subprocess.run(callgrind + words, stdin=NULL, stdout=NULL, stderr=subprocess.PIPE, text=True, check=False).stderr
    collected = re.search(r"Collected : (\d+)", told)
    if collected is None:
        sys.exit(f"{' '.join(words)}: callgrind counted nothing: {told}")
    return int(collected[1]) / 1e6


def printed(words: list[str]) -> tuple[int, bytes]:
    """The status of a run, and what it prints."""
    run = subprocess.run(words, stdin=NULL, stdout=subprocess.PIPE, check=False)
    return run.returncode, run.stdout


def say_the_same(tml: str, plain: str, command: str, path: Path) -> bool:
    """Whether both programs print the same, or one answer of those that are free."""
    (status, text), (other, by_hand) = (printed([program, command, str(path)]) for program in (tml, plain))
    if status != other or (text != by_hand and command != "seconds" and status != CLASH):
        return False
    evidence = path.with_suffix(".evidence")
    evidence.write_bytes(by_hand)
    judge = "confirm" if command == "seconds" else "verify"
    return text == by_hand or printed([tml, judge, str(path), str(evidence)])[0] == 0


def row(tml: str, plain: str, command: str, path: Path) -> str:
    """The columns of a command over a document."""
    if not say_the_same(tml, plain, command, path):
        sys.exit(f"{command} {path.name}: the two programs do not say the same")
    counts = [instructions([program, command, str(path)]) for program in (tml, plain)]
    kib = [peak_memory([program, command, str(path)]) for program in (tml, plain)]
    memory = [None if size is None else size / 1024 for size in kib]
    of_memory = memory[0] / memory[1] if memory[0] and memory[1] else None
    columns = [f"{count:.1f}" for count in counts] + [f"{counts[0] / counts[1]:.2f}"]
    return " | ".join(columns + [shown(size, ".1f") for size in memory] + [shown(of_memory, ".2f")])


def arguments() -> argparse.Namespace:
    """The words of the command line."""
    parser = argparse.ArgumentParser(description="Counts the instructions of tml beside those of a program that is written by hand.")
    parser.add_argument("--tml", default=str(HERE.parent / "crates" / "tml" / "out" / "tml"), help="the program to measure")
    parser.add_argument("--plain", help="the program by hand, where it is built already")
    parser.add_argument("commands", nargs="*", metavar="COMMAND", help=f"{', '.join(ROWS)} (all of them)")
    chosen = parser.parse_args()
    if unknown := set(chosen.commands) - set(ROWS):
        parser.error(f"no such command: {' '.join(sorted(unknown))}")
    return chosen


def main() -> None:
    """Counts and prints the table."""
    chosen = arguments()
    with tempfile.TemporaryDirectory() as folder:
        plain = chosen.plain or built(Path(folder))
        print("| command | document | `tml`, millions | by hand | ratio | `tml`, MiB | by hand | ratio |")
        print("|---|---|--:|--:|--:|--:|--:|--:|")
        path = Path(folder) / "document"
        for command in chosen.commands or ROWS:
            for name, make in ROWS[command].items():
                path.write_bytes(make())
                print(f"| `{command}` | {name} | {row(chosen.tml, plain, command, path)} |", flush=True)


if __name__ == "__main__":
    main()
