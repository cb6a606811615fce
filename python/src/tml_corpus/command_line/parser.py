"""The words of the command line of `tml-corpus`: its commands and their options."""

from __future__ import annotations

import argparse
from collections.abc import Callable, Mapping

from ..files.finding import PATTERNS, shown
from ..lint.kinds import NAMES
from .output import Parser, ProgramParser, RawFormatter

EXAMPLES = """Examples:
  tools/tml-corpus {0} samples
  tools/tml-corpus {0} --cluster tcp://head:8786 --tml /shared/bin/tml /shared/corpus"""
FORMS = ("text", "json", "jsonl", "junit", "github")
MATRIX_FORMS = ("text", "csv", "html")
AGREE_FORMS = ("text", "json", "jsonl", "csv")
SECONDS_FORMS = ("text", "json", "csv", "ics")
TOUCHING = "read links between dates that touch as the relation that holds, such as IBEFORE for BEFORE, and list them"


def parser(chosen: str | None = None) -> Parser:
    """The words that are understood: those of one command where it is chosen, since to make all of them takes longer than to read them."""
    whole = ProgramParser(prog="tml-corpus", description="Asks tml about all documents of a corpus.")
    commands = whole.add_subparsers(required=True, metavar="COMMAND", dest="command", parser_class=Parser)
    for name, (about, add_words) in COMMANDS.items():
        if chosen not in COMMANDS or name == chosen:
            add_words(commands.add_parser(name, help=about))
    return whole


def check_words(words: Parser) -> None:
    """The words of `check`."""
    words.epilog, words.formatter_class = EXAMPLES.format("check"), RawFormatter
    explain = "say what is at fault and how to mend it, and mark it (the default)"
    words.add_argument("--explain", action=argparse.BooleanOptionalAction, default=True, help=explain)
    words.add_argument("--clashes", action="store_true", help="also show the links that contradict each other")
    names = f"one of {', '.join(NAMES)}"
    words.add_argument("--lint", action="store_true", help="warn of what tml accepts but an annotator probably did not mean")
    words.add_argument("--ignore", action="append", choices=NAMES, default=[], metavar="NAME", help=f"omit warnings of this kind: {names}")
    too = "also give warnings of this kind, such as unknown-attribute"
    words.add_argument("--warn", action="append", choices=NAMES, default=[], metavar="NAME", help=too)
    words.add_argument("--strict", action="store_true", help="end with status 1 if there is a warning")
    words.add_argument("--baseline", metavar="FILE", help="omit the warnings that this file lists")
    words.add_argument("--write-baseline", action="store_true", help="write the present warnings to the file of --baseline")
    report_words_of(words, "faults or clashes")
    corpus_words(words, cluster=True)


def clashes_words(words: Parser) -> None:
    """The words of `clashes`."""
    words.epilog, words.formatter_class = EXAMPLES.format("clashes"), RawFormatter
    words.add_argument("--evidence", metavar="FOLDER", help="keep the evidence of each clash in this folder")
    words.add_argument("--repair", action="store_true", help="find a smallest set of links without which a timeline fits")
    report_words_of(words, "clashes")
    corpus_words(words, cluster=True)


def tags_words(words: Parser) -> None:
    """The words of `tags`."""
    corpus_words(words)


def fix_words(words: Parser) -> None:
    """The words of `fix`."""
    words.description = (
        "Fixes each fault that one wrong keystroke explains, if only one meaning is left, and notations that tml does not read, such as "
        "HTML entities, CDATA and the encoding that a file declares. It prints the changes, and writes them with --write. What may have "
        "been meant elsewhere it prints as a question. The status is 0 if tml then accepts each file."
    )
    words.epilog = "Example: tools/tml-corpus fix samples"
    what = words.add_mutually_exclusive_group()
    what.add_argument("--diff", action="store_true", help="print the changes and write nothing (the default)")
    what.add_argument("--write", action="store_true", help="overwrite the files with the fixed documents")
    words.add_argument("--unsafe", action="store_true", help="also make changes that are only probable: names, values, dates")
    encoding = "turn files that are not UTF-8 and declare no encoding into UTF-8 from this one, such as cp1251"
    words.add_argument("--from", dest="encoding", type=encoding_of, metavar="ENCODING", help=encoding)
    corpus_words(words)


def encoding_of(name: str) -> str:
    """The name of an encoding of text."""
    try:
        "".encode(name)
    except (LookupError, ValueError):
        raise argparse.ArgumentTypeError(f"Python knows no encoding {shown(name)}") from None
    return name


def timeline_words(words: Parser) -> None:
    """The words of `timeline`, which is about one document."""
    words.description = (
        "Draws what is known of the order of the intervals of a document. If links clash it names them and draws the first clash, "
        "and if the document has a fault it names that and draws its place; the status is then 1."
    )
    words.formatter_class = RawFormatter
    words.epilog = (
        "Example: tools/tml-corpus timeline samples/rates.xml -o rates.html\n"
        "         tools/tml-corpus timeline --bare --width 84mm samples/rates.xml -o rates.pdf"
    )
    document_words(words)
    picture = "the picture: FILE.svg, or FILE.html with the links of each row; with --bare .svg, .pdf or .tex; - is SVG on standard output"
    words.add_argument("-o", "--output", type=picture_name, required=True, metavar="FILE", help=picture)
    touching_words(words)
    words.add_argument("--seconds", action="store_true", help="draw a placing in whole seconds, true to scale, as tml seconds has it")
    words.add_argument("--asserted", action="store_true", help="leave out the events that the document does not assert, and their links")
    words.add_argument("--text-order", action="store_true", help="order the rows as in the text")
    words.add_argument("--bare", action="store_true", help="draw a small picture for a paper")
    words.add_argument("--width", type=figure_width, metavar="WIDTH", help="the width of such a picture, as 84mm or 3.3in (84mm)")
    words.add_argument("--rows", metavar="NAMES", help="draw these intervals alone, as ei1,ei2,t1")
    words.add_argument("--around", metavar="NAME", help="draw this interval alone, with those that say when it is")
    between = "draw alone what lies from the start of the one interval to the end of the other"
    words.add_argument("--between", nargs=2, metavar=("FIRST", "LAST"), help=between)
    without = "leave out the words around events"
    words.add_argument("--no-context", action="store_false", dest="context", help=without)
    shared_words(words)


def matrix_words(words: Parser) -> None:
    """The words of `matrix`, which is about one document too."""
    words.description = (
        "Prints, for each two intervals of a document, the Allen relations that its links and dates leave open, in the words of the text, "
        "as tml matrix has them. If links clash it names them, and if the document has a fault it names that; the status is then 1."
    )
    words.epilog = "Example: tools/tml-corpus matrix --format html samples/rates.xml > rates.html"
    document_words(words)
    words.add_argument("--format", choices=MATRIX_FORMS, default="text", help="lines (the default), CSV, or a page with a table")
    touching_words(words)
    shared_words(words)


def seconds_words(words: Parser) -> None:
    """The words of `seconds`, which is about one document too."""
    words.description = (
        "Prints for each interval of a document a second for its start and one for its end, in which all links, dates and lengths of "
        "durations are met, as placed by tml seconds and confirmed by tml confirm; and how far they can move. If they cannot all be met it "
        "says which ones, and if the document has a fault it names that; the status is then 1."
    )
    words.epilog = "Example: tools/tml-corpus seconds --format ics samples/bridge.xml > bridge.ics"
    document_words(words)
    words.add_argument("--format", choices=SECONDS_FORMS, default="text", help="lines (the default), JSON, CSV, or iCalendar")
    words.add_argument("--touching", action="store_true", help="read links between dates that touch as the relation that holds")
    shared_words(words)


def open_words(words: Parser) -> None:
    """The words of `open`, which is about one document too."""
    words.description = (
        "Lists the pairs of intervals between which more than one Allen relation is possible. Each is preceded by how many such pairs "
        "one more link between the two decides, from the least number to the greatest, and followed by the number for each relation; the "
        "pairs with the greatest least number come first. The numbers are those of tml matrix, asked about the document with "
        "each such link. In a folder each document is examined, and each line begins with its name."
    )
    words.epilog = "Example: tools/tml-corpus open --limit 3 samples/rates.xml"
    words.add_argument("document", metavar="DOC", help="a file, or a folder to search")
    words.add_argument("--limit", type=number_from_zero, default=10, metavar="N", help="how many pairs are shown (10)")
    nearest = "how many pairs are looked at, the nearest ones in the document (2000; 0: all)"
    words.add_argument("--pairs", type=number_from_zero, default=2000, metavar="N", help=nearest)
    touching_words(words)
    jobs_words(words, "pairs")
    shared_words(words)


def agree_words(words: Parser) -> None:
    """The words of `agree`, which is about two annotations of the same texts."""
    words.description = (
        "Compares the links of documents with those of the key, pairing files by name: precision, recall and F1 over links without "
        "redundancy, as tml score counts them, then their sums and means over the corpus. A file without a partner, or with a fault or a "
        "clash, is listed and skipped."
    )
    words.epilog = "Example: tools/tml-corpus agree --links first second"
    words.add_argument("document", metavar="DIR", help="a folder, or a file")
    words.add_argument("key", metavar="KEYDIR", help="the folder with the key, or the file")
    words.add_argument("--links", action="store_true", help="name the links of each side that do not follow in the other, with places")
    words.add_argument("--format", choices=AGREE_FORMS, default="text", help="the form of the output")
    touching_words(words)
    glob_words(words)
    pool_words(words, cluster=True)
    shared_words(words)


def report_words(words: Parser) -> None:
    """The words of `report`, which writes pages."""
    words.description = (
        "Writes a folder of pages that open from disk: an index of all documents, and for each one its text beside its timeline, its "
        "links, its clashes step by step, and its faults and warnings. The status is 0 if a timeline fits each document."
    )
    words.epilog = "Example: tools/tml-corpus report samples -o pages"
    folder = "the folder of the pages: a new one, or that of an earlier report"
    words.add_argument("-o", "--output", required=True, metavar="FOLDER", help=folder)
    more_words(words, "faults or clashes")
    corpus_words(words)


def serve_words(words: Parser) -> None:
    """The words of `serve`, which an editor starts."""
    words.description = (
        "Speaks the Language Server Protocol over standard input and output: while a document is being written it reports its faults, "
        "clashes and warnings, says what a time, a link or an event is and where an identifier occurs, suggests what may be written, "
        "renames identifiers, mends what is at fault, and annotates a selection. An editor starts it; docs/EDITORS.md says how."
    )
    shared_words(words)


def report_words_of(words: Parser, things: str) -> None:
    """The words that `check` and `clashes` share."""
    words.add_argument("--format", choices=FORMS, default="text", help="the form of the output")
    more_words(words, things)
    touching_words(words)
    name = "the name under which standard input, the path -, is reported"
    words.add_argument("--stdin-name", metavar="NAME", help=name)
    words.add_argument("--quiet", action="store_true", help="print no summary, and no list of links read as touching")
    words.add_argument("--watch", action="store_true", help="keep running, and check files again when they change, until interrupted")
    words.set_defaults(reads_input=True)


def more_words(words: Parser, things: str) -> None:
    """The word of a command that goes on after the first fault or clash."""
    more = f"go on to at most N further {things} of each document"
    words.add_argument("--more", type=number_from_zero, default=0, metavar="N", help=more)


def touching_words(words: Parser) -> None:
    """The word of a command that may read links between dates that touch otherwise than they are written."""
    words.add_argument("--touching", action="store_true", help=TOUCHING)


def document_words(words: Parser) -> None:
    """The word of a command that is about one document."""
    words.add_argument("document", metavar="DOC", help="a file")


def corpus_words(words: Parser, cluster: bool = False) -> None:
    """The words of a command that looks at all files of a corpus."""
    path_words(words)
    pool_words(words, cluster)
    shared_words(words)


def path_words(words: Parser) -> None:
    """The words of a command that looks at files."""
    words.add_argument("paths", nargs="+", metavar="PATH", help="a file, or a folder to search")
    glob_words(words)


def glob_words(words: Parser) -> None:
    """The words of a command that searches folders."""
    words.add_argument("--glob", action="append", metavar="PATTERN", help=f"names to look for in folders (default {' '.join(PATTERNS)})")


def pool_words(words: Parser, cluster: bool = False) -> None:
    """The words of a command that works on files on all processors, and perhaps on a cluster."""
    jobs_words(words, "files")
    if cluster:
        address = "work on a Dask cluster whose workers see the files and tml under the same paths; --jobs is then ignored"
        words.add_argument("--cluster", metavar="ADDRESS", help=address)
    library = "the tml library to ask (default, without --tml: that of this repository or of the system, if there is one)"
    which = words.add_mutually_exclusive_group()
    which.add_argument("--library", metavar="FILE", help=library)
    which.add_argument("--no-library", action="store_const", const="", dest="library", help="start tml for each question")


def jobs_words(words: Parser, things: str) -> None:
    """The words of a command that works on all processors."""
    words.add_argument("--jobs", type=int, metavar="N", help=f"how many {things} at once (default: one per processor)")


def shared_words(words: Parser) -> None:
    """The words of all commands."""
    settings = "the settings (default: tml-corpus.toml in the folder of the paths or nearest above)"
    words.add_argument("--config", metavar="FILE", help=settings)
    words.add_argument(
        "--tml", metavar="PROGRAM", help="the program tml (default: that of the variable TML, else one that came with this, else on PATH)"
    )


def number_from_zero(text: str) -> int:
    """A number for an option."""
    number = int(text)
    if number < 0:
        raise ValueError(text)
    return number


def figure_width(text: str) -> float:
    """A width of a picture for a paper."""
    from ..figure.draw import width_of

    try:
        return width_of(text)
    except ValueError as problem:
        raise argparse.ArgumentTypeError(shown(str(problem))) from None


def picture_name(text: str) -> str:
    """A name for a picture."""
    from ..timeline.timeline import form_of

    try:
        form_of(text)
    except ValueError as problem:
        raise argparse.ArgumentTypeError(shown(str(problem))) from None
    return text


COMMANDS: Mapping[str, tuple[str, Callable[[Parser], None]]] = {
    "check": ("say whether tml accepts each document, or where its first fault is", check_words),
    "tags": ("count the names of tags, and say which ones tml does not know", tags_words),
    "clashes": ("show the links of each document that contradict each other", clashes_words),
    "fix": ("mend what has only one cure", fix_words),
    "open": ("list undecided pairs, most informative first", open_words),
    "agree": ("say how far the links of two annotations of the same texts agree", agree_words),
    "report": ("write pages about all documents, to be opened in a browser", report_words),
    "timeline": ("draw what is known of the order of a document", timeline_words),
    "matrix": ("print the relations that are possible between the intervals of a document", matrix_words),
    "seconds": ("print a placing of a document in whole seconds", seconds_words),
    "serve": ("serve an editor by the Language Server Protocol", serve_words),
}
"""The commands: what each does, and what makes its words."""
