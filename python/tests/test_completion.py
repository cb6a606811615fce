"""`tools/completion/tml.bash`: what is offered for some words, by the functions that bash calls."""

import os
import shutil
import subprocess
import unittest

from corpus import TML, TOOLS, CorpusTest, document
from test_scripts import A, B
from tml.statuses import RELATIONS

SOURCE = os.path.join(TOOLS, "completion", "tml.bash")
CALL = """
. "$1"
function=$2
shift 2
compopt() { echo "compopt $*"; }
COMP_WORDS=("$@")
COMP_CWORD=$(($# - 1))
"$function"
for word in "${COMPREPLY[@]}"; do echo "offered $word"; done
"""
NO_FILES = "compopt +o bashdefault +o default"


@unittest.skipUnless(shutil.which("bash"), "no program bash")
class Completion(CorpusTest):
    def bash(self, script: str, *words: str) -> list[str]:
        """The lines that bash prints; it says nothing on standard error."""
        done = subprocess.run(
            ["bash", "--norc", "--noprofile", "-c", script, "bash", *words],
            cwd=self.folder,
            env={**os.environ, "HOME": self.folder},
            stdin=subprocess.DEVNULL,
            capture_output=True,
            text=True,
            check=False,
            timeout=60,
        )
        self.assertEqual(done.stderr, "")
        return done.stdout.splitlines()

    def offered(self, *words: str, function: str = "_tml") -> tuple[list[str], bool]:
        """The words that are offered for the last of some words, and whether the names of files are too."""
        lines = self.bash(CALL, SOURCE, function, *words)
        return [line.removeprefix("offered ") for line in lines if line.startswith("offered ")], NO_FILES not in lines

    def test_is_registered(self) -> None:
        tools = ("tml-edit", "tml-redundant-links", "tml-from-tempeval2", "tml-html-entities")
        lines = self.bash('. "$1"; shift; complete -p "$@"', SOURCE, "tml", "tml-corpus", *tools)
        names = ["_tml tml", "_tml_corpus tml-corpus", *(f"_tml_tools {name}" for name in tools)]
        self.assertEqual(lines, [f"complete -o bashdefault -o default -F {name}" for name in names])

    def test_the_small_programs(self) -> None:
        from tml_corpus.convert import redundant_links, tml_edit

        for name, module in (("tml-edit", tml_edit), ("tml-redundant-links", redundant_links)):
            with self.subTest(name):
                wanted = {option for action in module.parser()._actions for option in action.option_strings} - {"-h"}
                offered, files = self.offered(f"/usr/bin/{name}", "x.xml", "-", function="_tml_tools")
                self.assertEqual((set(offered), files), (wanted, False))
        self.assertEqual(self.offered("tml-edit", "--unwrap", "", function="_tml_tools"), ([], False))
        self.assertEqual(self.offered("tml-edit", "", function="_tml_tools"), ([], True))
        self.assertEqual(self.offered("tml-html-entities", "-", function="_tml_tools"), (["--help", "--version"], False))

    def test_commands_are_those_of_the_usage_text(self) -> None:
        usage = subprocess.run([TML, "no", "such"], capture_output=True, text=True, check=False).stdout
        commands = [line.split()[1] for line in usage.splitlines()[1:]]
        self.assertEqual(self.offered("tml", ""), (commands, False))
        self.assertEqual(self.offered("tml", "re"), (["relations", "renew", "reduce"], False))
        self.assertEqual(self.offered("tml", "x"), ([], False))
        for line in usage.splitlines()[1:]:
            _, command, *names = line.split()
            for number, name in enumerate(names):
                with self.subTest(command=command, name=name):
                    files = self.offered(TML, command, *["gone"] * number, "")[1]
                    self.assertEqual(files, name in ("DOC", "EVIDENCE", "SECOND", "KEY", "SECONDS"))
            self.assertEqual(self.offered(TML, command, *["gone"] * len(names), ""), ([], False))

    def test_relations(self) -> None:
        self.assertEqual(self.offered("tml", "ask", "gone.xml", "a", ""), (list(RELATIONS), False))
        self.assertEqual(self.offered("tml", "ask", "gone.xml", "a", "BEG"), (["BEGINS", "BEGUN_BY"], False))

    def test_intervals(self) -> None:
        self.write("a b's.xml", document(A + B + '<TIMEX3 tid="bb" type="SET"/>'))
        for name in ("a\\ b\\'s.xml", '"a b\'s.xml"', "'a b'\\''s.xml'", "~/a\\ b\\'s.xml", "./a' b'\"'\"s.xml"):
            with self.subTest(name):
                self.assertEqual(self.offered(TML, "ask", name, ""), (["a", "b", "bb"], False))
        self.assertEqual(self.offered(TML, "ask", '"a b\'s.xml"', "a", "ENDS", "b"), (["b", "bb"], False))

    def test_no_intervals(self) -> None:
        self.write("fault.xml", document(A + "<EVENT/>"))
        self.write("$(touch made).xml", "<TimeML")
        os.mkfifo(self.path("pipe"))
        for name in ("fault.xml", "gone.xml", ".", "-", "", "pipe", '"$(touch made).xml"', '"unended'):
            with self.subTest(name):
                self.assertEqual(self.offered(TML, "ask", name, ""), ([], False))
        self.assertEqual(self.offered("/no/such/tml", "ask", "fault.xml", ""), ([], False))
        self.assertFalse(os.path.exists(self.path("made")))

    def test_the_companion(self) -> None:
        from tml_corpus.command_line.parser import parser
        from tml_corpus.lint.warnings import KINDS

        [commands] = [action.choices for action in parser()._actions if isinstance(action.choices, dict)]
        first, files = self.offered("tml-corpus", "", function="_tml_corpus")
        self.assertEqual((set(first), files), ({*commands, "timeline", "--help", "--version"}, False))
        for command, words in commands.items():
            with self.subTest(command):
                options, files = self.offered("tml-corpus", command, "x.xml", "-", function="_tml_corpus")
                wanted = {name for action in words._actions for name in action.option_strings} - {"-h"}
                self.assertEqual((set(options), files), (wanted, False))
        rows = [
            (["check", "--format", ""], ["text", "json", "jsonl", "junit", "github"], False),
            (["check", "--format", "j"], ["json", "jsonl", "junit"], False),
            (["matrix", "--format", ""], ["text", "csv", "html"], False),
            (["seconds", "--format", ""], ["text", "json", "csv", "ics"], False),
            (["agree", "--format", ""], ["text", "json", "jsonl", "csv"], False),
            (["agree", "first", ""], [], True),
            (["check", "--jobs", ""], [], False),
            (["check", ""], [], True),
            (["check", "--tml", ""], [], True),
            (["check", "--library", ""], [], True),
            (["check", "--baseline", ""], [], True),
            (["check", "--config", ""], [], True),
            (["check", "--warn", ""], list(KINDS), False),
            (["check", "--ignore", "un"], ["unknown-attribute", "unlinked-instance"], False),
            (["clashes", "--evidence", ""], [], True),
            (["tags", "--f"], [], False),
        ]
        for words, offered, files in rows:
            with self.subTest(words):
                self.assertEqual(self.offered("tml-corpus", *words, function="_tml_corpus"), (offered, files))


if __name__ == "__main__":
    unittest.main()
