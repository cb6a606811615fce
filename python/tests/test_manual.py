"""The manual pages `docs/*.1`: that they have all commands, options and statuses, that their examples print what they say,
and that mandoc has nothing against them."""

import os
import re
import shutil
import subprocess
import unittest

import test_recipes
from corpus import TML, TOP, match_in, text_at
from tml.statuses import RELATIONS

PAGES = ("tml.1", "tml-corpus.1", "tml-tools.1", "tml-verify.1")
LIMITS = ("4,194,304", "67,108,864", "1,024", "4,096")


def section(name: str, title: str) -> str:
    """A section of a page."""
    return match_in(rf"^\.Sh {title}\n(.*?)(?=^\.Sh |\Z)", text_at("docs", name), re.MULTILINE | re.DOTALL)[1]


def forms_of(name: str) -> list[list[str]]:
    """The forms of the synopsis: the macros between one `.Nm` and the next."""
    return [form.strip().splitlines() for form in re.split(r"^\.Nm.*\n", section(name, "SYNOPSIS"), flags=re.MULTILINE)[1:]]


class OfTheProgram(unittest.TestCase):
    @unittest.skipUnless(os.access(TML, os.X_OK), f"no program {TML}: build it as README.md says, or name one by TML=PROGRAM")
    def test_commands_are_those_of_the_usage_text(self) -> None:
        done = subprocess.run([TML, "no", "such"], capture_output=True, text=True, check=False)
        self.assertEqual((done.returncode, done.stdout.splitlines()[0]), (3, "usage:"))
        commands = [line.split()[1:] for line in done.stdout.splitlines()[1:]]
        in_synopsis = [[word for line in form for word in line.split()[1:]] for form in forms_of("tml.1")]
        self.assertEqual(in_synopsis, [[], *commands])
        items = re.findall(r"^\.It Cm (.*)$", section("tml.1", "DESCRIPTION"), re.MULTILINE)
        self.assertEqual([item.replace(" Ar", "").split() for item in items], commands)

    def test_statuses_are_those_of_the_page_on_commands(self) -> None:
        wanted = re.findall(r"^\| [A-Z]\w+ \| (\d+) \| ", text_at("docs/COMMANDS.md"), re.MULTILINE)
        self.assertEqual(wanted, [str(number) for number in range(10)])
        self.assertEqual(re.findall(r"^\.It (\d+)$", section("tml.1", "EXIT STATUS"), re.MULTILINE), wanted)

    def test_relations_and_limits(self) -> None:
        self.assertEqual(re.findall(r"^\.Ql ([A-Z_]{4,})", section("tml.1", "DESCRIPTION"), re.MULTILINE), list(RELATIONS))
        for number in LIMITS:
            self.assertRegex(section("tml.1", "LIMITS"), rf"\b{number}\b")


@unittest.skipUnless(os.access(TML, os.X_OK), f"no program {TML}: build it as README.md says, or name one by TML=PROGRAM")
class Examples(test_recipes.RecipeTest):
    def test_examples_print_what_the_page_says(self) -> None:
        examples = test_recipes.Section("examples")
        for block in re.findall(r"^\.Bd -literal\n(.*?)^\.Ed", section("tml.1", "EXAMPLES"), re.MULTILINE | re.DOTALL):
            for line in block.replace("\\(aq", "'").replace("\\-", "-").splitlines():
                test_recipes.add_line(examples.commands, 0, line)
        self.assertGreater(len(examples.commands), 5)
        self.check_section("docs/tml.1", examples)


class OfTheCompanion(unittest.TestCase):
    def test_commands_and_options_are_those_that_are_understood(self) -> None:
        from tml_corpus.command_line.parser import parser

        [commands] = [action.choices for action in parser()._actions if isinstance(action.choices, dict)]
        printed = {form[0].split()[1]: set(re.findall(r"Fl (-?[\w-]+)", "\n".join(form))) for form in forms_of("tml-corpus.1")}
        items = re.findall(r"^\.It Fl (.*)$", section("tml-corpus.1", "DESCRIPTION"), re.MULTILINE)
        explained = {"-" + name for item in items for name in re.findall(r"(?:^|Fl )(-?[\w-]+)", item)}
        self.assertLessEqual(set(commands), set(printed))
        for command, words in commands.items():
            with self.subTest(command):
                options = [action.option_strings for action in words._actions if action.option_strings and action.dest != "help"]
                in_synopsis = {"-" + name for name in printed[command]}
                self.assertTrue(all(in_synopsis & set(names) for names in options), options)
                self.assertLessEqual(in_synopsis, {name for names in options for name in names})
                self.assertLessEqual({name for names in options for name in names}, explained)
                self.assertIn(f".It Cm {command}\n", section("tml-corpus.1", "DESCRIPTION"))

    def test_the_words_of_one_command_are_those_among_all(self) -> None:
        from tml_corpus.command_line.parser import COMMANDS, parser

        [commands] = [action.choices for action in parser()._actions if isinstance(action.choices, dict)]
        self.assertEqual(list(commands), list(COMMANDS))
        for name, words in commands.items():
            with self.subTest(name):
                [alone] = [action.choices for action in parser(name)._actions if isinstance(action.choices, dict)]
                self.assertEqual(list(alone), [name])
                self.assertEqual(alone[name].format_help(), words.format_help())
        for chosen in (None, "no-such-command", "--help"):
            self.assertEqual(parser(chosen).format_help(), parser().format_help())

    def test_statuses(self) -> None:
        self.assertEqual(re.findall(r"^\.It (\d+)$", section("tml-corpus.1", "EXIT STATUS"), re.MULTILINE), ["0", "1", "2", "130"])


class AllPages(unittest.TestCase):
    @unittest.skipUnless(shutil.which("mandoc"), "no program mandoc")
    def test_mandoc_has_nothing_against_them(self) -> None:
        for name in PAGES:
            with self.subTest(name):
                done = subprocess.run(
                    ["mandoc", "-T", "lint", name], cwd=os.path.join(TOP, "docs"), capture_output=True, text=True, check=False
                )
                self.assertEqual((done.returncode, done.stdout, done.stderr), (0, "", ""))

    def test_pages_that_are_named_are_there(self) -> None:
        for name in PAGES:
            for path in re.findall(r"^\.Pa ((?:docs|tools)/[\w.-]+|\w+\.md)", text_at("docs", name).replace(".It Pa", ".Pa"), re.MULTILINE):
                self.assertTrue(os.path.exists(os.path.join(TOP, path.rstrip("."))), path)


if __name__ == "__main__":
    unittest.main()
