"""The help of the programs: its examples name what was called, be it a file of tools/ or an installed command."""

import os
import tempfile
import unittest

from corpus import TOOLS
from forked import run_forked
from releasing.debian import SCRIPTS


class Help(unittest.TestCase):
    def said(self, program: str, *words: str) -> str:
        """What a program prints."""
        ended = run_forked(program, *words, folder=os.getcwd())
        self.assertEqual(ended.status, 0, ended)
        return ended.out.decode()

    def test_the_installed_command_is_named(self) -> None:
        with tempfile.TemporaryDirectory() as folder:
            for name, called in SCRIPTS.items():
                link = os.path.join(folder, called)
                os.symlink(os.path.join(TOOLS, name), link)
                for words in (["timeline", "--help"], ["check", "--help"]) if name == "tml-corpus" else (["--help"],):
                    with self.subTest(called, words=words):
                        text = self.said(link, *words)
                        self.assertNotIn("tools/", text)
                        self.assertIn(f"{called} ", text.split("xample", 1)[-1])

    def test_in_the_repository_the_file_is_named(self) -> None:
        for name in SCRIPTS:
            words = ["timeline", "--help"] if name == "tml-corpus" else ["--help"]
            self.assertIn(f"tools/{name} ", self.said(os.path.join(TOOLS, name), *words))


if __name__ == "__main__":
    unittest.main()
