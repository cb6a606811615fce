"""`pip install .`: that all modules and their data are installed, and that the commands and both packages work from there."""

import email
import os
import re
import shutil
import subprocess
import sys
import tempfile
import unittest
from pathlib import Path

import tomllib

import tml
import tml_corpus
from corpus import COMPANION, SOURCES, TML, TOP
from installing import CAN_INSTALL, CANNOT, install, of_the_clone
from processes import PATIENCE, WITH_PACKAGES, with_own_bytecode
from releasing.wheels import entry_points, metadata

SAMPLE = os.path.join(TOP, "samples", "rates.xml")


def installed_files(folder: Path) -> set[str]:
    """The files of the packages below a folder."""
    paths = (path.relative_to(folder) for package in ("tml", "tml_corpus") for path in (folder / package).rglob("*"))
    return {path.as_posix() for path in paths if (folder / path).is_file() and path.parent.name != "__pycache__"}


class Imported(unittest.TestCase):
    """What all tests import and run: the packages of the clone, or those that are installed."""

    def test_by_the_tests(self) -> None:
        for package in (tml, tml_corpus):
            self.assertEqual(package.__file__, os.path.join(SOURCES, package.__name__, "__init__.py"))

    def test_by_the_commands(self) -> None:
        done = subprocess.run([sys.executable, "-v", COMPANION, "--version"], capture_output=True, text=True, check=True, timeout=60)
        places = re.findall(r"^# (?:code object from|\S+ matches) '?(/.*?/)tml(?:_corpus)?/[^']*\.py'?$", done.stderr, re.MULTILINE)
        self.assertEqual(set(places), {os.path.join(SOURCES, "")})
        self.assertGreater(len(places), 10)


@of_the_clone
@unittest.skipUnless(CAN_INSTALL, CANNOT)
class Installed(unittest.TestCase):
    """The packages as pip installs them, from a copy of what it reads, into a folder of their own. Nothing of the clone is on the path."""

    folder: Path
    target: Path

    @classmethod
    def setUpClass(cls) -> None:
        held = tempfile.TemporaryDirectory(prefix="installed-")
        cls.addClassCleanup(held.cleanup)
        cls.folder = Path(held.name)
        cls.target = cls.folder / "target"
        shutil.copy(SAMPLE, cls.folder)
        install(cls.target)

    def run_words(self, *words: str) -> tuple[int, str, str]:
        """The status and both streams of a program that finds the packages where they are installed, and `tml` by its variable."""
        others = {name: value for name, value in with_own_bytecode().items() if name != "TML_LIBRARY"}
        variables = {**others, "PYTHONPATH": str(self.target), "TML": os.path.abspath(TML)}
        done = subprocess.run(words, cwd=self.folder, env=variables, capture_output=True, text=True, check=False, timeout=PATIENCE)
        return done.returncode, done.stdout, done.stderr

    def run_script(self, script: str) -> tuple[int, str, str]:
        """The same of a script of Python."""
        return self.run_words(*WITH_PACKAGES, "-c", script)

    def test_all_modules_and_their_data_are_there(self) -> None:
        self.assertEqual(installed_files(self.target), installed_files(Path(SOURCES)))
        self.assertLessEqual({"tml/py.typed", "tml_corpus/py.typed"}, installed_files(self.target))

    def test_all_modules_can_be_imported(self) -> None:
        paths = (Path(name).with_suffix("") for name in sorted(installed_files(self.target)) if name.endswith(".py"))
        modules = [".".join(path.parts).removesuffix(".__init__") for path in paths]
        self.assertGreater(len(modules), 100)
        script = f"import {', '.join(modules)}\nprint(tml.__file__)\nprint(tml_corpus.__file__)"
        files = [str(self.target / package / "__init__.py") for package in ("tml", "tml_corpus")]
        self.assertEqual(self.run_script(script), (0, "".join(f"{name}\n" for name in files), ""))

    def test_what_pip_knows_of_them_is_as_in_a_release(self) -> None:
        [info] = self.target.glob(f"tml_corpus-{tml.__version__}.dist-info")
        by_pip = email.message_from_bytes((info / "METADATA").read_bytes())
        released = email.message_from_string(metadata(tml.__version__))
        kept = {name for name in released.keys() if name not in ("License", "Metadata-Version")}
        said = [
            {(name, re.sub(" ?; ?", ";", value).replace("'", '"')) for name, value in one.items() if name in kept}
            for one in (by_pip, released)
        ]
        self.assertEqual(*said)
        self.assertEqual(by_pip.get_payload(), released.get_payload())
        self.assertEqual((info / "entry_points.txt").read_text(encoding="utf-8").strip(), entry_points().strip())

    def test_each_command_has_its_help(self) -> None:
        with open(os.path.join(TOP, "pyproject.toml"), "rb") as file:
            commands = tomllib.load(file)["project"]["scripts"]
        self.assertEqual(set(os.listdir(self.target / "bin")), set(commands))
        for name in commands:
            with self.subTest(name):
                status, out, error = self.run_words(str(self.target / "bin" / name), "--help")
                self.assertEqual((status, out.split()[:2], error), (0, ["usage:", name], ""))

    @unittest.skipUnless(os.access(TML, os.X_OK), f"no program {TML}: build it as README.md says, or name one by TML=PROGRAM")
    def test_a_sample_is_checked(self) -> None:
        words = (str(self.target / "bin" / "tml-corpus"), "check", "--lint", "--clashes", "--tml", os.path.abspath(TML), "rates.xml")
        self.assertEqual(self.run_words(*words), (0, "1 file: 1 accepted, 0 with a clash, 0 with a fault, 0 not judged\n", ""))

    @unittest.skipUnless(os.access(TML, os.X_OK), f"no program {TML}: build it as README.md says, or name one by TML=PROGRAM")
    def test_a_question_is_answered(self) -> None:
        script = f"import tml\nprint(tml.relations({SAMPLE!r})[0])\nprint(tml.check(b'<TimeML><EVENT/></TimeML>'))"
        cure = "this EVENT has no text: delete it, or add eid and class if it is meant"
        self.assertEqual(self.run_script(script), (0, f"t0 AFTER t1\n1:9: 10 MissingAttribute: {cure}\n", ""))


if __name__ == "__main__":
    unittest.main()
