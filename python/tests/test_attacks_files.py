"""Attacks on the files that the companions write, and by the names of those that they read.

A full disk, 10 names that are commands elsewhere, with 11 commands and as pairs in 4 forms, and 2 paths of which the digests begin alike,
as pages and as evidence.

Files that are written in the place of others are attacked by `test_replacing.py`: every seventh of the 4,096 modes and 6 of them by
`fix`, as root those of a stranger too; 2 ways to lose an owner, 3 with access lists; 3 links that a search finds, 2 that come
meanwhile, 7 encodings; 4 changes in the middle; 3 signals to 2 kinds of writing, one that is ignored, and a program that is killed.
Baselines are attacked by `test_lint.py`, formulas in CSV by `test_matrix.py` and `test_agree.py`.
"""

import itertools
import os
import resource
import shutil
import stat
import unittest
from collections.abc import Callable

from attacks import COMMANDS, AttackTest
from corpus import CLASH, document
from processes import PATIENCE


def small_files(size: int) -> Callable[[], None]:
    """Lets no file of the child grow beyond a size, as on a disk that is full."""
    return lambda: resource.setrlimit(resource.RLIMIT_FSIZE, (size, size))


class Files(AttackTest):
    def left(self, folder: str) -> list[str]:
        """The files that are left, besides those that were there."""
        return sorted(set(os.listdir(self.path(folder))) - {"a.xml", "good.xml", "clash.xml", "fake", "in", "out", "error"})

    def test_nothing_is_left_where_a_disk_is_full(self) -> None:
        self.write("in/base-segmentation.tab", "a\t0\t0\tx\nb\t0\t0\ty\n")
        os.makedirs(self.path("kept"))
        os.makedirs(self.path("made"))
        rows = [
            ("tml-corpus clashes --tml TML --evidence kept clash.xml", "kept", 60, "the evidence cannot be kept: file too large"),
            ("tml-corpus timeline --tml TML good.xml -o made/good.svg", "made", 200, "made/good.svg cannot be written: file too large"),
            ("tml-corpus report --tml TML good.xml -o made", "made", 60, "made/report.css cannot be written: file too large"),
            ("from-tempeval2 in made", "made", 20, "a: not written: made/a.xml cannot be written: file too large"),
        ]
        for command, folder, size, said in rows:
            with self.subTest(command):
                child = self.begin(command, preexec_fn=small_files(size))
                out, error = child.communicate(timeout=PATIENCE)
                self.assertEqual((child.returncode, self.left(folder)), (2, []))
                self.assertIn(said, (out + error).decode())

    def test_evidence_has_the_mode_of_the_mask(self) -> None:
        for mask, mode in ((0o022, 0o644), (0o077, 0o600), (0o002, 0o664)):
            with self.subTest(oct(mask)):
                shutil.rmtree(self.path("kept"), ignore_errors=True)
                ended = self.ended("tml-corpus clashes --tml TML --evidence kept clash.xml", umask=mask)
                self.assertEqual(ended.status, 1, ended)
                [name] = self.left("kept")
                self.assertEqual(stat.S_IMODE(os.stat(self.path(os.path.join("kept", name))).st_mode), mode)


COLLIDING = ("c/13683769/d.xml", "c/13684653/d.xml")
"""Paths whose digests by SHA-256 begin with the same 48 bits, of 24 million that were tried in a minute."""


class Digests(AttackTest):
    def test_no_two_documents_have_one_page_or_one_file_of_evidence(self) -> None:
        for path in COLLIDING:
            self.write(path, document(CLASH))
        for command, folder in (
            ("tml-corpus report --tml TML c -o pages", "pages/documents"),
            ("tml-corpus clashes --tml TML --evidence kept c", "kept"),
        ):
            with self.subTest(command):
                self.assertEqual(self.called(command).status, 1)
                names = os.listdir(self.path(folder))
                self.assertEqual(len(names), 2)
                for name in names:
                    self.assertRegex(name, r"^d\.xml\.[0-9a-f]{32}\.(html|evidence)$")


NAMES = ("::error file=x::y", " ::error::y", "##[error]y", "##vso[x]y", "##teamcity[x]y", "\x1b[31m", "a\nb", "\u202eb", "\x85", ":")
"""Names of files that are commands, or lines, elsewhere."""

COMMANDS_OF_LOGS = "##[error] ##vso[x] ##teamcity[y]"
"""What stands in a line of a document before a fault, and is shown with it."""


class Names(AttackTest):
    def test_names_are_neither_commands_nor_lines(self) -> None:
        for number, name in enumerate(NAMES):
            self.write(f"d/{name}.xml", document(COMMANDS_OF_LOGS + "<EVENT/>" if number % 2 else CLASH))
            self.write(f"{name}.xml", document(CLASH if number % 2 else COMMANDS_OF_LOGS + "<EVENT/>"))
            os.symlink("nowhere", self.path(f"d/{name}.tml"))
        for command in (*COMMANDS[:6], COMMANDS[7], *COMMANDS[9:-1]):
            with self.subTest(command):
                self.harmless(command.rsplit(" ", 1)[0], "d", *(f"{name}.xml" for name in NAMES), *NAMES)

    def test_names_of_pairs(self) -> None:
        for name in NAMES:
            for folder, content in (("d", CLASH), ("e", "<EVENT/>"), ("f", ""), ("g", "")):
                self.write(f"{folder}/{name}.xml", document(content))
            self.write(f"d/{name} alone.xml", document(""))
        for form, folders in itertools.product(("text", "json", "jsonl", "csv"), (("d", "e"), ("d", "f"), ("f", "d"), ("f", "g"))):
            with self.subTest(form=form, folders=folders):
                self.harmless(f"tml-corpus agree --format {form} --tml TML", *folders)

    def test_names_in_what_standard_error_says(self) -> None:
        for name in NAMES[:1] + NAMES[2:7]:
            for command in ("tml-edit --tml TML", "tml-corpus timeline --tml TML a.xml -o", "tml-corpus check --tml", "from-tempeval2 out"):
                with self.subTest(name=name, command=command):
                    self.harmless(command, name)

    def harmless(self, command: str, *names: str) -> None:
        """Runs a command on some names, and looks at each line that it prints."""
        ended = self.called(command, *names)
        self.assertGreater(len(ended.out + ended.error), 0)
        for line in (ended.out + ended.error).split("\n"):
            self.assertTrue(line.isprintable(), line)
            self.assertNotRegex(line, r"##(\[|vso|teamcity)")
            if "github" not in command:
                self.assertNotRegex(line, r"^\s*::")
            elif line.startswith("::"):
                self.assertRegex(line, r"^::error file=[^,:]*(,line=\d+,col=\d+(,endColumn=\d+)?,title=[^,:]*)?::")


if __name__ == "__main__":
    unittest.main()
