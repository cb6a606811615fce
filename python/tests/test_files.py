"""Files of the companion: the search in folders, against `os.walk`, and reading no more than the limit."""

import fnmatch
import os
import random
import tempfile
import unittest
from collections.abc import Sequence

from tml.running import PART
from tml.statuses import DOCUMENT_LIMIT
from tml_corpus.files.finding import CannotRead, Found, find_files, read_document, reason, search_folder

NAMES = ("a", "b.xml", "c.tml", "d.XML", ".xml", "é.xml", "x.xmlx", "[a].xml", "n\n.xml", "\udce9.xml")
PATTERNS = (["*.tml", "*.xml"], ["*"], ["a*"], ["*[.]xml", "?"], ["[!a]*.xml"], ["*.*"], ["nothing"], ["b.xml", "*.tml"], ["*.XmL"], ["A*"])


def walked(folder: str, patterns: Sequence[str]) -> list[Found]:
    """The matching files below a folder as `os.walk` finds them, in any case of letters."""
    found: list[Found] = []
    for place, folders, names in os.walk(folder, onerror=lambda error: found.append(Found(str(error.filename), reason(error)))):
        folders.sort()
        found += [
            Found(os.path.join(place, name), top=folder)
            for name in sorted(names)
            if any(fnmatch.fnmatchcase(name.lower(), one.lower()) for one in patterns)
        ]
    return found or [Found(folder, f"no file in this folder matches {' or '.join(patterns)}")]


def fill(draw: random.Random, top: str) -> None:
    """Puts files, folders, pipes and symbolic links into a folder."""
    folders = [top]
    for _ in range(draw.randint(0, 25)):
        path, kind = os.path.join(draw.choice(folders), draw.choice(NAMES) + draw.choice(["", "1", ".xml"])), draw.random()
        if os.path.lexists(path):
            continue
        if kind < 0.3:
            os.mkdir(path)
            folders.append(path)
        elif kind < 0.4:
            os.symlink(draw.choice([".", "..", "nowhere", os.path.basename(path), top]), path)
        elif kind < 0.45:
            os.mkfifo(path)
        else:
            with open(path, "x", encoding="utf-8"):
                pass


class Search(unittest.TestCase):
    def test_finds_what_a_walk_finds(self) -> None:
        draw = random.Random(1)
        for _ in range(60):
            with tempfile.TemporaryDirectory() as top:
                fill(draw, top)
                for patterns in PATTERNS:
                    self.assertEqual(search_folder(top, patterns), walked(top, patterns))
                self.assertEqual(search_folder(top + "//", ["*.xml"]), walked(top + "//", ["*.xml"]))

    def test_no_file_is_named_twice(self) -> None:
        with tempfile.TemporaryDirectory() as top:
            for name in "bac":
                with open(os.path.join(top, f"{name}.xml"), "x", encoding="utf-8"):
                    pass
            b, a, gone = (os.path.join(top, name) for name in ("b.xml", "a.xml", "gone"))
            self.assertEqual([one.path for one in find_files([b, gone, top, a, gone], ["*.xml"])], [b, gone, a, os.path.join(top, "c.xml")])

    def test_a_folder_that_vanishes(self) -> None:
        [found] = search_folder("/no/such/folder", ["*"])
        self.assertEqual(found, Found("/no/such/folder", "no such file or directory"))


class Reading(unittest.TestCase):
    def test_a_byte_more_than_the_limit_at_most(self) -> None:
        for size in (0, 1, PART - 1, PART, PART + 1, DOCUMENT_LIMIT, DOCUMENT_LIMIT + 1, DOCUMENT_LIMIT + 70_000):
            with self.subTest(size), tempfile.NamedTemporaryFile() as file:
                whole = os.urandom(16) * (size // 16 + 1)
                file.write(whole[:size])
                file.flush()
                self.assertEqual(read_document(file.name), whole[: min(size, DOCUMENT_LIMIT + 1)])

    @unittest.skipUnless(os.path.exists("/proc/self/status"), "no /proc")
    def test_a_file_that_says_it_is_empty(self) -> None:
        self.assertIn(b"Pid:", read_document("/proc/self/status"))

    def test_what_is_no_file(self) -> None:
        for path in ("/dev/null", "/tmp", "/no/such/file", "a\0b"):
            with self.subTest(path), self.assertRaises(CannotRead):
                read_document(path)


if __name__ == "__main__":
    unittest.main()
