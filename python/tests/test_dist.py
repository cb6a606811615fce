"""dist/: which files of a release it gets, and that it has the one that docs/RELEASING.md names last."""

from __future__ import annotations

import email
import importlib.util
import io
import re
import subprocess
import tarfile
import tempfile
import unittest
import zipfile
from collections.abc import Iterator
from pathlib import Path

from building.linking import CannotMake
from corpus import TOP, match_in, needed, text_at
from processes import PATIENCE
from releasing.archive import File, compressed, packed
from releasing.dist import DIST, MOST, NEEDED, files_of_dist
from releasing.manifest import CLEAN, need_whole, sums, with_sizes

VERSION, COMMIT = "9.8.7", "0123456789abcdef0123456789abcdef01234567"
HEAD = f"version  {VERSION}\ncommit   {COMMIT}\n{CLEAN}"


def wheel() -> bytes:
    """A wheel that has its metadata alone."""
    written = io.BytesIO()
    with zipfile.ZipFile(written, "w") as archive:
        archive.writestr(f"tml_corpus-{VERSION}.dist-info/METADATA", f"Name: tml-corpus\nVersion: {VERSION}\n\nA page\n")
    return written.getvalue()


CHOSEN = {
    f"tml_corpus-{VERSION}-py3-none-manylinux_2_36_x86_64.whl": wheel(),
    f"tml-{VERSION}-linux-x86_64.tar.gz": compressed(packed({f"tml-{VERSION}/bin/tml": File(b"program")}, 0)),
    "tml.html": b"page",
    "NOTICES": b"notices",
}
OTHERS = {f"tml_corpus-{VERSION}-py3-none-any.whl": wheel(), f"libtml_{VERSION}_amd64.deb": b"package", "tml.wasm": b"module"}
IF_MADE = {
    f"tml_corpus-{VERSION}-py3-none-manylinux_2_36_aarch64.whl": wheel(),
    f"tml-{VERSION}-linux-aarch64.tar.gz": compressed(packed({f"tml-{VERSION}/bin/tml": File(b"for ARM")}, 0)),
    f"tml-{VERSION}-windows-x86_64.zip": b"for Windows",
}


def git(*words: str) -> str | None:
    """What git says of this clone; None if there is no git, this is no clone, or the status is not 0."""
    try:
        return subprocess.run(["git", "-C", TOP, *words], capture_output=True, text=True, check=True).stdout
    except (OSError, subprocess.CalledProcessError):
        return None


def versions_in(folder: Path) -> Iterator[str]:
    """The versions that wheels and tar files carry, in their names and within them."""
    for path in folder.glob("*.whl"):
        with zipfile.ZipFile(path) as archive:
            [name] = [name for name in archive.namelist() if name.endswith(".dist-info/METADATA")]
            yield from (path.name.split("-")[1], needed(email.message_from_bytes(archive.read(name))["Version"]))
    for path in folder.glob("*.tar.gz"):
        with tarfile.open(path) as unpacked:
            yield from (name.split("/")[0].removeprefix("tml-") for name in (path.name.replace("-linux", "/"), *unpacked.getnames()))


class DistTest(unittest.TestCase):
    def check(self, dist: Path) -> dict[str, str]:
        """Checks a folder as dist/ has to be, and answers the fields of its manifest."""
        need_whole(dist)
        head, _, listed = (dist / "MANIFEST").read_text(encoding="utf-8").partition("\n\n")
        fields = {name: value for name, value in (line.split(maxsplit=1) for line in head.splitlines())}
        sizes = {path.name: path.stat().st_size for path in dist.iterdir()}
        self.assertLessEqual(sum(sizes.values()), MOST)
        self.assertEqual({name for name in sizes if name.endswith(("-any.whl", ".deb"))}, set())
        self.assertEqual([len(list(dist.glob(pattern))) for pattern in NEEDED], [1] * len(NEEDED))
        del sizes["MANIFEST"], sizes["SHA256SUMS"]
        self.assertEqual({name: int(size) for size, name in map(str.split, listed.splitlines())}, sizes)
        self.assertEqual(set(versions_in(dist)), {fields["version"]})
        return fields


class Chosen(DistTest):
    def setUp(self) -> None:
        held = tempfile.TemporaryDirectory(prefix="dist-")
        self.addCleanup(held.cleanup)
        self.folder = Path(held.name)

    def made(self, files: dict[str, bytes], head: str = HEAD) -> Path:
        """A release of some files."""
        files = files | {"MANIFEST": with_sizes(head, files)}
        return self.written("made", files | {"SHA256SUMS": sums(files)})

    def written(self, name: str, files: dict[str, bytes]) -> Path:
        """A new folder of some files."""
        folder = Path(tempfile.mkdtemp(prefix=name, dir=self.folder))
        for path, content in ((folder / name, content) for name, content in files.items()):
            path.write_bytes(content)
        return folder

    def test_files_for_people_without_the_kit(self) -> None:
        for chosen in (CHOSEN, CHOSEN | IF_MADE):
            with self.subTest(list(chosen)):
                files = files_of_dist(self.made(chosen | OTHERS))
                self.assertEqual(self.check(self.written("dist", files))["commit"], COMMIT)
                del files["MANIFEST"], files["SHA256SUMS"]
                self.assertEqual(files, chosen)

    def test_what_is_no_whole_release_of_a_commit(self) -> None:
        lost, changed = self.made(CHOSEN), self.made(CHOSEN)
        (lost / "SHA256SUMS").unlink()
        (changed / "tml.html").write_bytes(b"pages")
        rows = [
            (lost, "is no release: it has no SHA256SUMS"),
            (changed, "is no whole release: its files are not those of SHA256SUMS"),
            (self.made(CHOSEN, HEAD.replace("clean", "changed after the commit")), "was made of files that were not committed"),
            (self.made({"tml.html": b"page"}), "has no *-manylinux_*_x86_64.whl, *-linux-x86_64.tar.gz, NOTICES"),
        ]
        for folder, reason in rows:
            with self.subTest(reason), self.assertRaises(CannotMake) as refused:
                files_of_dist(folder)
            self.assertEqual(str(refused.exception), f"{folder} {reason}")
        with self.assertRaisesRegex(CannotMake, "^the files for dist/ have [5-9],...,... bytes, which is more than 5,000,000$"):
            files_of_dist(self.made(CHOSEN | {"tml.html": bytes(MOST)}))


class InTheRepository(DistTest):
    def test_it_is_the_last_release_that_the_page_names(self) -> None:
        """Each release of the page is of an ancestor with its version, as far as git knows the history; dist/ has the last one."""
        rows = re.findall(r"^\| (\d+\.\d+\.\d+) \| `([0-9a-f]{40})` \| `(.*)` \|$", text_at("docs/RELEASING.md"), re.MULTILINE)
        self.assertEqual(DIST.exists(), bool(rows))
        is_whole = git("rev-parse", "--is-shallow-repository") == "false\n"
        for version, commit, command in rows:
            self.assertEqual(command, f"git tag -a -m 'tml {version}' v{version} {commit}")
            if is_whole:
                self.assertIsNotNone(git("merge-base", "--is-ancestor", commit, "HEAD"), version)
                self.assertIn(f'\n__version__ = "{version}"\n', needed(git("show", f"{commit}:python/src/tml/__init__.py")))
        if rows:
            fields = self.check(DIST)
            self.assertEqual((fields["version"], fields["commit"]), rows[-1][:2])

    @unittest.skipUnless(DIST.exists(), "nothing was released of this repository")
    @unittest.skipUnless(importlib.util.find_spec("ensurepip"), "no module ensurepip: install python3-venv")
    def test_readme_installs_it(self) -> None:
        """The first commands of README, in a folder that has dist/ and samples/ alone: the program of the wheel finds the clash."""
        commands = match_in(r"^```sh\n(.*?)^```", text_at("README.md"), re.MULTILINE | re.DOTALL)[1]
        with tempfile.TemporaryDirectory(prefix="readme-") as name:
            for folder in ("dist", "samples"):
                Path(name, folder).symlink_to(Path(TOP, folder))
            environment = {"PATH": "/usr/bin:/bin", "HOME": name, "LC_ALL": "C.UTF-8"}
            done = subprocess.run(
                ["sh", "-c", commands], cwd=name, env=environment, capture_output=True, text=True, check=False, timeout=PATIENCE
            )
        self.assertIn("samples/port.xml:23:1: error: clash, 1 of 4: closed IS_INCLUDED Monday", done.stdout, done.stderr)
        self.assertIn("1 file: 1 with a clash, 0 without, 0 with a fault, 0 not judged", done.stdout)


if __name__ == "__main__":
    unittest.main()
