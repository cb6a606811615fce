"""`tools/release`: what it makes, that it makes the same again in another clone, and that what it makes installs and runs."""

from __future__ import annotations

import csv
import email
import fnmatch
import gzip
import hashlib
import os
import re
import shutil
import stat
import subprocess
import tempfile
import time
import unittest
from base64 import urlsafe_b64decode
from pathlib import Path
from unittest import mock

import tomllib

import tml
from building import native
from building.linking import CannotMake
from corpus import TOP, match_in, needed, text_at
from installing import CAN_INSTALL, CANNOT
from processes import BARE, PATIENCE, WITH_PACKAGES
from released import BUILT, IS_BUILT, MISSING, NATIVE, TIME, WEB, Entry, compiled, compiled_below, copy_at, entries, kit_at, ran, release
from releasing import browsers, emulated, natives, notices, outputs, trying
from releasing.debian import LINKED, SCRIPTS
from releasing.source import versions_of
from releasing.symbols import glibc_of, versions_needed

NOT_BUILT = "no program, checker and libraries in crates/*/out: .ci/run makes them"
VERSION = tml.__version__
LIBTML = ("libtml", "libtml-dev")
DEBS = tuple(f"{package}_{VERSION}_amd64.deb" for package in ("tml-timeml", *LIBTML))
TAR, ARM_TAR = (f"tml-{VERSION}-linux-{processor}.tar.gz" for processor in ("x86_64", "aarch64"))
ZIP = f"tml-{VERSION}-windows-x86_64.zip"
INFO = f"tml_corpus-{VERSION}.dist-info"
DOCS, SHARE, IMPORTED = "usr/share/doc/tml-timeml", "usr/share/tml-timeml", "usr/lib/python3/dist-packages"
LIBRARIES = "usr/lib/x86_64-linux-gnu"
MODULES = {path.relative_to(TOP).as_posix() for end in ("py", "typed") for path in Path(TOP, "python/src").rglob(f"*.{end}")}
"""The modules of both packages, and what marks them as typed, by their names in the repository."""

FOLDER = Path()
"""The folder of this run: `copy` has a copy of the repository, `made` its release, and `kit` a kit."""

FILES: dict[str, dict[str, Entry]] = {}
"""What is in each file of the release."""

needs_built = unittest.skipUnless(IS_BUILT, NOT_BUILT)


def setUpModule() -> None:
    """Makes a release for all tests."""
    if MISSING:
        raise unittest.SkipTest(f"not installed: {', '.join(MISSING)}")
    global FOLDER
    held = tempfile.TemporaryDirectory(prefix="release-")
    unittest.addModuleCleanup(held.cleanup)
    FOLDER = Path(os.path.realpath(held.name))
    kit_at(FOLDER / "kit")
    copy_at(FOLDER / "copy")
    done = release(FOLDER / "copy", FOLDER / "made")
    if (done.returncode, done.stderr) != (0, ""):
        raise AssertionError(done.stderr)
    (FOLDER / "printed").write_text(done.stdout, encoding="utf-8")
    FILES.update({path.name: entries(path) for path in (FOLDER / "made").iterdir()})


def binaries() -> list[Path]:
    """The programs and the shared library of the copy."""
    return [FOLDER / "copy/crates" / name for name in BUILT if not name.endswith(".a")]


def wheels() -> tuple[str, str, str]:
    """The names of the wheels: that of Python alone, that for ARM, and that for this machine."""
    of_python, of_arm, of_machine = sorted(name for name in FILES if name.endswith(".whl"))
    return of_python, of_arm, of_machine


def built(name: str) -> bytes:
    """A file that was built, by its name below `crates`."""
    return (FOLDER / "copy/crates" / name).read_bytes()


class Release(unittest.TestCase):
    def test_names(self) -> None:
        tag = "manylinux_{}_{}_x86_64".format(*glibc_of(binaries()))
        arm = "manylinux_{}_{}_aarch64".format(*glibc_of([FOLDER / "copy/crates/tml_c/out/native/libtml-aarch64.so"]))
        names = {*DEBS, TAR, ARM_TAR, ZIP, *WEB, "NOTICES", "MANIFEST", "SHA256SUMS"}
        names |= {f"tml_corpus-{VERSION}-py3-none-{platform}.whl" for platform in ("any", tag, arm)}
        self.assertEqual(set(FILES), names)
        self.assertEqual((FOLDER / "printed").read_text().splitlines(), [f"{FOLDER}/made/{name}" for name in sorted(names)])
        self.assertEqual({stat.S_IMODE(path.stat().st_mode) for path in (FOLDER / "made").iterdir()}, {0o644})

    def test_the_same_again_at_another_place(self) -> None:
        place, again = FOLDER / "another place/of/this", FOLDER / "again"
        shutil.copytree(FOLDER / "copy", place / "copy", symlinks=True)
        (place / "kit").symlink_to(FOLDER / "kit")
        done = release(place / "copy", again, umask=0o077)
        self.assertEqual((done.returncode, done.stderr), (0, ""))
        self.assertEqual({path.name for path in again.iterdir()}, set(FILES))
        different = [name for name in FILES if (again / name).read_bytes() != (FOLDER / "made" / name).read_bytes()]
        self.assertEqual(different, [])

    def test_owners_and_times(self) -> None:
        for archive, files in FILES.items():
            owner = "root" if archive.endswith((".whl", ".zip")) else "root/root"
            self.assertEqual({(one.owner, one.time) for one in files.values()}, {(owner, TIME)} if files else set(), archive)

    def test_no_file_names_the_place(self) -> None:
        self.assertEqual([name for files in FILES.values() for name, one in files.items() if bytes(FOLDER) in one.content], [])

    def test_sums(self) -> None:
        sums = {name: digest for digest, name in map(str.split, (FOLDER / "made/SHA256SUMS").read_text().splitlines())}
        self.assertEqual(sums, {name: self.digest(name) for name in FILES if name != "SHA256SUMS"})

    @staticmethod
    def digest(name: str) -> str:
        return hashlib.sha256((FOLDER / "made" / name).read_bytes()).hexdigest()

    def test_the_manifest(self) -> None:
        fields, sizes = (FOLDER / "made/MANIFEST").read_text().split("\n\n")
        said = dict(line.split(maxsplit=1) for line in fields.splitlines())
        commit = ran("git", "-C", FOLDER / "copy", "rev-parse", "HEAD").decode().strip()
        glibc = "{}.{} or newer".format(*glibc_of(binaries()))
        wanted = {"version": VERSION, "commit": commit, "tree": "clean", "kit": "a kit for tests", "glibc": glibc, "python": ">=3.11"}
        self.assertEqual(said, wanted)
        listed = {name: int(size) for size, name in map(str.split, sizes.splitlines())}
        self.assertEqual(listed, {name: (FOLDER / "made" / name).stat().st_size for name in set(FILES) - {"MANIFEST", "SHA256SUMS"}})

    def test_notices_are_in_each_file(self) -> None:
        text = (FOLDER / "made/NOTICES").read_bytes()
        self.assertEqual(re.findall(rb"^The licence of (\w+)$", text, re.MULTILINE), [b"itoa", b"jiff", b"memchr", b"simdutf8"])
        self.assertIn(b"\n== Crates of the Rattle kit: jiff, jiff_core, jiff_tz\n", text)
        self.assertIn(b"tml itself has no licence yet", text)
        self.assertIn(b"GNU LESSER GENERAL PUBLIC LICENSE", text)
        self.assertIn(b"the mingw-w64 project", text)
        places = {archive: [name for name, one in files.items() if one.content == text] for archive, files in FILES.items() if files}
        wanted = {deb: [f"usr/share/doc/{deb.split('_')[0]}/NOTICES"] for deb in DEBS}
        wanted |= {tar: [f"tml-{VERSION}/share/doc/tml/NOTICES"] for tar in (TAR, ARM_TAR)} | {ZIP: ["NOTICES.txt"]}
        wanted |= {wheel: [f"{INFO}/NOTICES"] for wheel in wheels()}
        self.assertEqual(places, wanted)

    def test_files_for_browsers(self) -> None:
        self.assertEqual([(FOLDER / "made" / name).read_text() for name in WEB], [f"{name}\n" for name in WEB])


class Dist(unittest.TestCase):
    def test_it_gets_files_of_the_release_and_has_no_others(self) -> None:
        dist, made = FOLDER / "copy/dist", FOLDER / "made"
        self.addCleanup(shutil.rmtree, dist)
        (dist / "older").mkdir(parents=True)
        done = release(FOLDER / "copy", made, "--dist")
        self.assertEqual((done.returncode, done.stderr), (0, ""))
        whole = {*wheels()[1:], TAR, ARM_TAR, ZIP, "tml.html", "NOTICES"}
        self.assertEqual({path.name for path in dist.iterdir()}, whole | {"MANIFEST", "SHA256SUMS"})
        self.assertEqual(done.stdout.splitlines(), [str(path) for path in sorted(dist.iterdir())])
        self.assertEqual([name for name in whole if (dist / name).read_bytes() != (made / name).read_bytes()], [])


class Wheels(unittest.TestCase):
    def test_names_and_modes(self) -> None:
        modules = {name.removeprefix("python/src/"): 0o644 for name in MODULES}
        about = {f"{INFO}/{name}": 0o644 for name in ("METADATA", "NOTICES", "WHEEL", "entry_points.txt", "top_level.txt", "RECORD")}
        scripts = {f"tml_corpus-{VERSION}.data/scripts/{name}": 0o755 for name in ("tml", "tml-verify")}
        of_python, of_arm, of_machine = ({name: one.mode for name, one in FILES[wheel].items()} for wheel in wheels())
        self.assertEqual(of_python, modules | about)
        found = {"tml/tml": 0o755, "tml/libtml.so": 0o644}
        self.assertEqual(of_machine, modules | about | scripts | found)
        program = f"tml_corpus-{VERSION}.data/scripts/tml"
        self.assertEqual(of_arm, modules | about | {program: 0o755} | found)
        contents = [FILES[wheels()[1]][name].content for name in (program, "tml/tml", "tml/libtml.so")]
        self.assertEqual(contents, [NATIVE["tml-aarch64"]] * 2 + [built("tml_c/out/native/libtml-aarch64.so")])

    def test_the_record(self) -> None:
        for wheel in wheels():
            rows = list(csv.reader(FILES[wheel][f"{INFO}/RECORD"].content.decode().splitlines()))
            self.assertEqual([name for name, _, _ in rows], list(FILES[wheel]))
            self.assertEqual(rows.pop(), [f"{INFO}/RECORD", "", ""])
            for name, digest, size in rows:
                content = FILES[wheel][name].content
                self.assertEqual(int(size), len(content), name)
                self.assertEqual(urlsafe_b64decode(digest.removeprefix("sha256=") + "="), hashlib.sha256(content).digest(), name)

    def test_the_tag_is_of_the_newest_symbol(self) -> None:
        contents = b"".join(path.read_bytes() for path in binaries())
        newest = max((int(first), int(second)) for first, second in re.findall(rb"\0GLIBC_(\d+)\.(\d+)", contents))
        tag = "py3-none-manylinux_{}_{}_x86_64".format(*max(newest, (2, 5)))
        fields = email.message_from_bytes(FILES[wheels()[2]][f"{INFO}/WHEEL"].content)
        self.assertEqual((fields["Tag"], fields["Root-Is-Purelib"], fields["Wheel-Version"]), (tag, "false", "1.0"))
        fields = email.message_from_bytes(FILES[wheels()[1]][f"{INFO}/WHEEL"].content)
        self.assertRegex(fields["Tag"], "^py3-none-manylinux_2_[0-9]+_aarch64$")
        fields = email.message_from_bytes(FILES[wheels()[0]][f"{INFO}/WHEEL"].content)
        self.assertEqual((fields["Tag"], fields["Root-Is-Purelib"]), ("py3-none-any", "true"))

    def test_metadata(self) -> None:
        about = tomllib.loads(text_at("pyproject.toml"))["project"]
        fields = email.message_from_bytes(FILES[wheels()[2]][f"{INFO}/METADATA"].content)
        wanted = {"Name": "tml-corpus", "Version": VERSION, "Summary": about["description"], "Requires-Python": ">=3.11"}
        self.assertEqual({name: fields[name] for name in wanted}, wanted)
        self.assertEqual(fields.get_all("Classifier"), about["classifiers"])
        self.assertEqual(set(fields.get_all("Provides-Extra", [])), set(about["optional-dependencies"]))
        self.assertRegex(fields["License"], "^none yet: ")
        self.assertEqual(fields.get_payload(), text_at("README.md"))

    def test_a_library_that_not_every_linux_has(self) -> None:
        other, program = FOLDER / "libother.so", FOLDER / "program"
        compiled(other, "-shared", "-fPIC", "-Wl,-soname,libother.so.7")
        compiled(program, "-Wl,--no-as-needed", str(other))
        with self.assertRaisesRegex(CannotMake, "^program needs libother.so.7, which not every Linux has$"):
            versions_needed(program)


@unittest.skipUnless(CAN_INSTALL, CANNOT)
class Installed(unittest.TestCase):
    """The wheel of this machine as pip installs it, without a network."""

    target: Path

    @classmethod
    def setUpClass(cls) -> None:
        cls.target = FOLDER / "target"
        words = ["--quiet", "--no-index", "--no-compile", "--target", str(cls.target), str(FOLDER / "made" / wheels()[2])]
        ran(*WITH_PACKAGES, "-m", "pip", "install", *words, PYTHONPYCACHEPREFIX="")

    def run_words(self, *words: str | Path) -> tuple[int, str, str]:
        """The status and both streams of a program that finds nothing but what is installed, and that by no variable of ours."""
        variables = {name: value for name, value in os.environ.items() if not name.startswith("TML")}
        variables |= {"PATH": "/nowhere", "PYTHONPATH": str(self.target), **compiled_below(FOLDER)}
        done = subprocess.run(words, env=variables, capture_output=True, text=True, check=False, timeout=PATIENCE)
        return done.returncode, done.stdout, done.stderr

    def test_commands(self) -> None:
        commands = {"tml", "tml-verify", *tomllib.loads(text_at("pyproject.toml"))["project"]["scripts"]}
        self.assertEqual({path.name for path in (self.target / "bin").iterdir() if os.access(path, os.X_OK)}, commands)
        for name in ("tml/out/tml", "tml_verify/out/tml_verify"):
            command = self.target / "bin" / os.path.basename(name).replace("_", "-")
            self.assertEqual(command.read_bytes(), built(name))
        self.assertEqual(self.run_words(*BARE, self.target / "bin/tml-edit", "--version"), (0, f"tml-edit {VERSION}\n", ""))

    def test_the_program_and_the_library_are_found(self) -> None:
        script = "from tml.finding import find; found = find(); print(found.program, found.library.path, found.is_named)"
        os.utime(self.target / "tml/libtml.so", (TIME, TIME))
        wanted = f"{self.target}/tml/tml {self.target}/tml/libtml.so False\n"
        self.assertEqual(self.run_words(*BARE, "-c", script), (0, wanted, ""))

    @needs_built
    def test_questions_are_answered(self) -> None:
        sample = os.path.join(TOP, "samples/port.xml")
        status, out, error = self.run_words(*BARE, self.target / "bin/tml-corpus", "clashes", sample)
        self.assertEqual((status, error), (1, ""))
        self.assertTrue(out.startswith(f"{sample}:23:1: error: clash, 1 of 4: closed IS_INCLUDED Monday (l5: ei4 IS_INCLUDED t1)\n"), out)
        self.assertEqual(self.run_words(*BARE, "-c", f"import tml; print(len(tml.clash({sample!r}).links))"), (0, "4\n", ""))
        self.assertEqual(self.run_words(*BARE, "-m", "tml")[1].split()[-1], f"{self.target}/tml/libtml.so")


class Tar(unittest.TestCase):
    def test_what_it_has(self) -> None:
        files = {name.removeprefix(f"tml-{VERSION}/"): one for name, one in FILES[TAR].items()}
        self.assertEqual(files["bin/tml"][:3], (built("tml/out/tml"), "", 0o755))
        self.assertEqual(files["bin/tml-verify"][:3], (built("tml_verify/out/tml_verify"), "", 0o755))
        texts = {"share/bash-completion/completions/tml": "tools/completion/tml.bash"}
        texts |= {f"share/man/man1/{name}.1": f"docs/{name}.1" for name in ("tml", "tml-verify")}
        self.assertEqual(set(files), {"bin/tml", "bin/tml-verify", *texts, "share/doc/tml/NOTICES"})
        for name, source in texts.items():
            self.assertEqual(files[name][:3], (text_at(source).encode(), "", 0o644))

    def test_the_program_for_arm(self) -> None:
        files = {name.removeprefix(f"tml-{VERSION}/"): one for name, one in FILES[ARM_TAR].items()}
        self.assertEqual(files["bin/tml"][:3], (NATIVE["tml-aarch64"], "", 0o755))
        names = {"bin/tml", "share/man/man1/tml.1", "share/bash-completion/completions/tml", "share/doc/tml/NOTICES"}
        self.assertEqual(set(files), names)

    def test_the_program_for_windows(self) -> None:
        self.assertEqual(set(FILES[ZIP]), {"tml.exe", "NOTICES.txt"})
        self.assertEqual(FILES[ZIP]["tml.exe"][:3], (NATIVE["tml.exe"], "", 0o755))


def files_in(folder: str, end: str = "") -> list[str]:
    """The names of the files of a folder of the repository."""
    return [path.name for path in Path(TOP, folder).iterdir() if path.is_file() and path.name.endswith(end)]


def names_of_program_package() -> set[str]:
    """What is to be in the package of the programs."""
    names = {"usr/bin/tml", "usr/bin/tml-verify", "usr/share/lintian/overrides/tml-timeml", f"{IMPORTED}/tml"}
    names |= {f"usr/bin/{called}" for called in SCRIPTS.values()} | {f"{SHARE}/tools/{name}" for name in SCRIPTS}
    names |= {f"{SHARE}/{name}" for name in MODULES}
    names |= {f"usr/share/bash-completion/completions/{name}" for name in ("tml", *SCRIPTS.values())}
    names |= {f"usr/share/man/man1/{name}.1.gz" for name in ("tml", "tml-verify", "tml-tools", *SCRIPTS.values())}
    names |= {f"{DOCS}/{name}" for name in ("README.md", "CHANGELOG.md", "SECURITY.md", "changelog.gz", "copyright", "NOTICES")}
    names |= {f"{DOCS}/{name}" for name in (*(f"docs/{page}" for page in files_in("docs", ".md")), *LINKED)}
    names |= {f"{DOCS}/dist/tml.html", *(f"{DOCS}/docs/schema/{name}" for name in files_in("docs/schema"))}
    return names | {f"{DOCS}/{folder}/{name}" for folder in ("samples", "samples/first", "samples/second") for name in files_in(folder)}


class Packages(unittest.TestCase):
    def fields(self, package: str) -> dict[str, str]:
        """What a package says of itself."""
        [deb] = [name for name in DEBS if name.startswith(f"{package}_")]
        printed = ran("dpkg-deb", "-f", FOLDER / "made" / deb).decode()
        return dict(re.findall(r"^(\S+): (.*)$", printed, re.MULTILINE))

    def test_the_package_of_the_programs(self) -> None:
        files = FILES[DEBS[0]]
        self.assertEqual(set(files), names_of_program_package())
        programs = {"usr/bin/tml", "usr/bin/tml-verify", *(f"{SHARE}/tools/{name}" for name in SCRIPTS)}
        for name, one in files.items():
            with self.subTest(name):
                self.assertEqual(one.mode, 0o777 if one.target else 0o755 if name in programs else 0o644)
                leads_to = os.path.normpath(os.path.join(os.path.dirname(name), one.target)) if one.target else name
                self.assertTrue(leads_to in files or f"{leads_to}/__init__.py" in files, f"it leads nowhere: {one.target}")

    def test_links_of_the_pages_lead_somewhere(self) -> None:
        files = {name: one for deb in DEBS for name, one in FILES[deb].items()}
        there = {*files, *(os.path.dirname(name) for name in files)}
        pages = {name: one.content.decode() for name, one in files.items() if name.endswith(".md")}
        texts = {name: re.sub("```.*?```", "", page, flags=re.DOTALL) for name, page in pages.items()}
        links = [(name, link) for name, text in texts.items() for link in re.findall(r"\]\((?!https?:)([^)#\s]+)", text)]
        self.assertGreater(len(links), 100)
        self.assertEqual([one for one in links if os.path.normpath(os.path.join(os.path.dirname(one[0]), one[1])) not in there], [])

    def test_the_packages_of_the_library(self) -> None:
        shared = f"{LIBRARIES}/libtml.so.{VERSION}"
        about = {package: {f"usr/share/doc/{package}/{name}" for name in ("copyright", "changelog.gz", "NOTICES")} for package in LIBTML}
        overrides = "usr/share/lintian/overrides/libtml"
        self.assertEqual(set(FILES[DEBS[1]]), {shared, f"{LIBRARIES}/libtml.so.0", overrides, *about["libtml"]})
        developing = {f"{LIBRARIES}/{name}" for name in ("libtml.so", "libtml.a", "pkgconfig/libtml.pc")}
        developing |= {"usr/include/tml.h", "usr/share/doc/libtml-dev/LIBRARY.md"}
        self.assertEqual(set(FILES[DEBS[2]]), developing | about["libtml-dev"])
        self.assertEqual(FILES[DEBS[1]][shared].content, built("tml_c/out/libtml.so"))
        self.assertEqual(FILES[DEBS[2]][f"{LIBRARIES}/libtml.a"].content, built("tml_c/out/libtml.a"))
        self.assertEqual(FILES[DEBS[1]][f"{LIBRARIES}/libtml.so.0"].target, os.path.basename(shared))
        self.assertEqual(FILES[DEBS[2]][f"{LIBRARIES}/libtml.so"].target, "libtml.so.0")

    def test_fields(self) -> None:
        glibc = "libc6 (>= {}.{})".format(*glibc_of(binaries()))
        depends = {"tml-timeml": f"{glibc}, python3 (>= 3.11)", "libtml": glibc, "libtml-dev": f"libtml (= {VERSION})"}
        for package, others in depends.items():
            fields = self.fields(package)
            wanted = {"Package": package, "Version": VERSION, "Architecture": "amd64", "Maintainer": "A Name <a@example.org>"}
            self.assertEqual({name: fields.get(name) for name in (*wanted, "Depends")}, {**wanted, "Depends": others})
        fields = self.fields("tml-timeml")
        self.assertEqual((fields["Recommends"], fields["Conflicts"]), (f"libtml (= {VERSION})", "tml"))

    def test_contents(self) -> None:
        files = FILES[DEBS[0]]
        self.assertEqual(files["usr/bin/tml"].content, built("tml/out/tml"))
        self.assertEqual(files["usr/bin/tml-verify"].content, built("tml_verify/out/tml_verify"))
        for name in files_in("docs", ".1"):
            self.assertEqual(gzip.decompress(files[f"usr/share/man/man1/{name}.gz"].content).decode(), text_at("docs", name))
        for name in SCRIPTS:
            self.assertTrue(files[f"{SHARE}/tools/{name}"].content.startswith(b"#!/usr/bin/python3\n"), name)
        changes = gzip.decompress(files[f"{DOCS}/changelog.gz"].content).decode()
        head = rf"^tml-timeml \({re.escape(VERSION)}\) unstable; urgency=medium\n\n  \* .*\n\n -- A Name <a@example.org>  \w{{3}}, \d\d "
        self.assertRegex(changes, head)

    def test_sums(self) -> None:
        for deb in DEBS:
            printed = ran("dpkg-deb", "-I", FOLDER / "made" / deb, "md5sums").decode()
            sums = {name: digest for digest, name in map(str.split, printed.splitlines())}
            self.assertEqual(sums, {name: hashlib.md5(one.content).hexdigest() for name, one in FILES[deb].items() if not one.target})

    def test_what_is_taken_away(self) -> None:
        printed = ran("dpkg-deb", "-I", FOLDER / "made" / DEBS[0], "prerm").decode()
        self.assertIn(f"\nfind /{SHARE}/python -type d -name __pycache__ -prune -exec rm -rf {{}} +\n", printed)

    @needs_built
    @unittest.skipUnless(shutil.which("lintian"), "no program lintian")
    def test_lintian_misses_the_licence_alone(self) -> None:
        done = subprocess.run(["lintian", FOLDER / "made" / DEBS[0]], capture_output=True, text=True, timeout=600, check=False)
        said = [line for line in done.stdout.splitlines() if line[1:2] == ":"]
        self.assertEqual(said, ["W: tml-timeml: copyright-without-copyright-notice"])


class Unpacked(unittest.TestCase):
    root: Path

    @classmethod
    def setUpClass(cls) -> None:
        cls.root = FOLDER / "root"
        ran("dpkg-deb", "-x", FOLDER / "made" / DEBS[0], cls.root)

    def unpacked(self, program: str, *words: str, given: bytes = b"") -> tuple[int, str]:
        """The status and the text of an unpacked program; PATH has nothing but the programs of the package."""
        path = self.root / "usr/bin"
        done = subprocess.run(
            [*([] if program in ("tml", "tml-verify") else BARE), path / program, *words],
            input=given,
            cwd=self.root / DOCS,
            env={"PATH": str(path), "HOME": str(self.root), "LC_ALL": "C.UTF-8", **compiled_below(FOLDER)},
            stdout=subprocess.PIPE,
            check=False,
            timeout=PATIENCE,
        )
        return done.returncode, done.stdout.decode()

    @needs_built
    def test_it_runs(self) -> None:
        self.assertEqual(self.unpacked("tml", "drill", "3")[1].splitlines()[-1], "verified timeline")
        self.assertEqual(
            self.unpacked("tml-corpus", "check", "--lint", "--clashes", "samples/rates.xml"),
            (0, "1 file: 1 accepted, 0 with a clash, 0 with a fault, 0 not judged\n"),
        )
        self.assertEqual(self.unpacked("tml-redundant-links", "samples/rates.xml")[0], 0)
        self.assertEqual(self.unpacked("tml-edit", "--unwrap", "SIGNAL", "samples/event.xml")[0], 0)

    def test_tools_that_ask_no_program(self) -> None:
        self.assertEqual(self.unpacked("tml-html-entities", given=b"&eacute;"), (0, "é"))
        status, out = self.unpacked("tml-from-tempeval2", "--help")
        self.assertEqual((status, out.split()[:2]), (0, ["usage:", "tml-from-tempeval2"]))

    def test_python_finds_the_package_tml(self) -> None:
        words = [*BARE, "-c", "import tml.library, tml.process; print(tml.__file__)"]
        variables = {"PYTHONPATH": str(self.root / IMPORTED), **compiled_below(FOLDER)}
        done = subprocess.run(words, cwd=FOLDER, env=variables, capture_output=True, text=True, check=False, timeout=PATIENCE)
        self.assertEqual((done.stdout, done.stderr), (f"{self.root}/{IMPORTED}/tml/__init__.py\n", ""))


class Refused(unittest.TestCase):
    """What no release is made of. Each leaves no folder, and says why in one line."""

    def refusal(self) -> str:
        """Why the copy is refused."""
        done = release(FOLDER / "copy", FOLDER / "none")
        self.assertEqual((done.returncode, done.stdout, (FOLDER / "none").exists()), (1, "", False))
        self.assertEqual(list(FOLDER.glob(".release-*")), [])
        return match_in("^release: (.*)\n$", done.stderr)[1]

    def replaced(self, name: str, content: bytes | None) -> None:
        """Gives a file of the copy another content for this test, or takes it away."""
        path = FOLDER / "copy" / name
        before = path.read_bytes()
        self.addCleanup(path.write_bytes, before)
        path.unlink()
        if content is not None:
            path.write_bytes(content)

    def test_programs_and_libraries_that_are_missing(self) -> None:
        self.replaced("crates/tml_c/out/libtml.a", None)
        self.assertEqual(self.refusal(), "no crates/tml_c/out/libtml.a: tools/library/build makes what is missing")
        self.replaced("crates/tml_verify/out/tml_verify", None)
        missing = "crates/tml_verify/out/tml_verify, crates/tml_c/out/libtml.a"
        self.assertEqual(self.refusal(), f"no {missing}: .ci/run makes what is missing")

    def test_other_programs(self) -> None:
        self.replaced("crates/tml/out/tml", b"#!/bin/sh\n")
        self.assertEqual(self.refusal(), "crates/tml/out/tml is no program or library for amd64")
        (FOLDER / "copy/crates/tml/out/tml").write_bytes(built("tml_verify/out/tml_verify"))
        self.assertRegex(self.refusal(), "^crates/tml/out/tml does not answer")

    def test_a_program_with_the_place_in_it(self) -> None:
        self.replaced("crates/tml_verify/out/tml_verify", built("tml_verify/out/tml_verify") + bytes(FOLDER / "copy/crates"))
        self.assertEqual(self.refusal(), "crates/tml_verify/out/tml_verify has the path of this clone in it")

    def test_a_program_older_than_its_crate(self) -> None:
        source = FOLDER / "copy/crates/evidence_check/src/lib.rt"
        source.parent.mkdir(parents=True)
        self.addCleanup(shutil.rmtree, FOLDER / "copy/crates/evidence_check")
        source.touch()
        os.utime(source, (2 * TIME, 2 * TIME))
        self.assertEqual(self.refusal(), "crates were changed after crates/tml/out/tml was made: .ci/run makes it anew")

    def test_a_version_that_is_not_in_the_changes(self) -> None:
        self.replaced("CHANGELOG.md", b"# Changes\n\n## [99.0.0] - 2026-11-29\n")
        self.assertEqual(self.refusal(), f"the newest version of CHANGELOG.md is 99.0.0, and that of the package tml is {VERSION}")

    def test_a_crate_without_a_licence(self) -> None:
        licence = FOLDER / "kit/rattle/jiff_tz/LICENSE"
        self.addCleanup(licence.write_bytes, licence.read_bytes())
        licence.unlink()
        self.assertEqual(self.refusal(), f"no licence of jiff_tz, which is linked: {FOLDER}/kit/rattle/jiff_tz has no file LICENSE")

    def test_a_folder_that_exists(self) -> None:
        done = release(FOLDER / "copy", FOLDER / "made")
        self.assertEqual((done.returncode, done.stderr), (1, f"release: {FOLDER}/made exists: name a folder that does not\n"))


class Parts(unittest.TestCase):
    def test_help_has_an_example(self) -> None:
        done = subprocess.run([*BARE, os.path.join(TOP, "tools/release"), "--help"], capture_output=True, text=True, check=True)
        self.assertIn("Example: ", done.stdout)

    def test_each_version_is_after_the_one_before_it(self) -> None:
        changes = "# Changes\n\n## [Unreleased]\n\n## [0.2.0] - 2026-11-29\n\n## [0.1.1] - 2026-11-29\n\n## [0.1.0] - 2026-11-27\n"
        dates = [(version.name, version.date.isoformat()) for version in versions_of(changes)]
        days = [("0.2.0", "2026-11-29T00:01:00"), ("0.1.1", "2026-11-29T00:00:00"), ("0.1.0", "2026-11-27T00:00:00")]
        self.assertEqual(dates, [(version, f"{day}+00:00") for version, day in days])

    def test_without_files_for_browsers(self) -> None:
        with mock.patch.object(browsers, "FOLDER", FOLDER / "made"):
            self.assertEqual(set(browsers.web_files()), set(WEB))
            with mock.patch.object(outputs, "changed_below", return_value=time.time() + 1):
                self.assertEqual(browsers.web_files(), {}, "they are older than the crates")
        with mock.patch.object(browsers, "FOLDER", FOLDER):
            self.assertEqual(browsers.web_files(), {})
        build = "tools/web/build crates/tml_c/out/web"
        with mock.patch.object(browsers, "PROGRAMS", ("sh",)):
            self.assertEqual(browsers.what_makes_them(), build)
        with mock.patch.object(browsers, "PROGRAMS", ("no-such-program",)):
            self.assertEqual(browsers.what_makes_them(), f"tools/install-needs && {build}")

    def test_without_programs_for_other_systems(self) -> None:
        with mock.patch.object(natives, "FOLDER", FOLDER / "copy/crates/tml_c/out/native"):
            self.assertIsNone(natives.left_out())
            with mock.patch.object(outputs, "changed_below", return_value=time.time() + 1):
                self.assertEqual(natives.built_for(native.WINDOWS), {}, "they are older than the crates")
        packages = "gcc-aarch64-linux-gnu libc6-dev-arm64-cross gcc-mingw-w64-x86-64-posix"
        for can_link, install in ((False, f"apt-get install {packages} && "), (True, "")):
            with mock.patch.object(natives, "FOLDER", FOLDER), mock.patch.object(natives, "can_link", return_value=can_link):
                makes = f"{install}tools/native/build crates/tml_c/out/native makes what they need"
                self.assertEqual(natives.left_out(), f"without tml-aarch64, libtml-aarch64.so, tml.exe: {makes}")

    @unittest.skipUnless(shutil.which("rt"), "no rt: a kit has it")
    def test_notices_of_the_kit(self) -> None:
        kit = Path(os.path.realpath(needed(shutil.which("rt")))).parents[1]
        text = notices.notices_of(kit, "this kit").decode()
        named = [name for names in re.findall("^== .* of the Rattle kit: (.*)$", text, re.MULTILINE) for name in names.split(", ")]
        self.assertEqual(sorted(named), sorted(notices.linked_crates(kit)))
        self.assertIn("Permission is hereby granted, free of charge", text)

    def test_what_is_tried(self) -> None:
        ran("sh", "-n", trying.SCRIPT)
        patterns = re.findall(r"/release/(\S+)", trying.SCRIPT.read_text(encoding="utf-8"))
        tried = (*DEBS, TAR, wheels()[0], wheels()[2])
        self.assertEqual({tuple(fnmatch.filter(FILES, pattern)) for pattern in patterns}, {(name,) for name in tried})
        patterns = [emulator.archive for emulator in emulated.EMULATORS]
        self.assertEqual([fnmatch.filter(FILES, pattern) for pattern in patterns], [[ARM_TAR], [ZIP]])

    def test_what_is_no_release_is_not_tried(self) -> None:
        with self.assertRaisesRegex(CannotMake, " is no release: it has no SHA256SUMS$"):
            trying.try_release(FOLDER / "copy")


if __name__ == "__main__":
    unittest.main()
