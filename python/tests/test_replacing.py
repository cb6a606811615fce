"""Files that are written in the place of others: their rights, links to them, what is saved meanwhile, and signals."""

import os
import signal
import stat
import struct
import time
import unittest
from collections.abc import Callable
from functools import partial
from unittest import mock

from corpus import TML, CorpusTest, document, needs_root
from tml.running import CannotRun
from tml_corpus.asking.pool import Interruption, in_order
from tml_corpus.check.fix import Fixed, write
from tml_corpus.files.finding import Found
from tml_corpus.timeline.timeline import write_picture

STRANGER = 65534
"""The user and the group `nobody`: of neither are there files or rights elsewhere."""

OLD, NEW = document("&eacute;").encode(), document("é").encode()
SLIP = document("caf\xe9 &eacute;").encode("latin-1")
ACCESS_LIST = "system.posix_acl_access"
KEPT = "its owner, group, access list and permissions cannot be kept"

USER, NAMED_USER, GROUP, MASK, OTHER = 1, 2, 4, 16, 32
"""The kinds of entries of an access list."""


def access_list(permissions: int) -> bytes:
    """An access list as the system has it: `nobody` may read what others may not."""
    nobody_else = 0xFFFFFFFF
    entries = [
        (USER, 6, nobody_else),
        (NAMED_USER, 4, STRANGER),
        (GROUP, permissions, nobody_else),
        (MASK, 4, nobody_else),
        (OTHER, 0, nobody_else),
    ]
    return struct.pack("<I", 2) + b"".join(struct.pack("<HHI", *entry) for entry in entries)


def in_child(work: Callable[[], object]) -> tuple[int, str]:
    """How a child ended that did some work, once its own children have too: 0, or minus the number of a signal; and what it raised."""
    reading, writing = os.pipe()
    process = os.fork()
    if not process:
        try:
            work()
            os._exit(0)
        except BaseException as error:
            os.write(writing, repr(error).encode())
        finally:
            os._exit(1)
    os.close(writing)
    with open(reading, encoding="utf-8") as said:
        raised = said.read()
    return os.waitstatus_to_exitcode(os.waitpid(process, 0)[1]), raised


def as_stranger(work: Callable[[], object]) -> tuple[int, str]:
    """The same as the user `nobody`."""

    def become_and_work() -> None:
        os.setgroups([])
        os.setgid(STRANGER)
        os.setuid(STRANGER)
        work()

    return in_child(become_and_work)


class ReplacingTest(CorpusTest):
    def setUp(self) -> None:
        super().setUp()
        self.write("d.xml", OLD)

    def mend(self, name: str = "d.xml") -> None:
        """Has a file replaced that was read and mended."""
        write(Fixed(OLD, NEW), Found(self.path(name)))

    def content(self, name: str = "d.xml") -> bytes:
        return self.read_bytes(name)

    def names(self) -> list[str]:
        """The names of all files."""
        return sorted(os.listdir(self.folder))

    def state(self, name: str = "d.xml") -> tuple[int, int, int]:
        """The owner, group and mode of a file."""
        status = os.stat(self.path(name))
        return status.st_uid, status.st_gid, stat.S_IMODE(status.st_mode)

    def refused(self, said: str) -> None:
        """Has a file not replaced, with a sentence."""
        with self.assertRaisesRegex(CannotRun, said):
            self.mend()


class RightsTest(ReplacingTest):
    def test_modes_with_every_seventh_number(self) -> None:
        with mock.patch.object(os, "fsync"):
            for mode in range(0, 0o10000, 7):
                if os.geteuid() == 0 or mode & 0o400:
                    self.write("d.xml", OLD)
                    if os.geteuid() == 0:
                        os.chown(self.path("d.xml"), STRANGER, STRANGER)
                    os.chmod(self.path("d.xml"), mode)
                    owner = self.state()[:2]
                    self.mend()
                    self.assertEqual(self.state(), (*owner, mode & 0o777))
                    os.unlink(self.path("d.xml"))

    def test_no_mode_but_permissions(self) -> None:
        for mode, kept in ((0o4755, 0o755), (0o2755, 0o755), (0o1644, 0o644), (0o7777, 0o777), (0o640, 0o640), (0o444, 0o444)):
            with self.subTest(oct(mode)):
                self.write("d.xml", OLD)
                os.chmod(self.path("d.xml"), mode)
                self.assertEqual(self.run_it("fix", "--write", "d.xml")[0], 0)
                self.assertEqual((self.content(), self.state()[2]), (NEW, kept))
                os.unlink(self.path("d.xml"))

    @needs_root
    def test_a_file_of_a_stranger_stays_one(self) -> None:
        for mode, kept in ((0o4755, 0o755), (0o600, 0o600)):
            with self.subTest(oct(mode)):
                self.write("d.xml", OLD)
                os.chown(self.path("d.xml"), STRANGER, STRANGER)
                os.chmod(self.path("d.xml"), mode)
                self.assertEqual(self.run_it("fix", "--write", "d.xml")[0], 0)
                self.assertEqual((self.content(), self.state()), (NEW, (STRANGER, STRANGER, kept)))

    @needs_root
    def test_the_new_file_is_never_one_of_root_that_others_may_run(self) -> None:
        os.chown(self.path("d.xml"), STRANGER, STRANGER)
        os.chmod(self.path("d.xml"), 0o4777)
        seen: list[tuple[int, int]] = []
        change_mode = os.fchmod

        def look_and_change(handle: int, mode: int) -> None:
            seen.append((os.fstat(handle).st_uid, mode))
            change_mode(handle, mode)

        with mock.patch.object(os, "fchmod", look_and_change):
            self.mend()
        self.assertEqual(seen, [(STRANGER, 0o777)])

    @needs_root
    def test_a_stranger_cannot_give_a_file_away(self) -> None:
        os.chmod(self.folder, 0o777)
        os.chmod(self.path("d.xml"), 0o666)
        before = self.state()
        status, raised = as_stranger(self.mend)
        self.assertEqual((status, self.content(), self.state(), self.names()), (1, OLD, before, ["d.xml"]))
        self.assertRegex(raised, f"d.xml cannot be written: {KEPT}: operation not permitted")

    @needs_root
    def test_where_the_owner_cannot_be_kept_nothing_is_written(self) -> None:
        os.chown(self.path("d.xml"), STRANGER, STRANGER)
        for change_owner in (mock.Mock(side_effect=PermissionError(1, "Operation not permitted")), mock.Mock()):
            with mock.patch.object(os, "fchown", change_owner):
                self.refused(f"^.*d.xml cannot be written: {KEPT}")
            self.assertEqual((self.content(), self.names()), (OLD, ["d.xml"]))

    def test_access_lists(self) -> None:
        with_list = access_list(0)
        self.try_access_list("d.xml", with_list)
        mode = self.state()[2]
        self.assertEqual(self.run_it("fix", "--write", "d.xml")[0], 0)
        self.assertEqual((self.content(), os.getxattr(self.path("d.xml"), ACCESS_LIST), self.state()[2]), (NEW, with_list, mode))

    def test_access_lists_of_the_folder_are_not_for_the_file(self) -> None:
        self.try_access_list(".", access_list(0), ACCESS_LIST.replace("access", "default"))
        os.chmod(self.path("d.xml"), 0o604)
        self.assertEqual(self.run_it("fix", "--write", "d.xml")[0], 0)
        self.assertEqual((self.content(), self.state()[2]), (NEW, 0o604))
        with self.assertRaises(OSError):
            os.getxattr(self.path("d.xml"), ACCESS_LIST)

    def test_where_the_access_list_cannot_be_kept_nothing_is_written(self) -> None:
        self.try_access_list("d.xml", access_list(0))
        with mock.patch.object(os, "setxattr", mock.Mock()):
            self.refused(KEPT)
        self.assertEqual((self.content(), self.names()), (OLD, ["d.xml"]))

    def try_access_list(self, name: str, value: bytes, attribute: str = ACCESS_LIST) -> None:
        """Gives a file an access list, where there are any."""
        try:
            os.setxattr(self.path(name), attribute, value)
        except (AttributeError, OSError) as error:
            self.skipTest(f"no access lists here: {error}")

    def test_a_baseline_keeps_them_too(self) -> None:
        self.write("known", '["tml-corpus baseline", 1]\n')
        os.chmod(self.path("known"), 0o4600)
        self.assertEqual(self.run_it("check", "--lint", "--baseline", "known", "--write-baseline", "d.xml")[0], 1)
        self.assertEqual(self.state("known")[2], 0o600)

    def test_devices_stay(self) -> None:
        os.mkfifo(self.path("pipe"))
        with self.assertRaisesRegex(CannotRun, "pipe cannot be written: is not a regular file"):
            self.mend("pipe")
        self.assertEqual(self.names(), ["d.xml", "pipe"])


class Links(ReplacingTest):
    def setUp(self) -> None:
        super().setUp()
        os.makedirs(self.path("c/e"))
        os.makedirs(self.path("out"))
        os.rename(self.path("d.xml"), self.path("out/d.xml"))

    def test_nothing_is_written_through_a_link_that_a_search_found(self) -> None:
        self.write("out/settings", SLIP)
        os.symlink("../out/d.xml", self.path("c/l.xml"))
        os.symlink("../out/settings", self.path("c/s.xml"))
        os.symlink("../out", self.path("c/f"))
        said = "not fixed: is a symbolic link found in a folder: name it to fix what it leads to"
        for words in (("--write", "c"), ("--diff", "c"), ("--write", "c", "c/e")):
            status, lines, _ = self.run_it("fix", *words)
            self.assertEqual((status, lines[:2]), (2, [f"c/l.xml: {said}", f"c/s.xml: {said}"]))
        self.assertEqual((self.content("out/d.xml"), self.content("out/settings")), (OLD, SLIP))

    def test_a_link_that_is_named_is_followed(self) -> None:
        os.symlink("../out/d.xml", self.path("c/l.xml"))
        for words in (("c", "c/l.xml"), ("c/l.xml", "c")):
            with self.subTest(words):
                self.write("out/d.xml", OLD)
                self.assertEqual(self.run_it("fix", "--write", *words)[0], 0)
                self.assertEqual((self.content("out/d.xml"), os.path.islink(self.path("c/l.xml"))), (NEW, True))

    def test_folders_that_become_links_while_a_file_is_mended(self) -> None:
        rows = (("c/e/d.xml", "[ -L c/e ] || { mv c/e c/moved; ln -s ../out c/e; }"), ("c/l.xml", "ln -sf ../out/d.xml c/l.xml"))
        for name, change in rows:
            self.write(name, OLD)
            self.write("changing", f'#!/bin/sh\n{change}\nexec "{os.path.abspath(TML)}" "$@"\n')
            os.chmod(self.path("changing"), 0o700)
            with self.subTest(name):
                status, lines, _ = self.run_it("fix", "--write", "--glob", os.path.basename(name), "c", tml=self.path("changing"))
                self.assertEqual((self.content("out/d.xml"), os.listdir(self.path("out"))), (OLD, ["d.xml"]))
                self.assertEqual((status, lines[0].split(" cannot be written: ")[0]), (2, f"{name}: not fixed: {name}"))

    def test_an_encoding_is_converted_only_below_a_root_of_timeml(self) -> None:
        rows = [
            (b"name = caf\xe9\n", False),
            (b"<P>caf\xe9</P>\n", False),
            (b"caf\xe9 <TimeML>x</TimeML>\n", False),
            (b"<TimeMLs>caf\xe9</TimeMLs>\n", False),
            (b"<!-- <TimeML> --> <P>caf\xe9</P>\n", False),
            (b'<?xml version="1.0"?> <!-- x --> <!DOCTYPE TimeML>\n<TimeML >caf\xe9</TimeML>\n', True),
            (b"<TimeML>caf\xe9</TimeML>\n", True),
        ]
        for number, (content, _) in enumerate(rows):
            self.write(f"c/{number}.xml", content)
        self.run_it("fix", "--write", "--from", "latin-1", "c")
        for number, (content, is_converted) in enumerate(rows):
            with self.subTest(content):
                self.assertEqual(self.content(f"c/{number}.xml"), content.decode("latin-1").encode() if is_converted else content)


class Saves(ReplacingTest):
    def test_what_is_saved_in_the_middle_stays(self) -> None:
        saved = document("saved & saved").encode()

        def save_in_place() -> None:
            self.write("d.xml", saved)

        def save_by_renaming() -> None:
            self.write("s.xml", saved)
            os.rename(self.path("s.xml"), self.path("d.xml"))

        for save in (save_in_place, save_by_renaming):
            with self.subTest(save.__name__), mock.patch.object(os, "fsync", lambda _, save=save: save()):
                self.write("d.xml", OLD)
                self.refused("^the file was changed meanwhile$")
                self.assertEqual((self.content(), self.names()), (saved, ["d.xml"]))

    def test_permissions_that_are_taken_in_the_middle_stay_taken(self) -> None:
        os.chmod(self.path("d.xml"), 0o644)
        with mock.patch.object(os, "fsync", lambda _: os.chmod(self.path("d.xml"), 0o600)):
            self.refused("^the file was changed meanwhile$")
        self.assertEqual((self.content(), self.state()[2], self.names()), (OLD, 0o600, ["d.xml"]))

    def test_a_file_that_is_gone_does_not_come_back(self) -> None:
        with mock.patch.object(os, "fsync", lambda _: os.unlink(self.path("d.xml"))):
            self.refused("no such file or directory")
        self.assertEqual(self.names(), [])


class Signals(ReplacingTest):
    def test_signals_wait_until_a_file_is_whole(self) -> None:
        rename = os.replace

        def mend(number: int) -> None:
            with mock.patch.object(os, "fsync", lambda _: os.kill(os.getpid(), number)):
                self.mend()

        def draw(number: int) -> None:
            def kill_and_rename(old: str, new: str, **folders: int) -> None:
                os.kill(os.getpid(), number)
                rename(old, new, **folders)

            with mock.patch.object(os, "replace", kill_and_rename):
                write_picture(self.path("d.xml"), NEW.decode())

        for work in (mend, draw):
            for number in (signal.SIGTERM, signal.SIGHUP, signal.SIGINT):
                with self.subTest(work=work.__name__, number=number):
                    self.write("d.xml", OLD)
                    status, raised = in_child(partial(work, number))
                    self.assertEqual((status, raised), (1, "KeyboardInterrupt()") if number == signal.SIGINT else (-number, ""))
                    self.assertEqual((self.content(), self.names()), (NEW, ["d.xml"]))

    def test_a_signal_that_is_ignored_stays_ignored(self) -> None:
        def replace() -> None:
            signal.signal(signal.SIGHUP, signal.SIG_IGN)
            with mock.patch.object(os, "fsync", lambda _: os.kill(os.getpid(), signal.SIGHUP)):
                self.mend()
            self.assertEqual(signal.getsignal(signal.SIGHUP), signal.SIG_IGN)

        self.assertEqual((in_child(replace), self.content()), ((0, ""), NEW))

    def test_a_process_whose_program_is_gone_writes_its_file_whole(self) -> None:
        def end_the_program(_: int) -> None:
            os.kill(os.getppid(), signal.SIGKILL)
            time.sleep(0.3)

        def replace(_: int) -> None:
            with mock.patch.object(os, "fsync", end_the_program):
                self.mend()
            time.sleep(60)

        status, _ = in_child(lambda: list(in_order(replace, [1], 1, Interruption(), lambda *_: None)))
        self.assertEqual((status, self.content(), self.names()), (-signal.SIGKILL, NEW, ["d.xml"]))


if __name__ == "__main__":
    unittest.main()
