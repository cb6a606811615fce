"""`--cluster`: the same report as on one machine, with a Dask scheduler and workers that the test starts and ends.

Without the module `distributed` (of Debian: python3-distributed) most of it is skipped.
"""

import glob
import importlib.util
import os
import signal
import socket
import unittest

from corpus import EVENT, HELD, INSTANCE, TML, TOO_LONG, CorpusTest, document, needed, text_at
from daemons import ClusterTest, needs_distributed
from faults import same_on_workers
from processes import PATIENCE, WITH_PACKAGES, until

Streams = tuple[int, bytes, bytes]
"""The status and both streams of a program."""


class NoCluster(CorpusTest):
    def test_no_module(self) -> None:
        child = self.start("check", "--cluster", "tcp://127.0.0.1:1", ".")
        out, error = child.communicate(timeout=PATIENCE)
        self.assertEqual((child.returncode, out), (2, b""))
        self.assertIn(b"--cluster needs the module distributed", error)

    @needs_distributed
    def test_nobody_listens(self) -> None:
        with socket.socket() as taken:
            taken.bind(("127.0.0.1", 0))
            rows = [f"tcp://127.0.0.1:{taken.getsockname()[1]}", "nothing", "foo://127.0.0.1:1"]
            for address in rows:
                with self.subTest(address):
                    child = self.start("check", "--cluster", address, ".", python=WITH_PACKAGES)
                    out, err = child.communicate(timeout=PATIENCE)
                    self.assertEqual((child.returncode, out), (2, b""))
                    self.assertTrue(err.decode().startswith(f"tml-corpus: no scheduler of a Dask cluster answers at {address}: "), err)
                    self.assertEqual(err.count(b"\n"), 1)


class OnACluster(ClusterTest):
    def files(self, count: int) -> None:
        """Files that are accepted, that have faults, and that cannot be read; a tenth has a clash."""
        for number in range(count):
            inner = [EVENT, "<EVENT/>", EVENT + '<MAKEINSTANCE eiid="i1" eventID="e2"/>', EVENT + INSTANCE, EVENT][number % 5]
            if number % 10 == 3:
                inner += '<TLINK eventInstanceID="i1" relatedToEventInstance="i1" relType="BEFORE"/>'
            self.write(f"d/{number % 7}/{number:03}.xml", document(inner))
        os.symlink("nowhere", self.path("d/3/link.xml"))
        os.mkfifo(self.path("d/4/pipe.xml"))
        self.write("d/5/caf\udce9\n.xml", b"\xff")
        self.write("d/6/long.xml", TOO_LONG)

    def script(self, body: str) -> str:
        """A program that does something and then is `tml`."""
        self.fake(f'{body}\nexec {os.path.abspath(TML)} "$@"')
        return "./fake"

    def bytes_of(self, *words: str, tml: str = TML) -> Streams:
        """The status and the bytes of both streams."""
        child = self.start(*words, tml=tml, python=WITH_PACKAGES)
        out, err = child.communicate(timeout=PATIENCE)
        return child.returncode, out, err

    def both(self, *words: str, tml: str = TML) -> tuple[Streams, Streams]:
        """The same on one machine and on the cluster."""
        return self.bytes_of(*words), self.bytes_of(*words, "--cluster", self.address, tml=tml)

    def test_same_bytes(self) -> None:
        # Four groups, two for each worker, of which the last is not full.
        self.files(60)
        rows: list[tuple[str, list[str], str]] = [
            ("text", ["--more", "1"], TML),
            ("jsonl", ["--explain"], TML),
            ("junit", [], "tml-of-workers"),
        ]
        for form, words, program in rows:
            with self.subTest(form):
                one, two = self.both("check", "--format", form, *words, "d", "gone.xml", tml=program)
                self.assertEqual(one, two)
                self.assertEqual(one[0], 2)
                self.assertIn(b"no such file or directory", one[1])
        # The names and bytes of evidence are the same too.
        one = self.bytes_of("clashes", "--evidence", "kept", "d")
        before = {name: text_at(name) for name in glob.glob(self.path("kept/*"))}
        for name in before:
            os.unlink(name)
        self.assertEqual(one, self.bytes_of("clashes", "--evidence", "kept", "d", "--cluster", self.address))
        self.assertEqual(before, {name: text_at(name) for name in glob.glob(self.path("kept/*"))})
        self.assertEqual(len(before), 6)

    @unittest.skipUnless(importlib.util.find_spec("distributed"), "this Python has no module distributed")
    def test_what_the_work_raises_on_a_worker_is_said_of_its_file(self) -> None:
        same_on_workers(self, self.address)

    def test_statuses(self) -> None:
        self.write("good.xml", document(EVENT))
        self.write("bad.xml", document("<EVENT/>"))
        for status, words in ((0, ["good.xml"]), (1, ["."])):
            with self.subTest(words):
                one, two = self.both("check", *words)
                self.assertEqual(one, two)
                self.assertEqual(one[0], status)
        status, out, err = self.bytes_of("check", "--cluster", self.address, ".", tml="/no/such/tml")
        self.assertEqual((status, out), (2, b""))
        self.assertTrue(err.startswith(b"tml-corpus: no program /no/such/tml at 2 of 2 workers, such as tcp://"), err)

    def test_a_worker_killed_in_the_middle(self) -> None:
        self.files(250)
        one = self.bytes_of("check", "d")
        [victim] = self.daemons.workers(1, "--no-nanny")
        # After twenty questions of this worker the next one waits for its end.
        program = self.script(
            f'cd "{self.folder}"\nif [ $PPID = {victim.pid} ] && echo >> asked && [ "$(wc -l < asked)" -gt 20 ]; then\n'
            "  touch waits\n  while kill -0 $PPID; do sleep 0.05; done\nfi"
        )
        child = self.start("check", "--cluster", self.address, "d", tml=program, python=WITH_PACKAGES)
        until(lambda: os.path.exists(self.path("waits")))
        victim.kill()
        self.assertIsNone(child.poll())
        out, err = child.communicate(timeout=PATIENCE)
        self.assertEqual((child.returncode, out, err), one)
        self.assertEqual(victim.wait(PATIENCE), -signal.SIGKILL)

    def test_a_file_that_ends_its_worker(self) -> None:
        for number in range(40):
            self.write(f"{number:02}.xml", "<TimeML/>\n" + "<!--end-->\n" * (number == 20))
        program = self.script(
            "text=$(cat)\ncase $text in *end*) kill -9 $PPID; sleep 1;; esac\n"
            f'printf \'%s\\n\' "$text" | {os.path.abspath(TML)} "$@"\nexit'
        )
        status, out, _ = self.bytes_of("check", "--cluster", self.address, ".", tml=program)
        lines = out.decode().splitlines()
        self.assertEqual(status, 2)
        self.assertTrue(lines[0].startswith("./20.xml: not judged: the process that examined it"), lines)
        self.assertEqual(lines[1], "40 files: 39 accepted, 0 with a fault, 1 not judged")

    def test_interrupted(self) -> None:
        for number in range(600):
            self.write(f"{number:03}.xml", document("<EVENT/>"))
        child = self.start("check", "--no-explain", "--cluster", self.address, ".", tml=self.script(HELD), python=WITH_PACKAGES)
        first = os.read(needed(child.stdout).fileno(), 1)
        child.send_signal(signal.SIGINT)
        out, err = child.communicate(timeout=PATIENCE)
        lines = (first + out).decode().splitlines()
        self.assertEqual((child.returncode, err), (130, b""))
        named = [line.split(":")[0] for line in lines if "error" in line]
        self.assertEqual(named, [f"./{number:03}.xml" for number in range(len(named))])
        self.assertEqual(lines[-1], f"interrupted: {len(named)} of 600 files were looked at")
        self.assertTrue(0 < len(named) < 600, len(named))
        # The tasks are cancelled: a worker ends what it had begun, and no more is asked. All files together would be 600 questions. Both
        # workers have ended that once both work on later tasks, which this program waits for.
        self.write("go", "")
        both = 'cd "${0%/*}"\necho $PPID >> both\nuntil [ "$(sort -u both | wc -l)" -gt 1 ]; do sleep 0.05; done'
        later = [f"{number:03}.xml" for number in range(60)]
        self.assertEqual(self.bytes_of("check", "--cluster", self.address, *later, tml=self.script(both))[0], 1)
        self.assertLess(len(self.read_bytes("asked")), 500)


if __name__ == "__main__":
    unittest.main()
