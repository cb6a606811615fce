"""Little room for the companions.

Five launchers, each with three limits of open files and five of memory, and ten sizes of memory around what a worker needs to begin.
"""

import re
import resource
import unittest
from functools import partial
from pathlib import Path

from attacks import COMMANDS, OTHER_COMMANDS, AttackTest

LITTLE = [(resource.RLIMIT_NOFILE, files) for files in (4, 6, 12)]
LITTLE += [(resource.RLIMIT_AS, mebibytes << 20) for mebibytes in (16, 18, 20, 22, 24)]
"""So few open files or so little memory a program may have."""

PYTHON_ITSELF = re.compile(r"Fatal Python error|error while loading shared libraries|Could not find platform|^$")
"""What Python says where it does not come to the program."""

TRACEBACK = re.compile(r'Traceback \(most recent call last\):\n  File "([^"]*)", line (\d+), in <module>\n')
FRAME = re.compile(r'^  File "([^"]*)", line \d+', re.MULTILINE)

OF_HASHLIB = re.compile(r"ERROR:root:code for hash .*?\nValueError: unsupported hash type \w+\n", re.DOTALL)
"""What its module `hashlib` says where it cannot be loaded whole, whoever loads it."""


def is_before_the_launcher(error: str) -> bool:
    """Whether it was Python that failed, or its import of the launcher, or of `re` by what pip writes: nothing of ours can say so then."""
    if PYTHON_ITSELF.search(error):
        return True
    if (found := TRACEBACK.match(error)) is None:
        return False
    line = Path(found[1]).read_text(encoding="utf-8").splitlines()[int(found[2]) - 1]
    importing = all(frame.startswith("<frozen importlib") for frame in FRAME.findall(error)[1:])
    return line == "import re" or (line.lstrip().startswith("from tml_corpus.command_line.launch import ") and importing)


class LittleRoom(AttackTest):
    def test_every_launcher_ends_with_a_line(self) -> None:
        for command in (COMMANDS[0], COMMANDS[7], COMMANDS[8], *OTHER_COMMANDS[:2]):
            name = command.split(" ")[0]
            for limit, most in LITTLE:
                with self.subTest(command=command, limit=limit, most=most):
                    ended = self.ended(command, preexec_fn=partial(resource.setrlimit, limit, (most, most)))
                    if ended.status in (1, 127) and is_before_the_launcher(ended.error):
                        continue
                    error = OF_HASHLIB.sub("", ended.error)
                    self.assertNotIn("Traceback", error)
                    judged = ended.status == 0 or (ended.status, command) == (1, COMMANDS[0])
                    self.assertTrue(judged or ended.status == 2, ended)
                    if not judged and not ended.out:
                        self.assertEqual(error.count("\n"), 1, ended)
                        self.assertTrue(error.startswith(f"{name}: "), ended)

    def test_no_memory_while_a_worker_begins_is_not_waited_for(self) -> None:
        # Where the room for a worker ends depends on the machine: all sizes around it are tried.
        for kibibytes in range(18_000, 26_000, 800):
            with self.subTest(kibibytes):
                ended = self.ended(
                    "tml-corpus check --jobs 2 --tml TML good.xml clash.xml",
                    preexec_fn=partial(resource.setrlimit, resource.RLIMIT_AS, (kibibytes << 10,) * 2),
                )
                self.assertNotEqual(ended.status, 1, ended)


if __name__ == "__main__":
    unittest.main()
