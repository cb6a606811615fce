"""Attacks on what the companions print to, and read from: output that fails is never a judgement.

In each run 14 commands and 4 others meet 3 kinds of output that fails.
"""

import os
import unittest
from typing import IO

from attacks import COMMANDS, OTHER_COMMANDS, AttackTest
from corpus import TOP
from processes import PATIENCE

OUTPUTS = {"full": "no space left on device", "gone": None, "closed": "standard output is closed"}
"""What standard output may be, and what is said of it: nothing where its reader has ended."""


class Outputs(AttackTest):
    def with_output(self, command: str, output: str) -> tuple[int, str]:
        """The status and standard error of a command whose standard output takes nothing. It reads a document."""
        with open(self.path("a.xml"), "rb") as given:
            return self.with_input(command, output, given)

    def with_input(self, command: str, output: str, given: IO[bytes]) -> tuple[int, str]:
        """The same with something to read."""
        if output == "full":
            with open("/dev/full", "wb") as full:
                child = self.begin(command, stdin=given, stdout=full)
        elif output == "closed":
            child = self.begin(command, stdin=given, stdout=None, preexec_fn=lambda: os.close(1))
        else:
            reading, writing = os.pipe()
            os.close(reading)
            child = self.begin(command, stdin=given, stdout=writing)
            os.close(writing)
        _, error = child.communicate(timeout=PATIENCE)
        return child.returncode, error.decode()

    def test_output_that_fails_is_no_judgement(self) -> None:
        for command in COMMANDS + OTHER_COMMANDS:
            for output, reason in OUTPUTS.items():
                with self.subTest(command=command, output=output):
                    status, error = self.with_output(command, output)
                    self.assertEqual((status, error.count("\n")), (2, 1 if reason else 0), error)
                    if not reason:
                        continue
                    name = command.split(" ", 1)[0]
                    self.assertTrue(error.startswith(f"{name}: standard output ") and error.endswith(reason + "\n"), error)

    def test_standard_error_that_fails_changes_nothing(self) -> None:
        with open("/dev/full", "wb") as full:
            for command in COMMANDS[:4]:
                with self.subTest(command):
                    self.assertEqual(self.ended(command, stderr=full).status, 1)
                    self.assertEqual(self.ended(command, stderr=None, preexec_fn=lambda: os.close(2)).status, 1)

    def test_standard_input_that_is_closed(self) -> None:
        for command in ("html-entities", "tml-edit --tml TML -"):
            with self.subTest(command):
                ended = self.ended(command, stdin=None, preexec_fn=lambda: os.close(0))
                self.assertEqual((ended.status, ended.out, ended.error.count("\n")), (2, "", 1))
                self.assertIn("standard input is closed", ended.error)


class WhereItLies(AttackTest):
    def test_the_sample_is_judged(self) -> None:
        """What the attacks are measured against: the real program, and all as it should be."""
        for command, status in zip(COMMANDS, (1, 1, 1, 1, 1, 0, 0, 1, 0, 1, 1, 0, 0, 1), strict=True):
            with self.subTest(command):
                self.assertEqual(self.called(command).status, status)
        self.assertTrue(os.path.exists(os.path.join(TOP, "samples", "port.xml")))


if __name__ == "__main__":
    unittest.main()
