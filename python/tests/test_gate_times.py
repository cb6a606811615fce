"""What `tools/gate-times` sees of the provers that run, and its table."""

from __future__ import annotations

import json
import os
import subprocess
import tempfile
import unittest
from dataclasses import asdict
from pathlib import Path

from building.gate_times import Check, check_of, is_below, processes, table
from processes import until

PROVER = "/opt/kit/bin/rattle"
AS_PROVER = f'exec -a {PROVER} bash build --crate-name net_core "$@"'


class Watching(unittest.TestCase):
    def start(self, folder: str, *words: str) -> subprocess.Popen[bytes]:
        """A program that looks as the prover does, and ends with its standard input."""
        Path(folder, "build").write_text("read -r line\n", encoding="utf-8")
        child = subprocess.Popen(["bash", "-c", AS_PROVER, "bash", *words], cwd=folder, stdin=subprocess.PIPE)
        self.addCleanup(child.communicate)
        until(lambda: Path(f"/proc/{child.pid}/cmdline").read_text(encoding="utf-8").startswith(PROVER))
        return child

    def test_provers_below_a_process(self) -> None:
        with tempfile.TemporaryDirectory() as proof, tempfile.TemporaryDirectory(prefix="rt-edit-") as edit:
            children = [self.start(proof), self.start(proof, "--test"), self.start(proof, "--crate-checked"), self.start(edit)]
            present = {process.number: process for process in processes()}
            found = [check_of(present[child.pid]) for child in children]
            self.assertEqual(
                [check and (check.crate, check.kind) for check in found],
                [("net_core", kind) for kind in ("proof", "tests", "program", "edit")],
            )
            self.assertTrue(all(is_below(present[child.pid], os.getpid(), present) for child in children))
            self.assertFalse(is_below(present[children[0].pid], children[1].pid, present))
            self.assertIsNone(check_of(present[os.getpid()]))

    def test_table(self) -> None:
        checks = [
            Check("a", "proof", 0, 60, 50),
            Check("b", "proof", 0, 60, 30),
            Check("b", "edit", 60, 120, 40),
            Check("c", "proof", 0, 1, 1),
        ]
        with tempfile.TemporaryDirectory() as folder:
            log = Path(folder, "log")
            log.write_text("", encoding="utf-8")
            self.assertEqual(list(table(str(log))), ["no crate was checked: all of them are kept from earlier runs"])
            log.write_text("".join(json.dumps(asdict(check)) + "\n" for check in checks), encoding="utf-8")
            lines = list(table(str(log), 2))
        self.assertEqual(
            lines[2:5], ["| b | 30 | 0 | 1 | 40 | 70 |", "| a | 50 | 0 | 0 | 0 | 50 |", "| all, in minutes | 1.4 | 0.0 | 1 | 0.7 | 2.0 |"]
        )
        self.assertEqual(lines[-1], "\n4 checks in 2.0 minutes of wall time")


if __name__ == "__main__":
    unittest.main()
