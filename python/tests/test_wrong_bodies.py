"""`tools/wrong-bodies`: the wrong bodies still apply to the crates, what `rt ci` says of them is understood, and a stand-in for `rt`."""

from __future__ import annotations

import os
import tempfile
import unittest
from contextlib import redirect_stderr, redirect_stdout
from io import StringIO
from pathlib import Path
from unittest import mock

from building.crates import TOP, listed
from releasing import wrong_bodies
from releasing.wrong_bodies import Edit, Unfit, Verdict, checked_edit, edits_of, results

SOURCE = "#[inline]\nfn one() -> u8\n    ensures { result ≡ 1 }\n{\n    1\n}\n"
RIGHT = "file: src/lib.rt\nold:     1\nnew:     2\n"
NAMES = ("accepted", "gone", "limit", "refused", "unread", "unsure")
SAID = """\
rt: base is kept: an earlier run on this machine proved the same files over the same libraries
rt: must-fail base/accepted.edit: NOT REFUSED: the crate is still proved with this edit (one that means the same cannot be refused)
rt: must-fail base/gone.edit: refused, as it must be (only because a proof file names what the edit took away, so this says little): gone
rt: must-fail base/limit.edit: refused, as it must be (only by a limit of the prover, which gave no verdict): src/lib.rt:2:5: error: steps
rt: must-fail base/refused.edit: refused, as it must be: note: src/lib.rt:1:1: it is not proved that what the function ensures holds
rt: must-fail base/unread.edit: BAD EDIT: it did not reach the prover; the first lines of what it said:
error[E0425]: no such name
rt: must-fail base/unsure.edit: NOT TRIED: its check was killed
5 passed, 2 failed (base and the crates below alone: not the gate)
"""
VERDICTS = [Verdict.ACCEPTED, Verdict.NAME, Verdict.LIMIT, Verdict.REFUSED, Verdict.UNFIT, Verdict.UNTRIED]


class WrongBodies(unittest.TestCase):
    """A tree with one crate, base, and its wrong bodies."""

    def setUp(self) -> None:
        self.tree = Path(self.enterContext(tempfile.TemporaryDirectory()))
        for name in ("crates.txt", "HANDLES", "crates/base/src/lib.rt", "crates/base/out/old", "crates/base/must-fail/of_the_gate.edit"):
            (self.tree / name).parent.mkdir(parents=True, exist_ok=True)
            (self.tree / name).write_text("base:\n" if name == "crates.txt" else SOURCE, encoding="utf-8")
        (self.tree / "crates/base/wrong").mkdir()

    def add(self, *names: str, text: str = RIGHT) -> None:
        """Adds wrong bodies of these names."""
        for name in names:
            (self.tree / f"crates/base/wrong/{name}.edit").write_text(text, encoding="utf-8")

    def run_tool(self, script: str, *arguments: str) -> tuple[int, str]:
        """The status of the tool over the tree, and what it prints, with this script for `rt`."""
        programs = self.tree / "programs"
        programs.mkdir()
        (programs / "rt").write_text(f"#!/bin/sh\n{script}\n", encoding="utf-8")
        (programs / "rt").chmod(0o755)
        path = f"{programs}:{os.environ['PATH']}"
        with mock.patch.object(wrong_bodies, "TOP", self.tree), mock.patch.dict(os.environ, PATH=path):
            with redirect_stdout(StringIO()) as out, redirect_stderr(out):
                try:
                    return wrong_bodies.main(arguments), out.getvalue()
                except SystemExit as stop:
                    return int(stop.code or 0), out.getvalue()

    def test_all_of_the_repository_apply(self) -> None:
        crates = [crate for crate, _ in listed()]
        self.assertGreater(sum(len(edits_of(TOP, crate)) for crate in crates), 100)
        for crate in crates:
            for edit in edits_of(TOP, crate):
                with self.subTest(edit=str(edit)):
                    edit.changed(TOP)

    def test_no_other_files_stand_with_them(self) -> None:
        others = [path for path in TOP.glob("crates/*/wrong/*") if path.suffix != ".edit" or not path.is_file()]
        self.assertEqual(others, [])

    def test_changes_files(self) -> None:
        text = RIGHT + "old: one\nnew: another\n\nold: another\nnew: a third\n"
        changed = Edit("base", "two", text).changed(self.tree)
        self.assertEqual(changed, {"src/lib.rt": SOURCE.replace("    1", "    2").replace("one", "a third")})

    def test_what_does_not_apply(self) -> None:
        problems = {
            "": "it changes nothing",
            "file: src/lib.rt\n": "it changes nothing",
            "file: src/lib.rt\nold:     1\n": "it changes nothing",
            "file: src/lib.rt\nold: 3\nnew: 4\n": "0 times",
            "file: src/lib.rt\nold: 1\nnew: 4\n": "2 times",
            "file: src/lib.rt\nold: u8\nnew: u8\n": "out of place",
            "file: src/none.rt\nold: 1\nnew: 4\n": "no file",
            "old: u8\nnew: u16\n": "out of place",
            RIGHT + "a note\n": "out of place",
        }
        for text, problem in problems.items():
            with self.subTest(text=text), self.assertRaisesRegex(Unfit, problem):
                Edit("base", "wrong", text).changed(self.tree)

    def test_verdicts(self) -> None:
        found = list(results(SAID, [Edit("base", name, RIGHT) for name in NAMES]))
        self.assertEqual([result.verdict for result in found], VERDICTS)
        self.assertIn("no such name", found[4].said)

    def test_a_crate_that_is_not_proved(self) -> None:
        (result,) = results("rt: base NOT PROVED\n0 passed, 1 failed\n", [Edit("base", "refused", RIGHT)])
        self.assertEqual((result.verdict, result.said), (Verdict.UNTRIED, "rt: base NOT PROVED"))

    def test_shows_the_clause(self) -> None:
        self.add("refused")
        status, out = self.run_tool(f"cat <<'END'\n{SAID}END")
        self.assertEqual(status, 0, out)
        self.assertIn("refused: base/refused: -: note: src/lib.rt:1:1: ", out)
        self.assertIn("\n    ensures { result ≡ 1 }\n1 of 1 wrong bodies were refused", out)

    def test_lists_what_is_not_refused(self) -> None:
        self.add(*NAMES)
        self.add("unfit", text="file: src/lib.rt\nold: 3\nnew: 4\n")
        status, out = self.run_tool(f"cat <<'END'\n{SAID}END", "base")
        self.assertEqual(status, 1, out)
        self.assertIn("1 of 7 wrong bodies were refused", out)
        self.assertEqual(out.splitlines()[-1], "NOT TRIED: base/unsure")
        self.assertIn("\nBAD EDIT: base/unfit\n", out)

    def test_tries_them_in_a_copy(self) -> None:
        self.add("refused")
        status, out = self.run_tool(
            'echo "rt: must-fail base/refused.edit: refused, as it must be: $* $RT_JOBS" $(ls crates/base crates/base/must-fail)'
        )
        self.assertEqual(status, 0, out)
        self.assertIn(": ci base 1 crates/base: must-fail src crates/base/must-fail: refused.edit\n", out)

    def test_unknown_crates(self) -> None:
        status, out = self.run_tool("exit 1", "none")
        self.assertEqual(status, 2)
        self.assertIn("crates.txt has no crate none", out)

    def test_finds_the_edit_that_is_checked(self) -> None:
        edit = Edit("base", "refused", RIGHT)
        texts = {edit: edit.changed(self.tree)}
        self.assertIsNone(checked_edit(self.tree / "crates/base", texts))
        (self.tree / "crates/base/src/lib.rt").write_text(texts[edit]["src/lib.rt"], encoding="utf-8")
        self.assertEqual(checked_edit(self.tree / "crates/base", texts), edit)
        self.assertIsNone(checked_edit(self.tree, texts))


if __name__ == "__main__":
    unittest.main()
