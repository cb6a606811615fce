"""The tables of slips in docs/FAULTS.md and mistakes.md: of each the first line that is printed, and that nothing else is reported."""

import re
import unittest

from corpus import CorpusTest, match_in, text_at

CODE = r"(?:`(?:` (.*?) `)?([^`]*?)`|\(nothing\))"
ROW = rf"\| {CODE} \| {CODE} \| {CODE} \|"


def rows() -> list[tuple[str, str, str]]:
    """The rows: what was replaced, by what, and the line."""
    page = text_at("docs/FAULTS.md").split("\n## Slips, and the line that is printed\n")[1].split("\n## ")[0]
    tables = [[line for line in text.splitlines() if line.startswith("| ")][1:] for text in (page, text_at("python/tests/mistakes.md"))]
    found = [match_in(f"^{ROW}$", line) for table in tables for line in table]
    return [(one[1] or one[2] or "", one[3] or one[4] or "", one[5] or one[6] or "") for one in found]


def raw(text: str) -> bytes:
    """The bytes that a text of the table stands for."""
    return re.sub(rb"\\x([0-9a-f]{2})", lambda found: bytes([int(found[1], 16)]), text.encode().replace(b"\\n", b"\n"))


class Slips(CorpusTest):
    def test_first_lines(self) -> None:
        right = text_at("samples/rates.xml").encode()
        table = rows()
        self.assertGreater(len(table), 30)
        for number, (meant, slip, _) in enumerate(table):
            self.assertIn(raw(meant), right)
            self.write(f"{number:02}.xml", right.replace(raw(meant), raw(slip), 1))
        self.write("right.xml", right)
        status, lines, _ = self.run_it("check", "--lint", ".")
        reports = [line for line in lines if line.startswith("./") and ": note: " not in line]
        self.assertEqual((status, len(reports)), (1, len(table)))
        for number, (report, (_, slip, line)) in enumerate(zip(reports, table, strict=True)):
            with self.subTest(slip):
                self.assertEqual(report, f"./{number:02}.xml:{line}")

    def test_every_kind_is_there(self) -> None:
        from tml_corpus.lint.warnings import KINDS

        lines = [line for _, _, line in rows()]
        for kind in set(KINDS) - {"unknown-attribute"}:
            self.assertTrue(any(line.endswith(f"[{kind}]") for line in lines), kind)
        faults = {int(found[1]) for line in lines if (found := re.match(r"\d+:\d+: error: (\d+) ", line))}
        self.assertEqual(set(range(1, 18)) - faults, {8, 16, 17})


if __name__ == "__main__":
    unittest.main()
