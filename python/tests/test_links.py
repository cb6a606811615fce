"""The links between pages: that each file and each heading that a page names is there."""

import re
import unittest
from functools import cache
from pathlib import Path

from corpus import TOP

PAGES = sorted(
    [*Path(TOP).glob("*.md"), *Path(TOP, "docs").glob("*.md"), *Path(TOP, "python").rglob("*.md"), *Path(TOP, "bench").glob("*.md")]
)
LINK = re.compile(r"\]\(([^)#\s]*)(?:#([^)\s]*))?\)")


def without_blocks(page: Path) -> str:
    """A page without its blocks of code."""
    return re.sub(r"^```.*?^```$", "", page.read_text(encoding="utf-8"), flags=re.MULTILINE | re.DOTALL)


@cache
def anchors(page: Path) -> set[str]:
    """The names by which the headings of a page can be linked to."""
    heads = re.findall(r"^#+ (.*)$", without_blocks(page), re.MULTILINE)
    return {re.sub(r"[^\w\- ]", "", head.lower()).replace(" ", "-") for head in heads}


class Links(unittest.TestCase):
    def test_lead_to_files_and_headings(self) -> None:
        for page in PAGES:
            for path, anchor in LINK.findall(without_blocks(page)):
                with self.subTest(page=page.name, link=f"{path}#{anchor}"):
                    target = page.parent / path if path else page
                    # A clone that was never released from has no dist/.
                    if "://" not in path and not (path.startswith("dist/") and not Path(TOP, "dist").exists()):
                        self.assertTrue(target.exists())
                    if anchor and target.suffix == ".md":
                        self.assertIn(anchor, anchors(target.resolve()))

    def test_pages_that_sources_name_are_there(self) -> None:
        files = [
            path
            for folder in ("tools", "python", "crates", "bench")
            for path in Path(TOP, folder).rglob("*")
            if path.suffix in (".py", ".rt", ".rs", ".h")
        ]
        for path in files:
            for name in re.findall(r"\bdocs/(\w+\.(?:md|1))\b", path.read_text(encoding="utf-8")):
                self.assertTrue(Path(TOP, "docs", name).exists(), f"{path}: docs/{name}")


if __name__ == "__main__":
    unittest.main()
