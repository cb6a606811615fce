#!/usr/bin/env python3
"""Measures the module for browsers in Node, next to the program.

Prints the bytes of its files, how long it takes to load, and a table in Markdown with a row for each command and document of
beside.py: the least milliseconds of seven questions in one process of Node, the first of them, which is answered by code that is
compiled in haste, and the least processor time of the program. Build `tml` first, as README.md says, and the module by
tools/web/build.

usage: bench/web.py [--tml TML] DIR [COMMAND ...]
"""

from __future__ import annotations

import argparse
import gzip
import json
import resource
import subprocess
import tempfile
from pathlib import Path

from beside import ROWS
from measure import NULL, annotated_text

HERE = Path(__file__).resolve().parent
TIMES = 7
SHORT = 100_000
ASKED = """
import { readFileSync } from "node:fs";
import { pathToFileURL } from "node:url";
const [times, folder, ...words] = process.argv.slice(2);
const { load } = await import(new URL("tml.mjs", pathToFileURL(`${folder}/`)));
const bytes = readFileSync(`${folder}/tml.wasm`);
const timed = async (work) => {
  const begun = performance.now();
  await work();
  return performance.now() - begun;
};
const loads = [];
for (let time = 0; time < times; time++) loads.push(await timed(() => load(bytes)));
const document = words.length > 1 ? readFileSync(words[1]) : new Uint8Array(0);
const tml = await load(bytes);
const answers = [];
for (let time = 0; time < times; time++) answers.push(await timed(() => tml.run([words[0], "first"], document)));
console.log(JSON.stringify([loads, answers]));
"""


def main() -> None:
    """Prints the sizes, the times of loading, and the table."""
    parser = argparse.ArgumentParser(description=__doc__, formatter_class=argparse.RawDescriptionHelpFormatter)
    parser.add_argument("--tml", type=Path, default=HERE.parent / "crates/tml/out/tml", help="the program")
    parser.add_argument("folder", type=Path, metavar="DIR", help="the folder of the module")
    parser.add_argument("commands", nargs="*", default=["check", "solve", "relations", "matrix"], metavar="COMMAND")
    given = parser.parse_args()
    for name in ("tml.wasm", "tml.mjs", "tml.d.mts"):
        content = (given.folder / name).read_bytes()
        print(f"{name}: {len(content)} bytes, {len(gzip.compress(content, 9))} by gzip -9")
    with tempfile.TemporaryDirectory() as held:
        script = Path(held, "asked.mjs")
        script.write_text(ASKED, encoding="utf-8")
        loads, _ = asked(script, given.folder, "drill")
        print(f"load: {min(loads):.1f} ms, and the first time {loads[0]:.1f}\n")
        print("| command | document | module | its first answer | program |\n|---|---|--:|--:|--:|")
        rows = [("check", "annotated text of 100 KB", annotated_text(SHORT))]
        rows += [(command, name, make()) for command in given.commands for name, make in ROWS[command].items()]
        for command, name, content in rows:
            document = Path(held, "document")
            document.write_bytes(content)
            _, answers = asked(script, given.folder, command, document)
            of_program = 1000 * min(processor_time(given.tml, command, document) for _ in range(TIMES))
            print(f"| `{command}` | {name} | {min(answers):.1f} | {answers[0]:.1f} | {of_program:.1f} |", flush=True)


def asked(script: Path, folder: Path, *words: str | Path) -> tuple[list[float], list[float]]:
    """The milliseconds that it takes to load the module, and to answer these words, as often as TIMES says."""
    line = ["node", script, str(TIMES), folder, *words]
    loads, answers = json.loads(subprocess.run(line, stdout=subprocess.PIPE, check=True).stdout)
    return loads, answers


def processor_time(program: Path, command: str, document: Path) -> float:
    """The seconds of processor time of a run of the program."""
    before = resource.getrusage(resource.RUSAGE_CHILDREN)
    subprocess.run([program, command, document], stdout=NULL, check=False)
    after = resource.getrusage(resource.RUSAGE_CHILDREN)
    return after.ru_utime + after.ru_stime - before.ru_utime - before.ru_stime


if __name__ == "__main__":
    main()
