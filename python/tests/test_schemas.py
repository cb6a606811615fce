"""The JSON of the companions and docs/schema: all that is printed fits, and all that a schema describes is printed."""

from __future__ import annotations

import json
import shutil
import unittest
from collections.abc import Iterator
from importlib.util import find_spec
from pathlib import Path
from typing import TYPE_CHECKING, Any

from corpus import CLASH, TOO_LONG, TOP, CorpusTest, document
from test_touching import DAYS, TOUCHING, YEAR

if TYPE_CHECKING:
    from jsonschema import Draft202012Validator

FOLDER = Path(TOP, "docs/schema")
SCHEMAS: dict[str, dict[str, Any]] = {path.stem: json.loads(path.read_text(encoding="utf-8")) for path in FOLDER.glob("*.json")}
OPTIONAL = {"problem", "repair", "evidence"}
"""The fields that an object may lack."""

TWICE = '<EVENT eid="e1" class="STATE">x</EVENT><EVENT eid="e1" class="STATE">y</EVENT>'
SUSPECT = '<TIMEX3 tid="a" type="DATE" value="1998-1-7">x</TIMEX3>'
WITHIN = '<TIMEX3 tid="a" type="DATE" value="199X"/><TIMEX3 tid="b" type="DATE" value="1998"/><TIMEX3 tid="c" type="SET"/>'
NO_TIME = '<TIMEX3 tid="p" type="DURATION" value="P0D">no time</TIMEX3>'
DOCUMENTS = {"clash": CLASH, "no-time": NO_TIME, "suspect": SUSPECT, "touching": DAYS + YEAR + TOUCHING, "twice": TWICE, "within": WITHIN}
"""The tags of documents that have what no sample has."""

Described = tuple[str, object]
"""A field, and a value that it can have; None stands for any."""


def validator(name: str) -> Draft202012Validator:
    """What holds objects to a schema, which may name others of its folder."""
    from jsonschema import Draft202012Validator, RefResolver

    return Draft202012Validator(SCHEMAS[name], RefResolver((FOLDER / f"{name}.json").as_uri(), SCHEMAS[name]))


def objects_in(schema: object) -> Iterator[dict[str, Any]]:
    """The schemas of objects in a schema."""
    if isinstance(schema, dict) and schema.get("type") == "object":
        yield schema
    parts = schema.values() if isinstance(schema, dict) else schema if isinstance(schema, list) else ()
    for part in parts:
        yield from objects_in(part)


def described() -> set[Described]:
    """All that the schemas describe."""
    fields = [field for schema in SCHEMAS.values() for one in objects_in(schema) for field in one["properties"].items()]
    return {(name, value) for name, one in fields for value in (None, *one.get("enum", ()))}


def printed(value: object) -> Iterator[Described]:
    """All that an object has."""
    for name, one in value.items() if isinstance(value, dict) else ():
        yield name, None
        if isinstance(one, str):
            yield name, one
    parts = value.values() if isinstance(value, dict) else value if isinstance(value, list) else ()
    for part in parts:
        yield from printed(part)


class Schemas(unittest.TestCase):
    def test_are_strict(self) -> None:
        for name, schema in SCHEMAS.items():
            for one in objects_in(schema):
                with self.subTest(name, fields=list(one["properties"])):
                    self.assertIs(one["additionalProperties"], False)
                    self.assertLessEqual(set(one["properties"]) - set(one["required"]), OPTIONAL)


@unittest.skipUnless(find_spec("jsonschema"), "no module jsonschema: install python3-jsonschema")
class Printed(CorpusTest):
    def setUp(self) -> None:
        super().setUp()
        shutil.copytree(Path(TOP, "samples"), self.path("samples"))
        for name, inner in DOCUMENTS.items():
            self.write(f"more/{name}.xml", document(inner))
            self.write(f"keys/{name}.xml", document(CLASH if name == "within" else WITHIN))
        self.write("more/alone.xml", document(""))
        self.write("more/long.xml", TOO_LONG)
        self.write("keys/long.xml", document(""))

    def objects(self, schema: str, *words: str) -> list[Any]:
        """The objects that a command prints in the form `json`, each held to a schema."""
        _, lines, _ = self.run_it(*words, "--format", "json")
        found = json.loads("\n".join(lines) or "[]")
        objects = found if isinstance(found, list) else [found]
        held_to = validator(schema)
        for one in objects:
            held_to.validate(one)
        return objects

    def same_as_lines(self, schema: str, *words: str) -> list[Any]:
        """The same of a command that has the form `jsonl` too, which prints the same objects."""
        objects = self.objects(schema, *words)
        self.assertEqual(objects, [json.loads(line) for line in self.run_it(*words, "--format", "jsonl")[1]])
        return objects

    def test_what_is_printed_is_what_is_described(self) -> None:
        paths = ("samples", "more", "gone.xml")
        found = self.same_as_lines("check", "check", "--lint", "--more", "9", *paths)
        found += self.same_as_lines("clashes", "check", "--lint", "--clashes", *paths)
        found += self.same_as_lines("clashes", "clashes", "--repair", "--more", "3", "--evidence", "kept", *paths)
        found += self.same_as_lines("clashes", "clashes", "--touching", *paths)
        found += self.same_as_lines("agree", "agree", "--links", "samples/first", "samples/second")
        found += self.same_as_lines("agree", "agree", "--links", "--touching", "more", "keys")
        for path in sorted(Path(self.folder).rglob("*.xml")):
            found += self.objects("seconds", "seconds", str(path.relative_to(self.folder)))
        self.assertEqual(described() - set(printed(found)), set())

    def test_what_does_not_fit(self) -> None:
        [judgement] = self.objects("check", "check", "samples/port.xml")
        held_to = validator("check")
        self.assertTrue(held_to.is_valid(judgement))
        wrong = [("version", 2), ("version", "1"), ("more", 0), ("verdict", "fits"), ("verdict", "not judged"), ("problem", "none")]
        for field, value in wrong:
            self.assertFalse(held_to.is_valid({**judgement, field: value}), field)

    def test_schemas_are_schemas(self) -> None:
        for name, schema in SCHEMAS.items():
            with self.subTest(name):
                type(validator(name)).check_schema(schema)


if __name__ == "__main__":
    unittest.main()
