"""The schema of what mqroute-acl writes with --json: against the rows that say what it has to
write, and its help."""
import json
import re
import unittest
from collections.abc import Iterator
from typing import Any

from schema_rules import is_valid, resolved
from worked import TOP

SCHEMA = json.loads((TOP / "schemas/acl-answer.schema.json").read_text("utf-8"))
COMMANDS = ("compare", "why", "lint", "reach", "who", "test")
OF_COMMAND = {name: resolved(SCHEMA["$defs"][name], SCHEMA) for name in COMMANDS}
ROW = re.compile(r"^\$ (.*)\n((?:(?!\$ |status \d).*\n)*)status \d+$", re.M)
ASKED = re.compile(rf"mqroute-acl ({'|'.join(COMMANDS)})\b.* --(?:json|questions)\b")
HELP = (TOP / "crates/mq_acl_args/src/help.rt").read_text("utf-8")
NAMES = re.compile(r"^  ([a-z_]+(?:, [a-z_]+)*)(?:  .*)?$", re.M)


def written() -> Iterator[tuple[str, Any]]:
    """Each object of tests/acl, with the subcommand that writes it."""
    for path in sorted((TOP / "tests/acl").glob("*.rows")):
        for command, printed in ROW.findall(path.read_text("utf-8")):
            asked = ASKED.search(command)
            for line in printed.splitlines() if asked else ():
                if line.startswith("{") and line.endswith("}"):
                    yield asked[1], json.loads(line)


def fields_in_help(command: str) -> set[str]:
    """Those of its lines behind the first `With --json`."""
    text = HELP.split(f"{command.upper()}_AFTER_HELP: &str = ")[1]
    listed = text.split('";')[0].partition("\nWith --json")[2]
    return {name for names in NAMES.findall(listed) for name in names.split(", ")}


class Schema(unittest.TestCase):
    def test_each_object_of_the_rows(self) -> None:
        seen = set()
        for command, value in written():
            with self.subTest(command=command, value=value):
                self.assertTrue(is_valid(value, OF_COMMAND[command]))
            seen.add(command)
        self.assertEqual(seen, set(COMMANDS))

    def test_no_other_object(self) -> None:
        for command, value in written():
            with self.subTest(command=command, value=value):
                self.assertFalse(is_valid(value | {"more": 1}, OF_COMMAND[command]))
                for name in value:
                    self.assertFalse(
                        is_valid(value | {name: [3]}, OF_COMMAND[command]), name)

    def test_help_lists_its_fields(self) -> None:
        for command in COMMANDS:
            with self.subTest(command):
                objects = OF_COMMAND[command]["anyOf"]
                fields = {name for one in objects for name in one["properties"]}
                self.assertEqual(fields, fields_in_help(command))


if __name__ == "__main__":
    unittest.main()
