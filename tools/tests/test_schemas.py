"""The schemas against the worked scripts, the program's answers, and the table
that check.py goes by."""
import json
import unittest
from typing import Any

from schema_rules import is_valid
from worked import TOP, answers, invalid_lines, scripts, wants_program
from mqroute_tools.script.commands import COMMANDS, Field, is_blank
from mqroute_tools.script.strict_json import NoJson, read

COMMAND, ANSWER = (json.loads((TOP / "schemas" / f"{name}.schema.json").read_text("utf-8"))
                   for name in ("command", "answer"))


def is_command(line: bytes) -> bool:
    try:
        return len(line) <= 1_048_576 and is_valid(read(line), COMMAND)
    except NoJson:
        return False


def field(name: str, schema: dict[str, Any], required: list[str]) -> Field:
    kind = {"string": "text", "boolean": "flag", "integer": "number"}[schema["type"]]
    return Field(kind, name in required, schema.get("minimum", 0), schema.get("maximum", 0))


class Schemas(unittest.TestCase):
    @wants_program
    def test_worked_scripts(self):
        """A line is valid exactly where the program doesn't refuse it as no
        command; each answer is valid."""
        commands = faulty = shown = 0
        for name, script in scripts():
            found = answers(script)
            refused = invalid_lines(found)
            for number, line in enumerate(script.split(b"\n"), 1):
                if not is_blank(line) or number in refused:
                    self.assertEqual(
                        is_command(line), number not in refused, f"{name} line {number}")
                    commands, faulty = commands + 1, faulty + (number in refused)
            for answer in found:
                self.assertTrue(is_valid(answer, ANSWER), f"{name}: {answer}")
            shown += len(found)
        self.assertTrue(commands > 1000 and faulty > 5 and shown > 2000, (commands, faulty, shown))

    def test_what_is_no_answer(self):
        copy = {"client": "a", "line": 1, "payload": "", "qos": 0, "retain": False, "topic": "x"}
        refusal = {"code": 11, "line": 1, "refused": "NotAuthorized"}
        for answer in (
                copy, copy | {"share": "g", "filter": "x"}, refusal, {"line": 1, "reason": 17},
                {"acl_line": 3, "code": 12, "line": 1, "refused": "AclLine"}):
            self.assertTrue(is_valid(answer, ANSWER), answer)
        for answer in ([], {}, copy | {"share": "g"}, copy | {"ids": []}, copy | {"qos": 3},
                       copy | {"reason": 0}, {"line": 1, "reason": 3}, {"line": 0, "reason": 0},
                       {"line": 1}, refusal | {"code": 10}, refusal | {"acl_line": 1},
                       {"code": 12, "line": 1, "refused": "AclLine"},
                       {"line": 1, "nodes": 0, "retained": 0}):
            self.assertFalse(is_valid(answer, ANSWER), answer)

    def test_the_table_of_check(self):
        """The schema's commands and fields are those that check.py shows of."""
        found = {}
        for one in COMMAND["oneOf"]:
            fields = {name: field(name, schema, one["required"])
                      for name, schema in one["properties"].items() if name != "do"}
            self.assertIn("do", one["required"])
            found[one["properties"]["do"]["const"]] = fields
        self.assertEqual(found, COMMANDS)

    def test_a_package_agrees(self):
        """Where python3-jsonschema is there: the schemas are sound, and it finds the same of
        every valid and invalid line."""
        try:
            import jsonschema
        except ImportError:
            self.skipTest("there is no python3-jsonschema")
        for schema in (COMMAND, ANSWER):
            jsonschema.Draft202012Validator.check_schema(schema)
        validator = jsonschema.Draft202012Validator(COMMAND)
        for name, script in scripts():
            for number, line in enumerate(script.split(b"\n"), 1):
                try:
                    value = read(line)
                except NoJson:
                    continue
                self.assertEqual(
                    validator.is_valid(value), is_valid(value, COMMAND), f"{name} line {number}")


if __name__ == "__main__":
    unittest.main()
