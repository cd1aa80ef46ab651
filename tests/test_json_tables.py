"""docs/reference/json.md has the fields of schemas/acl-answer.schema.json, and no others."""
import json
import pathlib
import sys
import unittest

TOP = pathlib.Path(__file__).resolve().parent.parent
sys.path.append(str(TOP / "dev"))

import json_tables  # noqa: E402


class Tables(unittest.TestCase):
    def setUp(self):
        self.page = json_tables.PAGE.read_text(encoding="utf-8")
        self.schema = json.loads(json_tables.SCHEMA.read_text(encoding="utf-8"))

    def test_they_are_those_of_the_schema(self):
        self.assertEqual(self.page, json_tables.written(self.page, self.schema))

    def test_each_object_has_one(self):
        objects = {name for name, one in self.schema["$defs"].items() if "properties" in one}
        self.assertEqual(json_tables.named_in(self.page), objects)

    def test_a_field_more(self):
        self.schema["$defs"]["limit"]["properties"]["more"] = {"description": "more"}
        self.assertIn("| `more` | more |\n", json_tables.written(self.page, self.schema))


if __name__ == "__main__":
    unittest.main()
