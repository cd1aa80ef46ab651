"""The definitions of what mqroute-acl writes as JSON have the members of
schemas/acl-answer.schema.json, each of its kind, and no others."""
import json
import pathlib
import re
import sys
import unittest

TOP = pathlib.Path(__file__).resolve().parent.parent
sys.path.append(str(TOP / "dev"))

import json_tables  # noqa: E402

# Where the members of each object of the schema are said.
DEFINED = {
    "line": [("mq_print/specs/Objects.antt", "line_data")],
    "limit": [("mq_ask/specs/Objects.antt", "limit_text")],
    "refused": [("mq_ask/specs/Objects.antt", "refused_text")],
    "difference": [("mq_ask_compare/specs/Changed.antt", "change_members")],
    "verdict": [("mq_ask_why/specs/Explained.antt", "verdict_members"),
                ("mq_ask_why/specs/Explained.antt", "with_refused")],
    "remark": [("mq_ask_lint/specs/Objects.antt", "said_members")],
    "reached": [("mq_ask_reach/specs/Objects.antt", "topic_members")],
    "reached_by_any": [("mq_ask_who/specs/AnyShown.antt", "any_members")],
    "unreached": [("mq_ask_reach/specs/Objects.antt", "subscription_members")],
    "subscription_sums": [("mq_ask_reach/specs/Objects.antt", "count_members")],
    "permission": [("mq_ask_who/specs/WhoShown.antt", "permission_members")],
    "exception": [("mq_ask_who/specs/WhoShown.antt", "refusal_data")],
    "expectation": [("mq_ask_test/specs/Objects.antt", "verdict_members")],
    "expectation_sums": [("mq_ask_test/specs/Objects.antt", "count_members")],
}
# The fields that no definition has: the counts of publishes.
UNDEFINED = {"publishes", "topics"}
# Those that a difference has through a plan alone, and the definition that has them.
OF_PLANS = {"new_topic", "rule"}
THROUGH_A_PLAN = ("mq_ask_plan/specs/Objects.antt", "renamed_members")
MEMBER = re.compile(r'put \(codes "(\w+)"\)\s+\((\w+)')
LINE = [{"$ref": "#/$defs/line"}, {"type": "null"}]


def members_of(text, name):
    """The members that a definition puts, each with the word for its kind."""
    clauses = re.findall(rf"^{name} .*=(?:\n    .*|.)*", text, re.M)
    return dict(MEMBER.findall("\n".join(clauses)))


def members_at(path, name):
    return members_of((TOP / "crates" / path).read_text(encoding="utf-8"), name)


def kind_of(field):
    """The word of a definition for a value of this kind."""
    if field.get("anyOf") == LINE:
        return "line_data"
    if None in field.get("enum", []) or field.get("type") == ["string", "null"]:
        return "text_data"
    if "enum" in field:
        return "string"
    kinds = {"string": "string", "integer": "whole_data", "boolean": "boolean", "array": "array"}
    if field.get("type") == ["integer", "null"]:
        return "number_data"
    return "boolean" if field.get("const") is True else kinds[field["type"]]


class Members(unittest.TestCase):
    def setUp(self):
        schema = json.loads(json_tables.SCHEMA.read_text(encoding="utf-8"))
        self.objects = {name: one["properties"] for name, one in schema["$defs"].items()
                        if "properties" in one}

    def kinds_in(self, name, without):
        """The fields of an object of the schema but for these, each with its kind."""
        return {field: kind_of(form) for field, form in self.objects[name].items()
                if field not in without}

    def test_each_object_is_defined(self):
        self.assertEqual(set(DEFINED), set(self.objects))

    def test_they_are_those_of_the_schema(self):
        for name, places in DEFINED.items():
            found = {}
            for place in places:
                found |= members_at(*place)
            with self.subTest(name):
                self.assertEqual(found, self.kinds_in(name, UNDEFINED | OF_PLANS))

    def test_a_plan_adds_some(self):
        self.assertEqual(members_at(*THROUGH_A_PLAN), self.kinds_in("difference", UNDEFINED))

    def test_undefined_fields_may_be_absent(self):
        schema = json.loads(json_tables.SCHEMA.read_text(encoding="utf-8"))
        for one in schema["$defs"].values():
            self.assertFalse((UNDEFINED | OF_PLANS) & set(one.get("required", [])))

    def test_a_member_of_another_kind(self):
        text = 'm a =\n    put (codes "x") (text_data a) (\n    put (codes "y") (string a) none)\n'
        self.assertEqual(members_of(text + '\nn b = put (codes "z") (string b) none\n', "m"),
                         {"x": "text_data", "y": "string"})


if __name__ == "__main__":
    unittest.main()
