#!/usr/bin/env python3
"""Writes the tables of docs/reference/json.md that list the fields of what mqroute-acl writes:
those of schemas/acl-answer.schema.json, a row a field. A table stands behind a line
`<!-- acl-answer: OBJECT -->`, which names the object in the schema. With --check it writes nothing,
and fails where a table differs.
"""
import json
import pathlib
import re
import sys

TOP = pathlib.Path(__file__).resolve().parent.parent
PAGE = TOP / "docs/reference/json.md"
SCHEMA = TOP / "schemas/acl-answer.schema.json"
TABLE = re.compile(r"(?<=^<!-- acl-answer: )(\w+)( -->\n)(?:\|.*\n)*", re.M)


def words_of(field):
    """What a field is, with the words that it can have, if these are few."""
    words = field.get("enum", [])
    listed = ", ".join(f"`{word}`" for word in words if word is not None)
    return f"{field['description']}: {listed}" if len(words) > 1 else field["description"]


def table_of(schema, name):
    rows = (f"| `{field}` | {words_of(said)} |\n"
            for field, said in schema["$defs"][name]["properties"].items())
    return "| Field | Is |\n|---|---|\n" + "".join(rows)


def named_in(page):
    """The objects that have a table."""
    return {found[1] for found in TABLE.finditer(page)}


def written(page, schema):
    """The page with the tables of the schema."""
    return TABLE.sub(lambda found: found[1] + found[2] + table_of(schema, found[1]), page)


def main():
    page = PAGE.read_text(encoding="utf-8")
    new = written(page, json.loads(SCHEMA.read_text(encoding="utf-8")))
    if "--check" in sys.argv[1:]:
        return int(page != new)
    PAGE.write_text(new, encoding="utf-8")
    return 0


if __name__ == "__main__":
    sys.exit(main())
