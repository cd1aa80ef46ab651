"""Whether a value is valid by a schema of schemas/: JSON Schema 2020-12, of which these use some
keywords."""
from typing import Any

KINDS = {"object": dict, "array": list, "string": str, "boolean": bool, "integer": int,
         "null": type(None)}
NOTES = {"$schema", "$defs", "title", "description"}
RULES = {  # a keyword, and whether a value of the kind that it speaks of meets it
    "type": lambda value, rule, _: any(
        is_kind(value, name) for name in ([rule] if isinstance(rule, str) else rule)),
    "const": lambda value, rule, _: same(value, rule),
    "enum": lambda value, rule, _: any(same(value, one) for one in rule),
    "minimum": lambda value, rule, _: not isinstance(value, int) or value >= rule,
    "maximum": lambda value, rule, _: not isinstance(value, int) or value <= rule,
    "minLength": lambda value, rule, _: not isinstance(value, str) or len(value) >= rule,
    "minItems": lambda value, rule, _: not isinstance(value, list) or len(value) >= rule,
    "items": lambda value, rule, _: (
        not isinstance(value, list) or all(is_valid(one, rule) for one in value)),
    "required": lambda value, rule, _: (
        not isinstance(value, dict) or all(name in value for name in rule)),
    "properties": lambda value, rule, _: (
        not isinstance(value, dict)
        or all(is_valid(value[name], rule[name]) for name in rule if name in value)),
    "additionalProperties": lambda value, rule, schema: (
        rule or not isinstance(value, dict) or set(value) <= set(schema["properties"])),
    "dependentRequired": lambda value, rule, _: (
        not isinstance(value, dict)
        or all(set(rule[name]) <= set(value) for name in rule if name in value)),
    "oneOf": lambda value, rule, _: sum(is_valid(value, one) for one in rule) == 1,
    "anyOf": lambda value, rule, _: any(is_valid(value, one) for one in rule),
}


def is_kind(value: Any, name: str) -> bool:
    """Python counts true and false as whole numbers, too."""
    return isinstance(value, KINDS[name]) and (name == "boolean" or not isinstance(value, bool))


def same(value: Any, other: Any) -> bool:
    return type(value) is type(other) and value == other


def is_valid(value: Any, schema: dict[str, Any]) -> bool:
    """By the keywords that the schemas use; another one is an error."""
    return all(
        RULES[word](value, rule, schema) for word, rule in schema.items() if word not in NOTES)


def resolved(part: Any, root: dict[str, Any]) -> Any:
    """With what each `$ref` names in its place. None leads back to itself."""
    if isinstance(part, list):
        return [resolved(one, root) for one in part]
    if not isinstance(part, dict):
        return part
    if "$ref" in part:
        return resolved(root["$defs"][part["$ref"].removeprefix("#/$defs/")], root)
    return {name: resolved(one, root) for name, one in part.items() if name != "$defs"}
