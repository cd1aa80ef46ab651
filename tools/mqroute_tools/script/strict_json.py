"""A line of a script as mqroute reads it: JSON as the standard has it, where Python's
reader takes more and less."""
import json
import re
from typing import Any

from .json_lines import line_reader

MOST_NESTING = 127
STRING = re.compile(r'"[^"\\]*(?:\\.[^"\\]*)*"', re.S)
SURROGATE = re.compile("[\ud800-\udfff]")


class NoJson(Exception):
    """Why the line isn't JSON."""


def constant(text: str) -> Any:
    raise NoJson(f"{text} is not a number in JSON")


def real(text: str) -> float:
    if float(text) in (float("inf"), float("-inf")):
        raise NoJson(f"the number {text[:20]} is too great")
    return float(text)


def whole(text: str) -> int | float:
    """-0 is a number with a sign, and so none that counts."""
    if len(text) > 300:
        return real(text)
    return -0.0 if text == "-0" else int(text)


# of a line without an escape that may be half of a surrogate pair
read_plain = line_reader(
    json.JSONDecoder(parse_constant=constant, parse_float=real, parse_int=whole))


def has_half(value: Any) -> bool:
    """Whether a text has half of a surrogate pair; those of an object have
    been looked at by `members`."""
    if isinstance(value, list):
        return any(map(has_half, value))
    return isinstance(value, str) and bool(SURROGATE.search(value))


def whole_texts(value: Any) -> Any:
    if has_half(value):
        raise NoJson("half of a surrogate pair stands alone in a text")
    return value


def members(pairs: list[tuple[str, Any]]) -> dict[str, Any]:
    """Each one's text is looked at, also where another of the same name follows."""
    for pair in pairs:
        whole_texts(list(pair))
    return dict(pairs)


def nesting(text: str) -> int:
    depth = deepest = 0
    for sign in re.findall(r"[\[\]{}]", STRING.sub("", text)):
        depth += 1 if sign in "[{" else -1
        deepest = max(deepest, depth)
    return deepest


def read(line: bytes) -> Any:
    """The value on the line, or NoJson."""
    try:
        text = line.decode("utf-8")
        if (len(line) > MOST_NESTING and line.count(b"[") + line.count(b"{") > MOST_NESTING
                and nesting(text) > MOST_NESTING):
            raise NoJson(f"nested deeper than {MOST_NESTING}")
        if b"\\u" not in line:
            return read_plain(text)
        return whole_texts(json.loads(text, parse_constant=constant, parse_float=real,
                                      parse_int=whole, object_pairs_hook=members))
    except UnicodeDecodeError as fault:
        raise NoJson(f"byte {fault.start + 1} is not UTF-8") from fault
    except json.JSONDecodeError as fault:
        raise NoJson(why(text, fault)) from fault


def why(text: str, fault: json.JSONDecodeError) -> str:
    if text.startswith("\ufeff"):
        return "it begins with a byte order mark"
    if text.strip() in ("{", "[", "}", "]", "},", "],"):
        return "each command is an object on one line"
    what = fault.msg[0].lower() + fault.msg[1:]
    return f"{what.removesuffix(' at')}, column {fault.pos + 1}"
