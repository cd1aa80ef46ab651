"""The command that a line of a script says."""
import json
from typing import Any

from .refusals import Refused, refuse_if

U32, U64 = 2**32 - 1, 2**64 - 1
LONGEST_LINE = 1_048_576  # bytes
DEEPEST = 127  # brackets in each other

TEXT, FLAG = "text", "flag"
Kind = str | tuple[int, int]  # TEXT, FLAG, or the least and the greatest number
FIELDS: dict[str, dict[str, Kind]] = {
    "connect": {"client": TEXT, "user": TEXT, "clean": FLAG, "session_expiry": (0, U32)},
    "disconnect": {"client": TEXT},
    "subscribe": {"client": TEXT, "filter": TEXT, "qos": (0, 2), "no_local": FLAG, "rap": FLAG,
                  "handling": (0, 2), "id": (1, 268_435_455)},
    "unsubscribe": {"client": TEXT, "filter": TEXT},
    "publish": {"client": TEXT, "topic": TEXT, "payload": TEXT, "qos": (0, 2), "retain": FLAG,
                "expiry": (0, U32)},
    "acl": {"text": TEXT},
    "advance": {"seconds": (0, U64)},
    "stat": {},
}
ABSENT: dict[str, Any] = {
    "clean": True, "session_expiry": 0, "qos": 0, "no_local": False, "rap": False, "handling": 0,
    "payload": "", "retain": False}
NEEDED = {"client", "filter", "topic", "seconds"}


def depth(text: str) -> int:
    """How deep the brackets of a JSON text nest, those in its strings left out."""
    deepest = now = 0
    in_string = escaped = False
    for c in text:
        if in_string:
            in_string = escaped or c != '"'
            escaped = not escaped and c == "\\"
        else:
            in_string = c == '"'
            now += (c in "[{") - (c in "]}")
            deepest = max(deepest, now)
    return deepest


def number(text: str) -> int | float:
    """A whole number from 0 to 2^64 - 1; any other is a float, and one beyond
    the floats is no JSON."""
    if text.isdigit() and len(text) <= 20 and int(text) <= U64:
        return int(text)
    value = float(text)
    if value in (float("inf"), float("-inf")):
        raise ValueError("a number out of range")
    return value


def no_constant(text: str) -> float:
    raise ValueError(f"{text} is no JSON")


def json_of(line: bytes) -> Any:
    try:
        text = line.decode()
        value = json.loads(text, parse_int=number, parse_float=number, parse_constant=no_constant)
        json.dumps(value, ensure_ascii=False).encode()  # a lone surrogate isn't a character
    except (ValueError, RecursionError):
        raise Refused("BadJson") from None
    refuse_if(depth(text) > DEEPEST, "BadJson")
    return value


def is_kind(value: Any, kind: Kind) -> bool:
    if kind == TEXT:
        return isinstance(value, str)
    if isinstance(kind, str):
        return isinstance(value, bool)
    return type(value) is int and kind[0] <= value <= kind[1]


def reading(line: bytes) -> tuple[str, dict[str, Any]] | None:
    """The command of a line, or none of a blank one."""
    refuse_if(len(line) > LONGEST_LINE, "LineTooLong")
    if not line.strip(b" \t\r"):
        return None
    value = json_of(line)
    refuse_if(not isinstance(value, dict), "BadCommand")
    do = value.pop("do", None)
    refuse_if(not isinstance(do, str) or do not in FIELDS, "BadCommand")
    kinds = FIELDS[do]
    refuse_if(not all(name in kinds and is_kind(it, kinds[name]) for name, it in value.items()),
              "BadField")
    refuse_if(any(name in NEEDED and name not in value for name in kinds), "BadField")
    return do, {name: value.get(name, ABSENT.get(name)) for name in kinds}
