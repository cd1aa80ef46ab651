"""How texts of other people's are read by lines, and printed: nothing in them moves a cursor, hides
itself, makes a second line or turns text round.

What is printed by its number is each character that Python doesn't take for printable: control
characters, those that turn the direction of writing round, line separators, those without a width,
and what is no character.
"""
import json
import re
from typing import Any

SHORT = {"\t": "\\t", "\r": "\\r", "\n": "\\n", "\0": "\\0"}
IN_QUOTES = SHORT | {'"': '\\"', "\\": "\\\\"}


def lines(text: str) -> list[str]:
    """The lines of a text, without their ends: a line feed alone ends one, where `splitlines` takes
    characters that a name may have."""
    found = text.split("\n")
    return found[:-1] if found[-1] == "" else found


def ended_lines(text: str) -> list[str]:
    """The same, with their ends."""
    return re.findall(r"[^\n]*\n|[^\n]+", text)


def by_number(character: str) -> str:
    """As Rust has it: `\\u{202e}`."""
    return f"\\u{{{ord(character):x}}}"


def escaped(text: str) -> str:
    """As part of one line of words."""
    if text.isprintable():
        return text
    return "".join(c if c.isprintable() else SHORT.get(c) or by_number(c) for c in text)


def escaped_lines(text: str) -> str:
    """Words on several lines."""
    return "\n".join(map(escaped, text.split("\n")))


def quoted(text: str) -> str:
    """In quotes, as Rust and mqroute-acl have a text in words."""
    inside = (IN_QUOTES.get(c) or (c if c.isprintable() else by_number(c)) for c in text)
    return f'"{"".join(inside)}"'


def in_quotes(text: str) -> str:
    """In single quotes where nothing has to be escaped."""
    return repr(text) if text.isprintable() else quoted(text)


def json_text(value: Any, **form: Any) -> str:
    """JSON, with these characters by number as JSON has it: `\\u202e`. `form` is of json.dumps."""
    return json_escaped(json.dumps(value, ensure_ascii=False, **form))


def json_escaped(text: str) -> str:
    """JSON whose texts have them raw. Line feeds stand between its texts alone, and stay."""
    if text.isprintable():
        return text
    return "\n".join(
        line if line.isprintable() else
        "".join(c if c.isprintable() else json.dumps(c)[1:-1] for c in line)
        for line in text.split("\n"))
