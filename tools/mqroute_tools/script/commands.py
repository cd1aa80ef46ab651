"""The commands and their fields, and what is wrong with a line that is none."""
import difflib
from collections.abc import Iterable, Iterator
from typing import Any, NamedTuple

from ..common.messages import typed
from ..common.texts import json_text
from .file_kinds import HEAD, LOG, wrong
from .output import Command, command_of, is_blank
from .strict_json import NoJson, read

LINE_LIMIT = 1_048_576  # bytes
LONGEST_SHOWN = 60
NO_COMMAND = "no line is a command"
SECONDS = 4_294_967_295


class Field(NamedTuple):
    """What a field may hold: "text", "flag", or a whole number from `low` to `high`."""
    kind: str
    required: bool = False
    low: int = 0
    high: int = 0


TEXT, FLAG, NAME, QOS = Field("text"), Field("flag"), Field("text", True), Field("number", high=2)
COMMANDS: dict[str, dict[str, Field]] = {
    "connect": {"client": NAME, "user": TEXT, "clean": FLAG,
                "session_expiry": Field("number", high=SECONDS)},
    "disconnect": {"client": NAME},
    "subscribe": {"client": NAME, "filter": NAME, "qos": QOS, "no_local": FLAG, "rap": FLAG,
                  "handling": QOS,
                  "id": Field("number", low=1, high=268_435_455)},
    "unsubscribe": {"client": NAME, "filter": NAME},
    "publish": {"client": NAME, "topic": NAME, "payload": TEXT, "qos": QOS, "retain": FLAG,
                "expiry": Field("number", high=SECONDS)},
    "acl": {"text": TEXT},
    "advance": {"seconds": Field("number", True, high=18_446_744_073_709_551_615)},
    "stat": {},
}
FIELDS = {do: {"do": TEXT} | fields for do, fields in COMMANDS.items()}
REQUIRED = {do: {name for name, field in fields.items() if field.required}
            for do, fields in COMMANDS.items()}


def connect_command(client: str, user: str | None) -> Command:
    return {"do": "connect", "client": client} | ({} if user is None else {"user": user})


def shown(value: Any) -> str:
    text = json_text(value)
    return text if len(text) <= LONGEST_SHOWN else text[:LONGEST_SHOWN] + ".."


def guess(word: str, words: Iterable[str]) -> str:
    """The word that may have been meant, in brackets."""
    near = difflib.get_close_matches(word.lower().replace("-", "_"), list(words), 1)
    return f" ({near[0]}?)" if near else ""


def value_fault(field: Field, value: Any) -> str:
    """What is wrong with a field's value; empty where nothing is."""
    if field.kind == "text":
        return "" if isinstance(value, str) else "not a text"
    if field.kind == "flag":
        return "" if isinstance(value, bool) else "neither true nor false"
    if isinstance(value, bool) or not isinstance(value, int):
        return "not a whole number"
    return "" if field.low <= value <= field.high else f"not from {field.low:,} to {field.high:,}"


def is_right(do: str, command: Command) -> bool:
    """Whether the fields have no faults, as most commands have none."""
    fields = FIELDS[do]
    for name, value in command.items():
        field = fields.get(name)
        if field is None:
            return False
        if not (isinstance(value, str) and field.kind == "text") and value_fault(field, value):
            return False
    return REQUIRED[do] <= command.keys()


def field_faults(do: str, command: Command) -> Iterator[str]:
    fields = COMMANDS[do]
    unknown = [name for name in command if name not in fields and name != "do"]
    absent = [name for name in fields if name not in command]
    for name in unknown:
        yield f"{do} has no field {shown(name)}{guess(name, absent)}"
    for name in absent:
        if fields[name].required:
            yield f"{do} needs the field {json_text(name)}"
    for name, field in fields.items():
        fault = value_fault(field, command[name]) if name in command else ""
        if fault:
            yield f"{name} is {shown(command[name])}: {fault}"


def value_faults(value: Any) -> list[str]:
    """What is wrong in a line's value; nothing where it is a command."""
    if not isinstance(value, dict):
        return [f"{shown(value)} is not an object"]
    if "do" not in value:
        return [f"\"do\" is missing{guess_of_do(value)}"]
    do = value["do"]
    if not isinstance(do, str) or do not in COMMANDS:
        return [f"there is no command {shown(do)}"
                + (guess(do, COMMANDS) if isinstance(do, str) else "")]
    return [] if is_right(do, value) else list(field_faults(do, value))


def guess_of_do(value: dict[str, Any]) -> str:
    named = [name for name, held in value.items() if isinstance(held, str) and held in COMMANDS]
    return f" ({shown(named[0])} is {shown(value[named[0]])})" if named else ""


def read_line(line: bytes) -> tuple[Command | None, list[str]]:
    """The command on a line without its line feed, or None; and what is wrong in the line."""
    if len(line) > LINE_LIMIT:
        return None, [f"{len(line):,} bytes, where {LINE_LIMIT:,} may be"]
    if not line.startswith(b"{") and is_blank(line):
        return None, []
    try:
        value = read(line)
    except NoJson as fault:
        return None, [f"not JSON: {fault}"]
    found = value_faults(value)
    return None if found else value, found


def line_faults(line: bytes) -> list[str]:
    """What is wrong in a line without its line feed, so that it is invalid."""
    return read_line(line)[1]


def faults(lines: Iterable[bytes]) -> Iterator[tuple[int, str]]:
    """The numbers of the invalid lines, each with what is wrong,
    once for each fault."""
    for number, line in enumerate(lines, 1):
        for fault in line_faults(line.removesuffix(b"\n")):
            yield number, fault


class Seen:
    """Whether a file that is read as a script has a command, maybe with a fault in its fields."""

    def __init__(self, name: str) -> None:
        self.name, self.head, self.has_command = name, b"", False

    def add(self, line: bytes) -> None:
        if not self.has_command:
            command = command_of(line) or {}
            self.has_command = isinstance(command.get("do"), str) and command["do"] in COMMANDS
            self.head += line[:HEAD] if len(self.head) < HEAD else b""

    def refuse(self, rest: Iterable[bytes] = ()) -> None:
        """Raises Fault where no line is a command; `rest` are those that weren't read yet."""
        for line in rest:
            if self.has_command:
                return
            self.add(line)
        if not self.has_command:
            raise wrong(self.name, self.head, NO_COMMAND, {
                LOG: f"see {typed('log-to-script')}",
                "JSON": "a script has one command on each line"})
