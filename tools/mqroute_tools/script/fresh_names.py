"""Scripts with names of their own, so that nothing that a broker still keeps of others is met."""
import re
import secrets
from collections.abc import Callable, Iterable

from ..common.texts import ended_lines
from .output import Command

MARK = "Z"  # around what is counted
MEANT = ("", "+", "#", "%c", "%u")  # levels that stand for something
FIRST = ("$share", "$SYS")  # and those that do where they are the first
MARKED = re.compile(r"Z[0-9a-f]{8}Z\d+Z")  # as Marks makes them
LETTER = re.compile(r"%[cu]|[^\W\d_]")  # a mark of access lists is none
# What stands before the name in a line of an access list, and the name.
NAMED_LINE = re.compile(
    r"^( *(?:user[ \t]+|(?:topic|pattern) +(?:(?:read|write|readwrite|deny)[ \t]+(?=\S))?))(.*)",
    re.M)


class Marks:
    """What is put behind the names of one script after another: never the same twice."""

    def __init__(self) -> None:
        # a broker may remember names of an earlier run, or of one beside this
        self.run = secrets.token_hex(4)
        self.count = 0

    def next(self) -> str:
        self.count += 1
        return f"{MARK}{self.run}{MARK}{self.count}{MARK}"


def marks_of(name: str) -> set[str]:
    """Those that scripts were given, which stand in the name."""
    return set(MARKED.findall(name))


def fresh_name(name: str, mark: str) -> str:
    """Each level of a topic or filter with the mark behind it, but for those that have a
    meaning."""
    return "/".join(level if level in MEANT or (at == 0 and level in FIRST) else level + mark
                    for at, level in enumerate(name.split("/")))


def with_names(text: str, named: Callable[[str], str]) -> str:
    """An access list whose lines speak of other names. Lines that name users stay."""
    return "".join(line if line.startswith(("user ", "#")) or " " not in line
                   else with_name(line, named) for line in ended_lines(text))


def with_name(line: str, named: Callable[[str], str]) -> str:
    text = line.rstrip("\r\n")
    words, _, name = text.rpartition(" ")
    return f"{words} {named(name)}{line[len(text):]}"


def by_letter(name: str, mark: str) -> str:
    """Each letter with the mark behind it: a name that is put together of others stays so."""
    return LETTER.sub(lambda found: found[0] if found[0][0] == "%" else found[0] + mark, name)


def fresh_by_letter(command: Command, mark: str) -> Command:
    """All names but `$share` and `$SYS`, those of users too; of no retained message or session."""
    def named(name: str) -> str:
        first, slash, rest = name.partition("/")
        return (first if first in FIRST else by_letter(first, mark)) + slash + by_letter(rest, mark)

    fields = {field: named(command[field])
              for field in ("client", "user", "topic", "filter") if field in command}
    if "text" in command:
        fields["text"] = NAMED_LINE.sub(lambda line: line[1] + named(line[2]), command["text"])
    return fields


def fresh(script: Iterable[Command], mark: str, letters: bool = False) -> list[Command]:
    fields = fresh_by_letter if letters else fresh_fields
    return [command | fields(command, mark) for command in script]


def fresh_fields(command: Command, mark: str) -> Command:
    """The command's names, each with the mark."""
    fields = {field: fresh_name(command[field], mark)
              for field in ("topic", "filter") if field in command}
    if "client" in command:
        fields["client"] = command["client"] + mark
    if "text" in command:
        fields["text"] = with_names(command["text"], lambda name: fresh_name(name, mark))
    return fields
