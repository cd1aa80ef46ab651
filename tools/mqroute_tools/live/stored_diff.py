"""What differed, as replay prints it and as a NAME.diff has it."""
import re
from collections.abc import Iterable
from pathlib import Path

from ..common.exit_status import Fault
from ..common.files import at
from ..common.texts import escaped, json_text, lines
from ..script.output import Command
from .broker_diff import EXPIRY_SLACK
from .line_difference import LineDifference
from .run_ends import NOT_RUN
from .text_files import read_utf8
from .wills import PAYLOAD

HEAD = re.compile(r"line (\d+): ")  # how what differs at a line begins
INDENT = "   "  # of what differs there
INTERVAL = re.compile(r"expiry (\d+)")
# What ended a run, by words of the text that says so.
ENDED = {"closed the connection": "closed", "refused the connection": "refused",
         "within": "no answer", "goes on sending": "no end", "the broker sent to": "no MQTT"}


def is_near(text: str, other: str) -> bool:
    """Whether the texts are the same, but for a little of an interval."""
    mine, theirs = ([int(n) for n in INTERVAL.findall(side)] for side in (text, other))
    near = all(abs(a - b) <= EXPIRY_SLACK for a, b in zip(mine, theirs))
    return near and INTERVAL.sub("expiry", text) == INTERVAL.sub("expiry", other)


def are_near(texts: list[str], others: list[str]) -> bool:
    return len(texts) == len(others) and all(map(is_near, texts, others))


def head(line: int, command: Command) -> str:
    return f"line {line}: {json_text(command)}"


def report(script: list[Command], differences: Iterable[LineDifference]) -> list[str]:
    """The lines that replay prints."""
    return [text for one in differences
            for text in (head(one.line, script[one.line - 1]), *one.texts)]


def read_differences(file: Path, script: list[Command]) -> list[LineDifference]:
    """What a .diff has, of the script beside it."""
    found: list[LineDifference] = []
    for number, text in enumerate(lines(read_utf8(file)), 1):
        begins = HEAD.match(text)
        if begins and 0 < int(begins[1]) <= len(script):
            line = int(begins[1])
            found.append(LineDifference(line, did(script, line), []))
        elif text.startswith(INDENT) and found:
            found[-1].texts.append(escaped(text))
        else:
            raise Fault(f"{at(str(file), number)}: not of {file.with_suffix('.jsonl').name}")
    return [LineDifference(one.line, one.did, one.texts, ended(one.texts)) for one in found]


def did(script: list[Command], line: int) -> str:
    """What the line does; where it publishes a will, that."""
    command = script[line - 1]
    before = script[line - 2] if line > 1 else {}
    is_will = (command["do"] == "disconnect" and before.get("payload") == PAYLOAD
               and before.get("client") == command["client"])
    return "will" if is_will else str(command["do"])


def ended(texts: list[str]) -> str:
    last = texts[-1] if texts else ""
    found = (what for sign, what in ENDED.items() if sign in last)
    return next(found, "") if last.endswith(NOT_RUN) else ""
