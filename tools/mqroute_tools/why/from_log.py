"""The script of a log, and the publishes of a topic in it at a time."""
import argparse
from array import array

from ..common.exit_status import Fault
from ..common.tables import shown
from ..log.clients import Inferred
from ..log.log_files import Logs
from ..log.log_to_script import text_of
from ..log.conversion import placed_commands
from ..log.script_writer import Writer, read_logs
from ..log.time_stamps import Stamps
from ..script.output import Command
from .lines import Question, Script

BEFORE = "before the log"
Found = tuple[int, int, int]  # a publish: its time, its line in the script, its place in the log


def questions(options: argparse.Namespace) -> list[Question]:
    """Of the publishes of the topic at the time."""
    logs = Logs(options.log, not options.no_inference, options.time_format)
    found, (lines, commands, publishes, places) = read_logs(
        Writer, options, logs, lambda reader: converted(reader, logs, options.topic))
    name = ", ".join(options.log)
    of_log = LogLines(logs, places, commands, options.begin is not None)
    script = Script(f"the script of {name}", lines, list(commands), of_log.called, True)
    if not publishes:
        raise Fault(f"{name}: no publish of {shown(options.topic)} at a time")
    return [Question(script, line, options.named,
                     f"{logs.where(place)} (line {line} of its script)")
            for _, line, place in at_time(publishes, moment(found.stamps, options.at), logs)]


class LogLines:
    """Which lines of the logs the commands of their script came from."""

    def __init__(self, logs: Logs, places: "array[int]", commands: list[Command],
                 begins: bool) -> None:
        self.logs, self.places, self.commands = logs, places, commands
        self.begins = begins  # whether --begin has commands of before the log

    def called(self, line: int) -> str:
        place, command = self.places[line - 1], self.commands[line - 1]
        if place == 0:
            return BEFORE if self.begins else f"{BEFORE} (inferred)"
        said = self.logs.where(place)
        return f"{said} (inferred)" if isinstance(command, Inferred) else said


def converted(reader: Writer, logs: Logs, topic: str) \
        -> tuple[list[bytes], list[Command], list[Found], "array[int]"]:
    """The script, as lines and as commands, the publishes of the topic, and from which lines of the
    logs the commands came."""
    lines: list[bytes] = []
    commands, publishes, places = [], [], array("Q")
    for place, command in placed_commands(reader, logs.streams(reader)):
        lines.append(text_of(command).encode("utf-8") + b"\n")
        commands.append(command)
        places.append(place)
        if command.get("topic") == topic and reader.time is not None:
            publishes.append((reader.time, len(lines), place))
    return lines, commands, publishes, places


def moment(stamps: Stamps, text: str) -> int:
    """A time as it stands in the log."""
    time, _ = stamps.split(f"{text} host mosquitto: " if stamps.prefixed else f"{text}: ")
    if time is None:
        raise Fault(f"--at {text}: no time as it stands in the log")
    return time


def at_time(publishes: list[Found], time: int, logs: Logs) -> list[Found]:
    """Those of this second; or a fault that names the nearest."""
    found = [one for one in publishes if one[0] == time]
    if found:
        return found
    before = max((one for one in publishes if one[0] < time), default=None)
    after = min((one for one in publishes if one[0] > time), default=None)
    near = [f"{abs(one[0] - time)} s {word} ({logs.where(one[2])})"
            for one, word in ((before, "before"), (after, "after")) if one]
    raise Fault(f"no publish of this topic at that time: the nearest {' and '.join(near)}")
