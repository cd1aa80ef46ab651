"""log-to-script: makes a script for mqroute of a mosquitto 2.0 log (log_type all).

The commands stand in the order in which the broker did them. What isn't in a log (payloads,
options, expiry) is left at its default; a payload is shown as its number of bytes, and is empty
where it was empty.
Of clients that were connected before the log began the script begins with what their copies show
(--no-inference: it doesn't).
Exit status: 0 all of the log is in the script; 1 something isn't, shown on standard error; 2 usage,
or a file.
"""
import argparse
import json
import shutil
import sys
import tempfile
from functools import lru_cache
from itertools import starmap
from typing import IO

from ..common.files import STDIN, keep_apart, refuse_stdin_twice, whole
from ..common.messages import counted, note, say
from ..common.texts import json_escaped
from ..script.output import Command
from .clients import INFERRED, NONE, SEEN
from .conversion import placed_commands
from .log_files import Logs
from .options import add_conf_option, add_log_options, logs_of
from .script_writer import Writer, read_logs

raw_text = json.JSONEncoder(ensure_ascii=False).encode


@lru_cache(1 << 14, typed=True)
def field_text(name: str, value: str | int) -> str:
    """As JSON; most names and topics of a log come again and again."""
    return f'"{name}":{json_escaped(raw_text(value))}'


def text_of(command: Command) -> str:
    """A command as a line of a script, without its end."""
    return "{" + ",".join(starmap(field_text, command.items())) + "}"


def write_script(options: argparse.Namespace, logs: Logs, out: IO[bytes],
                 follow: bool = False) -> tuple[Writer, int]:
    """Writes the commands of the logs to a file of its own; gives what read them, and how many."""
    def write(found: Writer) -> int:
        out.seek(0)
        out.truncate()
        written = 0
        for written, (_, command) in enumerate(placed_commands(found, logs.streams(found)), 1):
            out.write(text_of(command).encode("utf-8") + b"\n")
        return written
    return read_logs(Writer, options, logs, write, follow)


def sum_up(found: Writer, logs: Logs, written: int) -> None:
    others = f" ({found.stamps.others} of other programs)" if found.stamps.others else ""
    say(f"{counted(found.place, 'lines read')}{others}, {counted(written, 'commands written')}")
    if found.explained[INFERRED] or found.explained[NONE]:
        seen, inferred, none = (found.explained[i] for i in (SEEN, INFERRED, NONE))
        copies = counted(seen + inferred + none, "copies")
        say(f"the broker sent {copies}: the script explains {seen} by subscriptions in "
            f"the log and {inferred} by inferred ones, and doesn't explain {none}")
    for line in found.notes.lines(logs.where):
        note(line)


def add_arguments(parser: argparse.ArgumentParser) -> None:
    parser.description = "Makes a script for mqroute of a mosquitto 2.0 log (log_type all)."
    parser.add_argument("log", metavar="LOG", nargs="*",
                        help="log files that follow one another, packed by gzip or not; "
                        "standard input if none, or -")
    add_conf_option(parser, "the log and the form of its times")
    add_log_options(parser)
    parser.add_argument("--state", metavar="FILE",
                        help="write what stands at the end (clients, sessions, subscriptions, "
                        "retained messages) as a script, for --begin with the log that follows")


def run(options: argparse.Namespace) -> int:
    options.log = logs_of(options, options.log)
    files = [*(options.log or [STDIN]), options.begin, options.conf]
    refuse_stdin_twice(files)
    keep_apart(files, {"--state": options.state})
    logs = Logs(options.log, not options.no_inference, options.time_format)
    with tempfile.TemporaryFile() as script:
        found, written = write_script(options, logs, script, follow=bool(options.state))
        script.seek(0)
        shutil.copyfileobj(script, sys.stdout.buffer)
    sys.stdout.buffer.flush()
    if found.state:
        with whole(options.state) as file:
            file.writelines(
                text_of(command).encode("utf-8") + b"\n" for command in found.state.at_end())
    sum_up(found, logs, written)
    return 1 if found.notes.counts or found.explained[NONE] else 0
