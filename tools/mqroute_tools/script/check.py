"""check: names what is wrong in each line of a script that mqroute refuses whatever the lines
before it are: not JSON, an unknown command, a field that is missing, unknown, of another kind or
out of range; a client id, a user name, a topic or a filter that isn't valid. These are the lines
that mqroute refuses with code 1 to 6 or 8 to 10.

Exit status: 0 nothing is wrong; 1 something is; 2 usage, a file, or a file without a command.
"""
import argparse
import sys

from ..common.files import STDIN, at, keep_apart, open_input
from .commands import Seen, read_line
from .file_kinds import kind
from .output import Command
from .text_faults import shown, text_faults

SHOWN = 20  # faulty lines of a file most of whose lines are invalid
LIKE_SCRIPTS = ("", "a script", "JSON")  # the kinds of files whose faults are shown


class Subscribed:
    """Who is connected, and which filters clients have subscribed to."""

    def __init__(self) -> None:
        self.connected: set[str] = set()
        self.known: set[tuple[str, str]] = set()

    def remark(self, command: Command) -> str:
        """Of a command that is answered with a reason code, and does nothing."""
        do, client = command["do"], command.get("client", "")
        if do == "connect":
            self.connected.add(client)
        elif do == "disconnect":
            self.connected.discard(client)
        elif do == "subscribe":
            self.known.add((client, command["filter"]))
        elif do == "unsubscribe" and client in self.connected:
            return self.unsubscribe(client, command["filter"])
        return ""

    def unsubscribe(self, client: str, wanted: str) -> str:
        if (client, wanted) in self.known:
            return ""
        return (f"remark: {shown(client)} hasn't subscribed to {shown(wanted)}, so that this is "
                "answered 17, and not refused")


class Check:
    """Prints what is wrong, of a file that isn't a script only in the first lines; nothing of one
    that is of another kind."""

    def __init__(self, name: str) -> None:
        self.name, self.seen, self.subscribed = name, Seen(name), Subscribed()
        self.right = self.wrong = self.hidden = 0
        self.held: list[bytes] = []  # until there is a command

    def line(self, number: int, line: bytes) -> None:
        if not self.seen.has_command:
            self.seen.add(line)
        command, faults = read_line(line.removesuffix(b"\n"))
        if command is not None:
            faults = list(text_faults(command))
            self.right += not faults
        self.wrong += bool(faults)
        if self.hidden or (faults and self.wrong > SHOWN and self.wrong > self.right):
            self.hidden += bool(faults)
            return
        if command is not None and not faults:
            remark = self.subscribed.remark(command)
            faults = [remark] if remark else []
        for fault in faults:
            listed = f"{at(self.name, number)}: {fault}\n"
            self.held.append(listed.encode("utf-8", "backslashreplace"))
        if self.seen.has_command:
            self.write()

    def write(self) -> None:
        sys.stdout.buffer.writelines(self.held)
        self.held.clear()

    def end(self) -> int:
        if kind(self.seen.head) not in LIKE_SCRIPTS:
            self.seen.refuse()
        if self.hidden:
            self.held.append(f"and {self.hidden} more\n".encode())
        self.write()
        sys.stdout.flush()
        self.seen.refuse()
        return 1 if self.wrong else 0


def add_arguments(parser: argparse.ArgumentParser) -> None:
    parser.description = ("Names what is wrong in each line of a script that mqroute refuses "
                          "whatever the lines before it are.")
    parser.add_argument("script", metavar="SCRIPT", nargs="?", default=STDIN,
                        help="standard input if it is absent or -")


def run(options: argparse.Namespace) -> int:
    keep_apart([options.script])
    check = Check(options.script)
    with open_input(options.script) as lines:
        for number, line in enumerate(lines, 1):
            check.line(number, line)
    return check.end()
