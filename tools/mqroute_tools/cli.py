"""The command line: mqroute-tools SUBCOMMAND .., and each subcommand under a name of its own.

At a signal it ends in one line from its beginning on: what takes time to load is imported behind
that.
"""
import importlib
import sys
from typing import TYPE_CHECKING, NamedTuple, Protocol, cast

from .common import interrupt

if TYPE_CHECKING:
    from argparse import ArgumentParser, Namespace

    from .common.arguments import Parser

NAME = "mqroute-tools"


class Entry(NamedTuple):
    module: str
    summary: str  # on one line of 80 columns, in the list
    example: str  # arguments
    nothing: str  # what status 0 says
    something: str  # and status 1

    def closing(self, command: str) -> str:
        """Of the help of what is typed so."""
        return (f"\nexample: {command} {self.example}\n"
                f"status: 0 {self.nothing}; 1 {self.something}; 2 misuse or no answer; "
                "3 a fault of the machine\n")


SUBCOMMANDS = {
    "log-to-script": Entry(
        "log.log_to_script", "makes a script for mqroute of a mosquitto log",
        "mosquitto.log > day.jsonl", "all of the log is in the script",
        "something isn't, or a copy of the broker isn't explained"),
    "who-loses": Entry(
        "losses.who_loses", "shows who loses which copies between two runs of a script",
        "--by user day.jsonl old.out new.out", "nothing changes", "something does"),
    "why": Entry(
        "why.why", "shows why a client was sent a message of a script, or wasn't",
        "--acl-file acl day.jsonl 12 dashboard",
        "the client was sent the message, or no client was given", "it wasn't"),
    "preview": Entry(
        "preview.preview", "shows what a proposed access list would change",
        "old.acl new.acl mosquitto.log", "nothing changes", "something does"),
    "plan": Entry(
        "plan.plan", "shows what becomes of lists and scripts if topics are renamed",
        "check --script day.jsonl plan", "nothing needs a look", "something does"),
    "replay": Entry(
        "live.replay", "runs a script on a live broker and compares with mqroute",
        "--port 1883 day.jsonl day.out", "nothing differs", "something does"),
    "compare-log": Entry(
        "log.compare_log", "compares a mosquitto log's own copies with mqroute's",
        "mosquitto.log day.out", "no copy differs", "one does"),
    "check": Entry(
        "script.check", "names what is wrong in a script's lines",
        "day.jsonl", "no line is wrong", "one is"),
    "search": Entry(
        "search.search", "searches for differences between a live broker and mqroute",
        "--port 1883 --count 500", "nothing is found that isn't known", "something is"),
}
HELP = "help"


class Subcommand(Protocol):
    """What the module of a subcommand has."""

    def add_arguments(self, parser: "ArgumentParser") -> None: ...

    def run(self, options: "Namespace") -> int:
        """Gives the exit status. Raises UsageFault where the arguments don't go together."""


def parsed(parser: "ArgumentParser") -> "Namespace":
    """The arguments of the process. Options may stand between them, but where each subcommand has
    its own."""
    try:
        return parser.parse_intermixed_args()
    except TypeError:
        return parser.parse_args()


def run(name: str) -> int:
    """Runs a subcommand with the arguments of the process, under the name that stands there."""
    interrupt.handle(interrupt.stop)
    from .common import exit_status
    from .common.arguments import Parser
    from .common.messages import typed
    subcommand = cast(
        Subcommand, importlib.import_module(f".{SUBCOMMANDS[name].module}", __package__))
    parser = Parser()
    subcommand.add_arguments(parser)
    parser.add_version()
    parser.closing = SUBCOMMANDS[name].closing(typed(name))

    def work() -> int:
        options = parsed(parser)
        try:
            return subcommand.run(options)
        except exit_status.UsageFault as fault:
            parser.error(str(fault))
    return exit_status.run(work)


def main() -> int:
    """mqroute-tools: the first argument names the subcommand, which has the others."""
    sys.argv[0] = NAME
    interrupt.handle(interrupt.stop)
    from .common import exit_status
    return exit_status.run(lambda: run(chosen()))


def chosen() -> str:
    """The subcommand, whose arguments are those of the process from here on."""
    parser = of_all()
    options = parser.parse_args()
    while options.subcommand == HELP:
        options = parser.parse_args([*options.arguments, "--help"])
    sys.argv = [f"{NAME} {options.subcommand}", *options.arguments]
    return str(options.subcommand)


def of_all() -> "Parser":
    import argparse
    from .common.arguments import Parser
    listed = "".join(f"  {name:13}  {entry.summary}\n" for name, entry in SUBCOMMANDS.items())
    parser = Parser(
        usage=f"{NAME} [-h] [--version] SUBCOMMAND ..",
        description="Tools between mqroute and a real broker. Each subcommand has --help;\n"
        f"`{HELP} SUBCOMMAND` shows the same.",
        epilog=f"subcommands:\n{listed}", formatter_class=argparse.RawDescriptionHelpFormatter)
    parser.closing = (f"\nexample: {NAME} check day.jsonl\n"
                      "status: as the subcommand; 2 if there is none of this name\n")
    parser.add_version()
    parser.add_argument("subcommand", metavar="SUBCOMMAND", choices=[*SUBCOMMANDS, HELP],
                        help=argparse.SUPPRESS)
    rest = parser.add_argument("arguments", nargs=argparse.REMAINDER, help=argparse.SUPPRESS)
    rest.required = False  # by itself from Python 3.12 on
    return parser


def log_to_script() -> int:
    return run("log-to-script")


def who_loses() -> int:
    return run("who-loses")


def why() -> int:
    return run("why")


def preview() -> int:
    return run("preview")


def plan() -> int:
    return run("plan")


def replay() -> int:
    return run("replay")


def compare_log() -> int:
    return run("compare-log")


def check() -> int:
    return run("check")


def search() -> int:
    return run("search")
