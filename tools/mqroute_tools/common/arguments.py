"""The parser of a tool's arguments."""
import argparse
import sys
from typing import TYPE_CHECKING, NoReturn

from .messages import own_name
from .texts import escaped

if TYPE_CHECKING:
    from _typeshed import SupportsWrite


class Parser(argparse.ArgumentParser):
    """What it says of an argument stands on one line, whatever the argument holds. That it can't
    print its help is said, as where anything else can't be printed."""
    closing = ""  # lines behind the help, as they stand

    def add_version(self) -> None:
        self.add_argument("--version", action=ShowVersion, help="show the version and exit")

    def format_help(self) -> str:
        return super().format_help() + self.closing

    def error(self, message: str) -> NoReturn:
        if sys.stderr is None:  # argparse would take standard output
            self.exit(2)
        super().error(escaped(message))

    def print_help(self, file: "SupportsWrite[str] | None" = None) -> None:
        print(self.format_help(), end="", file=file)


def also_as(parser: argparse._ActionsContainer, old: str, option: argparse.Action) -> None:
    """An option is taken by an old spelling too, which no help lists."""
    parser.add_argument(old, dest=option.dest, type=option.type or str,
                        default=argparse.SUPPRESS, help=argparse.SUPPRESS)


class ShowVersion(argparse.Action):
    """Prints the tool's name and its version on a line, and ends."""

    def __init__(self, option_strings: list[str], dest: str, help: str) -> None:
        super().__init__(option_strings, argparse.SUPPRESS, nargs=0, help=help)

    def __call__(self, parser: argparse.ArgumentParser, *_: object) -> NoReturn:
        from .version import version
        print(own_name(), version())
        parser.exit()
