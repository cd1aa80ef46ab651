"""What a tool shows on standard error, and how it words numbers and failures."""
import os
import sys
import traceback
from contextlib import suppress
from pathlib import Path

from .texts import escaped

STDIN = "-"
PACKAGE = __name__.partition(".")[0]
SINGULARS = {"copies": "copy", "publishes": "publish"}
MQR = "mqr"  # the command that has all others as subcommands
# What is typed behind it for a command, where that isn't the command's own name.
FOLDED = {"who-loses": "preview --outputs", "compare-log": "replay --log", "acl compare": "compare",
          "acl lint": "lint", "acl why": "may"}


def own_name() -> str:
    """The tool's name, as it was called: log_to_script in a clone, mqroute-log-to-script where it
    is installed, and `mqr log-to-script` as a subcommand."""
    return Path(sys.argv[0]).stem


def typed(command: str) -> str:
    """What is typed for a command, such as plan or `acl compare`: a subcommand of mqr where this
    one was."""
    if own_name().partition(" ")[0] == MQR:
        return f"{MQR} {FOLDED.get(command, command)}"
    return f"mqroute-{command}"


def note(text: str) -> None:
    """One line on standard error, if that takes it."""
    if sys.stderr is not None:
        with suppress(OSError):
            print(escaped(text), file=sys.stderr)


def say(text: str) -> None:
    note(f"{own_name()}: {text}")


def named(name: str) -> str:
    """A file as a message names it."""
    return "standard input" if name == STDIN else escaped(name)


def one_of(noun: str) -> str:
    return SINGULARS.get(noun, noun.removesuffix("s"))


def counted(number: int, things: str, form: str = "") -> str:
    """`1 line read`, `2 lines read`: the first word of `things` is a plural. With the form `,` the
    number has thousands separators."""
    noun, blank, rest = things.partition(" ")
    return f"{number:{form}} {one_of(noun) if number == 1 else noun}{blank}{rest}"


def numbered(text: str, number: int) -> str:
    """`{} lines sent` with the number: `1 line sent`."""
    before, _, things = text.partition("{} ")
    return before + counted(number, things)


def in_words(fault: BaseException) -> str:
    """`x: No such file or directory`, as other programs say it."""
    if isinstance(fault, OSError) and fault.strerror:
        name = os.fsdecode(fault.filename) if isinstance(fault.filename, (str, bytes)) else ""
        return f"{name}: {fault.strerror}" if name else fault.strerror
    if isinstance(fault, MemoryError):
        return "out of memory"
    if isinstance(fault, OSError) or type(fault).__module__.startswith(PACKAGE):
        return str(fault)
    return own_fault(fault)


def own_fault(fault: BaseException) -> str:
    """What no tool raises for a user: where it was raised, for whoever mends it."""
    steps = traceback.extract_tb(fault.__traceback__)
    where = f" at {Path(steps[-1].filename).name}:{steps[-1].lineno}" if steps else ""
    return f"a fault of this tool{where}: {type(fault).__name__}: {fault}"
