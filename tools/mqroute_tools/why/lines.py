"""What is asked: a script, the line of a publish in it, and a client or none."""
from collections.abc import Callable, Iterator
from dataclasses import dataclass

from ..common.exit_status import Fault
from ..common.files import at, open_input
from ..common.messages import counted
from ..common.tables import shown
from ..script.commands import Seen
from ..script.output import Block, Command, command_of, is_blank


Accepted = tuple[int, Command, Block]  # a line, and what mqroute answered


@dataclass
class Script:
    name: str
    lines: list[bytes]  # each with a line feed
    commands: list[Command | None]
    called: Callable[[int], str] = "line {}".format  # what a line is called
    is_of_log: bool = False

    def publish(self, number: int) -> Command:
        """The command of a line, which has to be a publish."""
        if not 1 <= number <= len(self.lines):
            raise Fault(f"{self.name} has {counted(len(self.lines), 'lines')}, and no line "
                        f"{number}")
        command, place = self.commands[number - 1], at(self.name, number)
        if is_blank(self.lines[number - 1]):
            raise Fault(f"{place}: blank, and no publish")
        do = command.get("do") if command else None
        if command is None or do != "publish":
            what = f"a line with {do}" if isinstance(do, str) else "no command"
            raise Fault(f"{place}: {what}, and no publish")
        return command

    def has(self, client: str) -> bool:
        """Whether a command is of this client."""
        return any(command and command.get("client") == client for command in self.commands)

    def accepted(self, blocks: dict[int, Block], first: int, last: int) -> Iterator[Accepted]:
        """The commands of these lines that mqroute accepted."""
        for number in range(first, last + 1):
            command, block = self.commands[number - 1], blocks.get(number)
            if command is not None and block is not None and not block.refused:
                yield number, command, block

    def refused(self, blocks: dict[int, Block], client: str, last: int) -> Iterator[Block]:
        """The answers to the subscribes of a client up to this line that mqroute refused."""
        for number in range(1, last + 1):
            command, block = self.commands[number - 1], blocks.get(number)
            if command and command.get("do") == "subscribe" and command.get("client") == client \
                    and block is not None and block.refused:
                yield block


@dataclass
class Question:
    script: Script
    line: int
    client: str | None  # None: all that have connected by the line
    place: str  # of the line, as it is shown

    def __post_init__(self) -> None:
        self.publish = self.script.publish(self.line)
        if self.client is not None and not self.script.has(self.client):
            raise Fault(f"no command of {self.script.name} is of the client {shown(self.client)}")


def read_script(name: str) -> Script:
    seen = Seen(name)
    with open_input(name) as stream:
        lines = stream.readlines()
    for line in lines:
        seen.add(line)
    seen.refuse()
    if not lines[-1].endswith(b"\n"):
        lines[-1] += b"\n"
    return Script(name, lines, [command_of(line) for line in lines])
