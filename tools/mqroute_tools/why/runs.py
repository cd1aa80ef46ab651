"""mqroute, run on the script and on what is put behind its first lines."""
import argparse
import json
from collections.abc import Iterable, Iterator, Mapping
from itertools import chain

from ..common.exit_status import Fault
from ..common.messages import named
from ..script.access_list import AccessList
from ..script.oracle import each_answer, found_program
from ..script.output import Block, Command
from ..script.sessions import FOREVER
from .disagreement import Disagreement
from .history import GROUP
from .lines import Script

Limits = Mapping[str, int | None]
QUEUE_ALL: Limits = {"max-queued": 4_294_967_295}  # the greatest number that mqroute takes
RETAIN_ALL: Limits = {"max-retained": None}
MARK = "why"
NONE: list[str] = []


class Runs:
    def __init__(self, options: argparse.Namespace, script: Script,
                 given: AccessList | None) -> None:
        self.script, self.given = script, given
        self.words = [found_program(), f"--rules={options.rules}"]
        if given is not None:
            self.words.append(f"--acl-file={given.path}")
        self.limits = {"max-retained": options.max_retained, "max-queued": options.max_queued}

    def answers(self, script: Iterable[bytes], first: int = 1,
                limits: Limits = {}) -> Iterator[Block]:
        """From a line on, with the limits of the command line or these in their place."""
        words = self.words + [f"--{name}={limit}" for name, limit in (self.limits | limits).items()
                              if limit is not None]
        try:
            yield from each_answer(words, script, first)
        except Fault as fault:
            if self.given is None:
                raise
            raise Fault(str(fault).replace(self.given.path, named(self.given.name))) from fault

    def all(self, number: int) -> dict[int, Block]:
        """The answers to the script, by its lines, as far as they are about the publish on this
        line: all other copies are left out."""
        wanted = WantedCopies(self.script, number)
        return {block.line: wanted.of(block) for block in self.answers(self.script.lines)}

    def waits(self, number: int, publish: Command, clients: list[str],
              limits: Limits = {}) -> set[str]:
        """For which of these clients, that are away, a copy of the line begins to wait.

        It is published with a payload that no other line has, without RETAIN and expiry, which
        no copy waits by, and the clients come back at once.
        """
        payloads = {str(command.get("payload")) for command in self.script.commands if command}
        mark = MARK
        while mark in payloads:
            mark += "'"
        put = [{name: value for name, value in publish.items() if name not in ("retain", "expiry")}
               | {"payload": mark}]
        put += [{"do": "connect", "client": client, "clean": False, "session_expiry": FOREVER}
                for client in clients]
        script = chain(self.script.lines[:number - 1], [text_of(put)])
        blocks = list(self.answers(script, number, limits))
        if len(blocks) != len(put) or any(block.refused for block in blocks):
            raise Disagreement(number, "it is refused where it has neither RETAIN nor an expiry")
        return {client for client, block in zip(clients, blocks[1:])
                if any(copy["payload"] == mark for copy in block.answers()[:-1])}

    def is_accepted(self, number: int, limits: Limits) -> bool:
        blocks = list(self.answers(self.script.lines[:number], number, limits))
        return bool(blocks) and not blocks[-1].refused


class WantedCopies:
    """Those of the publish itself; before and behind it those of groups, whose turn they were; and
    behind it those of its topic that were sent at a connect or a subscribe."""

    def __init__(self, script: Script, number: int) -> None:
        self.script, self.number = script, number
        topic = str(script.publish(number)["topic"])
        is_plain = topic.isascii() and topic.isprintable() and not set('"\\') & set(topic)
        self.topic = f'"topic":"{topic}"' if is_plain else ""  # as mqroute writes it

    def of(self, block: Block) -> Block:
        if block.line == self.number:
            return block
        copies = block.copies
        command = self.script.commands[block.line - 1] or {}
        if command.get("do") == "publish":
            copies = [text for text in copies if GROUP in text]
        elif block.line < self.number:
            copies = []
        elif copies:
            copies = [text for text in copies if self.topic in text]
        return block._replace(copies=copies or NONE, end="")


def text_of(commands: Iterable[Command]) -> bytes:
    return "".join(json.dumps(command) + "\n" for command in commands).encode()
