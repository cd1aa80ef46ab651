"""Wills. A script has none; but a client that publishes, and is gone at once, does to all others
what its will does.

A PUBLISH with the payload `will`, before its client's disconnect and sent to nobody of that name,
can be run as a will: it goes with the connection, and the broker has to publish it when that ends
without a DISCONNECT.
"""
from collections.abc import Iterable
from typing import NamedTuple

from ..script.output import Block, Command
from .broker_diff import copies_of

PAYLOAD = "will"


class Will(NamedTuple):
    message: Command
    block: Block  # mqroute's answer to it


class Wills:
    """Those of a script, by the numbers of its lines."""

    def __init__(self, lines: Iterable[tuple[int, Command, Block]] = ()) -> None:
        self.given: dict[int, Will] = {}  # at a connect
        self.published: set[int] = set()  # these lines aren't sent
        self.due: dict[int, Will] = {}  # at a disconnect
        connects: dict[str, int] = {}
        before: tuple[int, Command, Block] | None = None
        for number, command, block in lines:
            client = command.get("client", "")
            if command["do"] == "connect":
                connects[client] = number
            if (command["do"] == "disconnect" and before and client in connects
                    and is_will(before[1], before[2], client)):
                will = Will(before[1], before[2])
                self.given[connects[client]] = self.due[number] = will
                self.published.add(before[0])
            before = number, command, block


def is_will(command: Command, block: Block, client: str) -> bool:
    """Whether it's what this client's will can do: a dead client gets no copy."""
    said = command["do"], command.get("client"), command.get("payload")
    mine = said == ("publish", client, PAYLOAD)
    return mine and all(copy.client != client for copy in copies_of(block))
